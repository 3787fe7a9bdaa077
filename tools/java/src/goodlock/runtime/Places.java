package goodlock.runtime;

import java.lang.StackWalker.StackFrame;
import java.lang.reflect.Field;
import java.util.Iterator;
import java.util.stream.Stream;

/** Places that only the stack tells, and what a thread runs. */
final class Places {
    private static final StackWalker WALKER = StackWalker.getInstance(StackWalker.Option.RETAIN_CLASS_REFERENCE);
    private static final Field TARGET = Kinds.field(Thread.class, "target");
    private static final Field HOLDER = Kinds.field(Thread.class, "holder");
    private static final Field TASK = Kinds.field(HOLDER == null ? null : HOLDER.getType(), "task");
    /** In front of a number: the names of threads that the program gives none. */
    private static final String NUMBERED = "Thread-";
    private static int frames;

    private Places() {
    }

    static void start(int wanted) {
        frames = wanted;
    }

    /** A place, with the callers of the innermost frame of the program's own: the one that called the recorder there. */
    static String withCallers(String place) {
        return WALKER.walk(stack -> text(stack, false, place));
    }

    /** The same, where classes of the JDK stand for their callers, if there is any of the program's. */
    static String ofCaller() {
        String text = WALKER.walk(stack -> text(stack, true, null));
        return text.isEmpty() ? WALKER.walk(stack -> text(stack, false, null)) : text;
    }

    /** `place`: what stands for the innermost frame, or null. */
    private static String text(Stream<StackFrame> stack, boolean programOnly, String place) {
        StringBuilder text = new StringBuilder();
        int count = 0;
        for (Iterator<StackFrame> at = stack.iterator(); at.hasNext() && count < frames;) {
            StackFrame frame = at.next();
            if (count == 0 && (isStart(frame) || programOnly && isOfJdk(frame))) {
                continue;
            }
            text.append(count == 0 ? "" : "\n").append(count == 0 && place != null ? place : textOf(frame));
            count++;
        }
        return text.toString();
    }

    /** A frame of the recorder's, or of Thread.start that called it. */
    private static boolean isStart(StackFrame frame) {
        Class<?> type = frame.getDeclaringClass();
        return type == Thread.class || type.getClassLoader() == null && type.getPackageName().equals("goodlock.runtime");
    }

    private static boolean isOfJdk(StackFrame frame) {
        ClassLoader loader = frame.getDeclaringClass().getClassLoader();
        return loader == null || loader == ClassLoader.getPlatformClassLoader();
    }

    private static String textOf(StackFrame frame) {
        String name = frame.getClassName();
        String file = frame.getFileName();
        if (frame.isNativeMethod()) {
            return name + "." + frame.getMethodName();
        }
        if (file == null || frame.getLineNumber() < 0) {
            return name + "." + frame.getMethodName() + "+" + frame.getByteCodeIndex();
        }
        return name.substring(0, name.lastIndexOf('.') + 1).replace('.', '/') + file + ":" + frame.getLineNumber();
    }

    /** A thread's name if the program chose one, else the class of what it runs, or nothing. */
    static String routineOf(Thread thread) {
        String name = thread.getName();
        if (isChosen(name)) {
            return name;
        }
        Object target = thread.getClass() != Thread.class ? thread : targetOf(thread);
        return target == null ? null : Kinds.nameOf(target);
    }

    /** Whether the program chose a thread's name. No pattern is looked for: where the stack ends meanwhile, that isn't told as an error of
     * the JVM's. */
    private static boolean isChosen(String name) {
        if (!name.startsWith(NUMBERED) || name.length() == NUMBERED.length()) {
            return !name.isEmpty();
        }
        for (int at = NUMBERED.length(); at < name.length(); at++) {
            if (name.charAt(at) < '0' || name.charAt(at) > '9') {
                return true;
            }
        }
        return false;
    }

    private static Object targetOf(Thread thread) {
        try {
            if (TARGET != null) {
                return TARGET.get(thread);
            }
            Object holder = HOLDER == null ? null : HOLDER.get(thread);
            return holder == null || TASK == null ? null : TASK.get(holder);
        } catch (IllegalAccessException refused) {
            return null;
        }
    }
}
