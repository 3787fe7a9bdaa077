package goodlock.runtime;

import java.lang.reflect.Field;
import java.lang.reflect.Method;
import java.util.Map;
import java.util.concurrent.locks.AbstractQueuedLongSynchronizer;
import java.util.concurrent.locks.AbstractQueuedSynchronizer;
import java.util.concurrent.locks.ReentrantLock;
import java.util.concurrent.locks.ReentrantReadWriteLock;
import java.util.concurrent.locks.StampedLock;

/** Which locks of java.util.concurrent an object is, and what stands for the lock where several objects share it. */
final class Kinds {
    /** Methods that a class of the program's may have in place of a lock's, as bits. */
    static final int LOCK = 1;
    static final int LOCK_INTERRUPTIBLY = 2;
    static final int TRY_LOCK = 4;
    static final int UNLOCK = 8;

    private static final Map<String, Integer> METHODS =
            Map.of("lock", LOCK, "lockInterruptibly", LOCK_INTERRUPTIBLY, "tryLock", TRY_LOCK, "unlock", UNLOCK);
    private static final ClassValue<Integer> OVERRIDDEN = new ClassValue<>() {
        @Override
        protected Integer computeValue(Class<?> type) {
            int found = 0;
            try {
                for (Method method : type.getMethods()) {
                    boolean own = method.getDeclaringClass().getClassLoader() != null;
                    found |= own ? METHODS.getOrDefault(method.getName(), 0) : 0;
                }
            } catch (LinkageError missing) {
                return 0; // a class that a method's declaration names isn't there
            }
            return found;
        }
    };

    private static final Class<?> READ_VIEW = nested(StampedLock.class, "ReadLockView");
    private static final Class<?> WRITE_VIEW = nested(StampedLock.class, "WriteLockView");
    private static final Field REENTRANT = field(ReentrantLock.class, "sync");
    private static final Field READ = field(ReentrantReadWriteLock.ReadLock.class, "sync");
    private static final Field WRITE = field(ReentrantReadWriteLock.WriteLock.class, "sync");
    private static final Field READ_WRITE = field(ReentrantReadWriteLock.class, "sync");
    private static final Field READ_VIEW_OUTER = field(READ_VIEW, "this$0");
    private static final Field WRITE_VIEW_OUTER = field(WRITE_VIEW, "this$0");
    private static final Field CONDITION = field(AbstractQueuedSynchronizer.ConditionObject.class, "this$0");
    private static final Field LONG_CONDITION = field(AbstractQueuedLongSynchronizer.ConditionObject.class, "this$0");

    private Kinds() {
    }

    /** Looks for the fields, while that is allowed. */
    static void start() {
        nameOf(REENTRANT);
    }

    private static Class<?> nested(Class<?> outer, String name) {
        for (Class<?> inner : outer.getDeclaredClasses()) {
            if (inner.getSimpleName().equals(name)) {
                return inner;
            }
        }
        return null;
    }

    /** A field that may be read, or null. The agent opens the packages. */
    static Field field(Class<?> owner, String name) {
        try {
            Field field = owner == null ? null : owner.getDeclaredField(name);
            if (field != null) {
                field.setAccessible(true);
            }
            return field;
        } catch (ReflectiveOperationException | RuntimeException absent) {
            return null;
        }
    }

    /** Whether calls of lock and unlock on the object are those of a lock that is recorded. */
    static boolean isLock(Object object) {
        return object instanceof ReentrantLock || object instanceof ReentrantReadWriteLock.ReadLock
                || object instanceof ReentrantReadWriteLock.WriteLock || object != null && isView(object.getClass());
    }

    private static boolean isView(Class<?> type) {
        return type == READ_VIEW || type == WRITE_VIEW;
    }

    /** Whether the object's class, one of the program's, has one of these methods itself. */
    static boolean overrides(Object lock, int methods) {
        Class<?> type = lock.getClass();
        return type.getClassLoader() != null && (OVERRIDDEN.get(type) & methods) != 0;
    }

    static boolean isShared(Object object) {
        return object instanceof ReentrantReadWriteLock.ReadLock || object.getClass() == READ_VIEW;
    }

    /** The object that stands for the lock: the same for both sides of a reader-writer lock, and for the conditions of a lock. */
    static Object keyOf(Object object) {
        if (object instanceof ReentrantLock) {
            return value(REENTRANT, object);
        }
        if (object instanceof ReentrantReadWriteLock.ReadLock) {
            return value(READ, object);
        }
        if (object instanceof ReentrantReadWriteLock.WriteLock) {
            return value(WRITE, object);
        }
        if (object instanceof ReentrantReadWriteLock) {
            return value(READ_WRITE, object);
        }
        if (object.getClass() == READ_VIEW) {
            return value(READ_VIEW_OUTER, object);
        }
        if (object.getClass() == WRITE_VIEW) {
            return value(WRITE_VIEW_OUTER, object);
        }
        if (object instanceof AbstractQueuedSynchronizer.ConditionObject) {
            return value(CONDITION, object);
        }
        if (object instanceof AbstractQueuedLongSynchronizer.ConditionObject) {
            return value(LONG_CONDITION, object);
        }
        return object;
    }

    private static Object value(Field field, Object object) {
        try {
            Object value = field == null ? null : field.get(object);
            return value == null ? object : value;
        } catch (IllegalAccessException refused) {
            return object;
        }
    }

    /** Whether the present thread holds this lock; yes where nobody knows. */
    static boolean isHeld(LockEntry entry) {
        Object object = entry.get();
        if (entry.monitor && object != null) {
            return Thread.holdsLock(object);
        }
        if (object instanceof ReentrantLock) {
            return ((ReentrantLock) object).isHeldByCurrentThread();
        }
        if (object instanceof ReentrantReadWriteLock.WriteLock) {
            return ((ReentrantReadWriteLock.WriteLock) object).isHeldByCurrentThread();
        }
        return object != null;
    }

    static boolean isCondition(Object object) {
        return object instanceof AbstractQueuedSynchronizer.ConditionObject
                || object instanceof AbstractQueuedLongSynchronizer.ConditionObject;
    }

    /** What stands for the class in the name of an object's monitor. That of a lock of java.util.concurrent is another lock. */
    static String nameOfMonitor(Object object) {
        boolean isLock = isLock(object) || object instanceof ReentrantReadWriteLock || object instanceof StampedLock;
        return nameOf(object) + (isLock ? ".monitor" : "");
    }

    /** What stands for the class in a lock's name. */
    static String nameOf(Object object) {
        String name = nameOf(object.getClass());
        if (name.startsWith("ReentrantLock$") || name.startsWith("ReentrantReadWriteLock$")) {
            return name.substring(0, name.indexOf('$'));
        }
        return name;
    }

    /** The name of a class object's lock. */
    static String nameOfClass(Class<?> type) {
        return nameOf(type) + ".class";
    }

    /** A class's name without its package. That of a lambda's class has a number in it. */
    private static String nameOf(Class<?> type) {
        String name = withoutAddress(type.getTypeName());
        int lambda = name.indexOf("$$Lambda");
        if (lambda >= 0) {
            name = name.substring(0, lambda);
        }
        return name.substring(name.lastIndexOf('.') + 1) + (lambda < 0 ? "" : ".lambda");
    }

    /**
     * The name of a hidden class has an address behind a slash; that of an array of its objects ends in brackets all the same. No pattern is
     * looked for: where the stack ends meanwhile, that isn't told as an error of the JVM's.
     */
    private static String withoutAddress(String name) {
        int slash = name.indexOf('/');
        if (slash < 0) {
            return name;
        }
        int brackets = name.indexOf('[', slash);
        return name.substring(0, slash) + (brackets < 0 ? "" : name.substring(brackets));
    }
}
