package goodlock.transform;

import goodlock.runtime.Recorder;
import java.util.Set;
import org.objectweb.asm.Opcodes;
import org.objectweb.asm.Type;
import org.objectweb.asm.tree.AbstractInsnNode;
import org.objectweb.asm.tree.ClassNode;
import org.objectweb.asm.tree.FrameNode;
import org.objectweb.asm.tree.InsnList;
import org.objectweb.asm.tree.InsnNode;
import org.objectweb.asm.tree.InvokeDynamicInsnNode;
import org.objectweb.asm.tree.JumpInsnNode;
import org.objectweb.asm.tree.LabelNode;
import org.objectweb.asm.tree.LdcInsnNode;
import org.objectweb.asm.tree.LineNumberNode;
import org.objectweb.asm.tree.MethodInsnNode;
import org.objectweb.asm.tree.MethodNode;
import org.objectweb.asm.tree.TryCatchBlockNode;
import org.objectweb.asm.tree.VarInsnNode;

/** Puts calls of the recorder into one method. */
final class MethodInstrumenter {
    static final String RECORDER = "goodlock/runtime/Recorder";
    private static final String OBJECT_AND_SITE = "(Ljava/lang/Object;I)V";
    private static final Set<String> LOADS_CLASSES =
            Set.of("(Ljava/lang/String;)Ljava/lang/Class;", "(Ljava/lang/String;Z)Ljava/lang/Class;");
    private static final String UNSEEN_METHODS = "%d synchronized methods of an old or unusual form: their monitors aren't recorded";

    private final ClassNode owner;
    private final MethodNode method;
    private final boolean loaded;
    private final References references;
    private final int firstTemporary;
    private int line = -1;
    private int count;
    private boolean changed;

    /** `references`: null where no method can be added. */
    MethodInstrumenter(ClassNode owner, MethodNode method, boolean loaded, References references) {
        this.owner = owner;
        this.method = method;
        this.loaded = loaded;
        this.references = references;
        firstTemporary = method.maxLocals;
    }

    static void hookThreadStart(MethodNode method) {
        InsnList hook = new InsnList();
        hook.add(new VarInsnNode(Opcodes.ALOAD, 0));
        hook.add(new MethodInsnNode(Opcodes.INVOKESTATIC, RECORDER, "starting", "(Ljava/lang/Thread;)V", false));
        method.instructions.insert(hook);
    }

    boolean instrument() {
        for (AbstractInsnNode at = method.instructions.getFirst(); at != null;) {
            AbstractInsnNode following = at.getNext();
            count++;
            if (at instanceof LineNumberNode) {
                line = ((LineNumberNode) at).line;
            } else if (at.getOpcode() == Opcodes.MONITORENTER) {
                monitor(at, "monitorEnter");
            } else if (at.getOpcode() == Opcodes.MONITOREXIT) {
                monitor(at, "monitorExit");
            } else if (at instanceof MethodInsnNode) {
                changed |= new CallInstrumenter(this, owner.superName, method, (MethodInsnNode) at, firstTemporary).instrument();
            } else if (at instanceof InvokeDynamicInsnNode && references != null) {
                changed |= references.replace((InvokeDynamicInsnNode) at, line);
            }
            at = following;
        }
        if ((method.access & Opcodes.ACC_SYNCHRONIZED) != 0) {
            synchronizedMethod();
        }
        if (method.name.equals("loadClass") && LOADS_CLASSES.contains(method.desc) && (method.access & Opcodes.ACC_STATIC) == 0) {
            findRecorder();
        }
        return changed;
    }

    /** A class loader that asks no other one, as those of OSGi, finds the recorder all the same. */
    private void findRecorder() {
        LabelNode other = new LabelNode();
        InsnList hook = new InsnList();
        hook.add(new VarInsnNode(Opcodes.ALOAD, 1));
        hook.add(call("isRecorder", "(Ljava/lang/String;)Z"));
        hook.add(new JumpInsnNode(Opcodes.IFEQ, other));
        hook.add(call("itself", "()Ljava/lang/Class;"));
        hook.add(new InsnNode(Opcodes.ARETURN));
        hook.add(other);
        boolean resolves = Type.getArgumentTypes(method.desc).length > 1;
        Object[] locals = {owner.name, "java/lang/String", Opcodes.INTEGER};
        hook.add(new FrameNode(Opcodes.F_NEW, resolves ? 3 : 2, locals, 0, new Object[0]));
        hook.add(new InsnNode(Opcodes.NOP));
        method.instructions.insert(hook);
        changed = true;
    }

    // --- Places

    /** Pushes the number of the present place, with a mark. */
    AbstractInsnNode site(int mark) {
        return new LdcInsnNode(Recorder.place(place(line)) | mark);
    }

    private AbstractInsnNode siteOf(int number) {
        return new LdcInsnNode(Recorder.place(place(number)));
    }

    private String place(int number) {
        if (owner.sourceFile == null || number < 0) {
            return owner.name.replace('/', '.') + "." + method.name + "+" + count;
        }
        return owner.name.substring(0, owner.name.lastIndexOf('/') + 1) + owner.sourceFile + ":" + number;
    }

    static MethodInsnNode call(String name, String descriptor) {
        return new MethodInsnNode(Opcodes.INVOKESTATIC, RECORDER, name, descriptor, false);
    }

    // --- Monitors

    private void monitor(AbstractInsnNode at, String name) {
        InsnList hook = new InsnList();
        hook.add(new InsnNode(Opcodes.DUP));
        hook.add(site(0));
        hook.add(call(name, OBJECT_AND_SITE));
        method.instructions.insertBefore(at, hook);
        changed = true;
    }

    /**
     * A synchronized method takes its monitor before its first instruction, where nothing could be put before. So it becomes one
     * with a synchronized block. A class that is loaded can't lose the flag: there the acquire is written just after it.
     */
    private void synchronizedMethod() {
        boolean isStatic = (method.access & Opcodes.ACC_STATIC) != 0;
        if (isStatic && (owner.version & 0xffff) < Opcodes.V1_5 || !isStatic && storesThis()) {
            Recorder.note(UNSEEN_METHODS);
            return;
        }
        boolean block = !loaded;
        if (block) {
            method.access &= ~Opcodes.ACC_SYNCHRONIZED;
        }
        LabelNode start = new LabelNode();
        InsnList entry = monitorCalls("monitorEnter", firstLine(), block ? Opcodes.MONITORENTER : Opcodes.NOP);
        entry.add(start);
        method.instructions.insert(entry);
        guardBody(start, block ? Opcodes.MONITOREXIT : Opcodes.NOP);
        changed = true;
    }

    private boolean storesThis() {
        for (AbstractInsnNode at : method.instructions) {
            if (at.getOpcode() == Opcodes.ASTORE && ((VarInsnNode) at).var == 0) {
                return true;
            }
        }
        return false;
    }

    private int firstLine() {
        for (AbstractInsnNode at : method.instructions) {
            if (at instanceof LineNumberNode) {
                return ((LineNumberNode) at).line;
            }
        }
        return -1;
    }

    private AbstractInsnNode pushMonitor() {
        if ((method.access & Opcodes.ACC_STATIC) != 0) {
            return new LdcInsnNode(Type.getObjectType(owner.name));
        }
        return new VarInsnNode(Opcodes.ALOAD, 0);
    }

    private InsnList monitorCalls(String name, int number, int instruction) {
        InsnList calls = new InsnList();
        calls.add(pushMonitor());
        calls.add(siteOf(number));
        calls.add(call(name, OBJECT_AND_SITE));
        if (instruction != Opcodes.NOP) {
            calls.add(pushMonitor());
            calls.add(new InsnNode(instruction));
        }
        return calls;
    }

    /** Before each return the monitor is left, and at an exception that leaves the method. The ranges of the handler end where the
     * monitor is left, as the compiler's do. */
    private void guardBody(LabelNode first, int exit) {
        LabelNode handler = new LabelNode();
        LabelNode start = first;
        int at = -1;
        for (AbstractInsnNode instruction : method.instructions.toArray()) {
            if (instruction instanceof LineNumberNode) {
                at = ((LineNumberNode) instruction).line;
            }
            int code = instruction.getOpcode();
            if (code >= Opcodes.IRETURN && code <= Opcodes.RETURN) {
                LabelNode end = new LabelNode();
                InsnList calls = monitorCalls("monitorExit", at, exit);
                calls.add(end);
                method.instructions.insertBefore(instruction, calls);
                method.tryCatchBlocks.add(new TryCatchBlockNode(start, end, handler, null));
                start = new LabelNode();
                method.instructions.insert(instruction, start);
            }
        }
        LabelNode end = new LabelNode();
        method.instructions.add(end);
        if (hasCode(start, end)) {
            method.tryCatchBlocks.add(new TryCatchBlockNode(start, end, handler, null));
        }
        addHandler(handler, at, exit);
    }

    /** Also where the thread has no stack for the recorder's call the monitor is left. */
    private void addHandler(LabelNode handler, int at, int exit) {
        LabelNode told = new LabelNode();
        method.instructions.add(handler);
        method.instructions.add(handlerFrame());
        method.instructions.add(monitorCalls("monitorExit", at, Opcodes.NOP));
        method.instructions.add(told);
        method.instructions.add(handlerFrame());
        method.tryCatchBlocks.add(new TryCatchBlockNode(handler, told, told, null));
        if (exit != Opcodes.NOP) {
            method.instructions.add(pushMonitor());
            method.instructions.add(new InsnNode(exit));
        }
        method.instructions.add(new InsnNode(Opcodes.ATHROW));
    }

    private static boolean hasCode(AbstractInsnNode start, AbstractInsnNode end) {
        AbstractInsnNode at = start;
        while (at != end && at.getOpcode() < 0) {
            at = at.getNext();
        }
        return at != end;
    }

    private FrameNode handlerFrame() {
        boolean isStatic = (method.access & Opcodes.ACC_STATIC) != 0;
        Object[] locals = isStatic ? new Object[0] : new Object[] {owner.name};
        return new FrameNode(Opcodes.F_NEW, locals.length, locals, 1, new Object[] {"java/lang/Throwable"});
    }
}
