package goodlock.transform;

import goodlock.runtime.Recorder;
import java.util.Map;
import java.util.Set;
import org.objectweb.asm.Opcodes;
import org.objectweb.asm.Type;
import org.objectweb.asm.tree.AbstractInsnNode;
import org.objectweb.asm.tree.InsnList;
import org.objectweb.asm.tree.InsnNode;
import org.objectweb.asm.tree.MethodInsnNode;
import org.objectweb.asm.tree.MethodNode;
import org.objectweb.asm.tree.TypeInsnNode;
import org.objectweb.asm.tree.VarInsnNode;

/** Puts calls of the recorder before, after or in place of one call, if it is one of a lock's, condition's or thread's. */
final class CallInstrumenter {
    private static final String LOCKS = "java/util/concurrent/locks/";
    private static final String STAMPED = LOCKS + "StampedLock";
    private static final String OBJECT = "Ljava/lang/Object;";
    private static final String INTERRUPTIBLY = "lockInterruptibly()V";
    private static final String UNIT = "JLjava/util/concurrent/TimeUnit;";

    /** Classes whose objects are made to be locks. */
    private static final Set<String> MADE = Set.of("java/lang/Object", LOCKS + "ReentrantLock", LOCKS + "ReentrantReadWriteLock",
            STAMPED);
    private static final Set<String> LOCK_TYPES = Set.of(LOCKS + "Lock", LOCKS + "ReentrantLock",
            LOCKS + "ReentrantReadWriteLock$ReadLock", LOCKS + "ReentrantReadWriteLock$WriteLock");

    /** Calls of any class's, by name and descriptor. Whether the object is a lock, condition or thread is asked when the call is
     * made. */
    private static final Map<String, String> BEFORE = Map.ofEntries(
            Map.entry("lock()V", "lock"), Map.entry("unlock()V", "unlock"),
            Map.entry("wait()V", "waits"), Map.entry("wait(J)V", "waits"), Map.entry("wait(JI)V", "waits"),
            Map.entry("await()V", "awaits"), Map.entry("awaitUninterruptibly()V", "awaits"), Map.entry("awaitNanos(J)J", "awaits"),
            Map.entry("await(" + UNIT + ")Z", "awaits"), Map.entry("awaitUntil(Ljava/util/Date;)Z", "awaits"));
    private static final Map<String, String> AFTER = Map.of(
            "tryLock()Z", "tried", "tryLock(" + UNIT + ")Z", "tried",
            "join()V", "joined", "join(J)V", "joined", "join(JI)V", "joined", "join(Ljava/time/Duration;)Z", "joined");

    private static final Map<String, String> STAMPED_BEFORE = Map.of("readLock()J", "stampedRead", "writeLock()J", "stampedWrite");
    private static final Map<String, String> STAMPED_INSTEAD = Map.of(
            "readLockInterruptibly()J", "stampedReadInterruptibly", "writeLockInterruptibly()J", "stampedWriteInterruptibly");
    private static final Map<String, String> STAMPED_AFTER = Map.ofEntries(
            Map.entry("tryReadLock()J", "stampedTriedRead"), Map.entry("tryReadLock(" + UNIT + ")J", "stampedTriedRead"),
            Map.entry("tryWriteLock()J", "stampedTriedWrite"), Map.entry("tryWriteLock(" + UNIT + ")J", "stampedTriedWrite"),
            Map.entry("unlock(J)V", "stampedUnlocked"), Map.entry("unlockRead(J)V", "stampedUnlocked"),
            Map.entry("unlockWrite(J)V", "stampedUnlocked"),
            Map.entry("tryUnlockRead()Z", "stampedTriedUnlock"), Map.entry("tryUnlockWrite()Z", "stampedTriedUnlock"),
            Map.entry("tryConvertToReadLock(J)J", "stampedConverted"), Map.entry("tryConvertToWriteLock(J)J", "stampedConverted"),
            Map.entry("tryConvertToOptimisticRead(J)J", "stampedConverted"));

    private final MethodInstrumenter places;
    private final String superName;
    private final MethodNode method;
    private final MethodInsnNode call;
    private final Type[] arguments;
    private final int firstTemporary;

    CallInstrumenter(MethodInstrumenter places, String superName, MethodNode method, MethodInsnNode call, int firstTemporary) {
        this.places = places;
        this.superName = superName;
        this.method = method;
        this.call = call;
        this.firstTemporary = firstTemporary;
        arguments = Type.getArgumentTypes(call.desc);
    }

    /** Whether a call of this method is one of these. */
    static boolean isRecorded(String owner, String name, String descriptor) {
        if (name.equals("<init>")) {
            return MADE.contains(owner);
        }
        String key = name + descriptor;
        boolean stamped = STAMPED_BEFORE.containsKey(key) || STAMPED_INSTEAD.containsKey(key) || STAMPED_AFTER.containsKey(key);
        return BEFORE.containsKey(key) || AFTER.containsKey(key) || key.equals(INTERRUPTIBLY) || owner.equals(STAMPED) && stamped;
    }

    /** Whether the call is one of these. */
    boolean instrument() {
        if (call.getOpcode() == Opcodes.INVOKESTATIC) {
            return false;
        }
        if (call.name.equals("<init>")) {
            return made();
        }
        String key = call.name + call.desc;
        if (call.owner.equals(STAMPED)) {
            return stamped(key);
        }
        if (key.equals(INTERRUPTIBLY)) {
            return interruptible();
        }
        return before(BEFORE.get(key)) || after(AFTER.get(key));
    }

    private boolean stamped(String key) {
        return before(STAMPED_BEFORE.get(key)) || after(STAMPED_AFTER.get(key))
                || instead(STAMPED_INSTEAD.get(key), "(L" + STAMPED + ";I)J") || before(BEFORE.get(key));
    }

    /** Where it isn't known that the object is a Lock, or the call is by `super`, the acquire is written after the call. */
    private boolean interruptible() {
        boolean replaced = LOCK_TYPES.contains(call.owner) && instead("lockInterruptibly", "(L" + LOCKS + "Lock;I)V");
        return replaced || after("lockedInterruptibly");
    }

    private boolean instead(String name, String descriptor) {
        if (name == null || call.getOpcode() == Opcodes.INVOKESPECIAL) {
            return false;
        }
        method.instructions.insertBefore(call, places.site(0));
        method.instructions.set(call, MethodInstrumenter.call(name, descriptor));
        return true;
    }

    private boolean before(String name) {
        if (name == null) {
            return false;
        }
        InsnList hook = new InsnList();
        storeArguments(hook);
        hook.add(new InsnNode(Opcodes.DUP));
        hook.add(site());
        hook.add(MethodInstrumenter.call(name, "(" + OBJECT + "I)V"));
        loadArguments(hook);
        method.instructions.insertBefore(call, hook);
        return true;
    }

    /** The object is kept below the call's arguments; afterwards the recorder gets it, with the result and, of a conversion, the
     * argument. */
    private boolean after(String name) {
        if (name == null) {
            return false;
        }
        InsnList hook = new InsnList();
        storeArguments(hook);
        hook.add(new InsnNode(Opcodes.DUP));
        loadArguments(hook);
        method.instructions.insertBefore(call, hook);
        Type result = Type.getReturnType(call.desc);
        boolean told = result != Type.VOID_TYPE;
        InsnList report = new InsnList();
        if (told) {
            report.add(new InsnNode(result.getSize() == 2 ? Opcodes.DUP2_X1 : Opcodes.DUP_X1));
        }
        String descriptor = "(" + OBJECT + (told ? result.getDescriptor() : "");
        if (name.equals("stampedConverted")) {
            report.add(new VarInsnNode(Opcodes.LLOAD, firstTemporary));
            descriptor += "J";
        }
        report.add(site());
        report.add(MethodInstrumenter.call(name, descriptor + "I)V"));
        method.instructions.insert(call, report);
        return true;
    }

    /** The place of a call by `super` is told apart: it reaches the method of that class, whatever the object's class has. */
    private AbstractInsnNode site() {
        return call.getOpcode() == Opcodes.INVOKESPECIAL ? places.site(Recorder.BY_SUPER) : places.site(0);
    }

    private void storeArguments(InsnList into) {
        int place = firstTemporary;
        for (Type argument : arguments) {
            place += argument.getSize();
        }
        for (int i = arguments.length - 1; i >= 0; i--) {
            place -= arguments[i].getSize();
            into.add(new VarInsnNode(arguments[i].getOpcode(Opcodes.ISTORE), place));
        }
    }

    private void loadArguments(InsnList into) {
        int place = firstTemporary;
        for (Type argument : arguments) {
            into.add(new VarInsnNode(argument.getOpcode(Opcodes.ILOAD), place));
            place += argument.getSize();
        }
    }

    /** After `new` of a lock that is kept (the compiler has put it on the stack twice), or in a constructor of a class of locks, after
     * that of the lock. */
    private boolean made() {
        if (!MADE.contains(call.owner)) {
            return false;
        }
        TypeInsnNode start = startOfNew();
        boolean bySuper = start == null && method.name.equals("<init>") && call.owner.equals(superName)
                && !call.owner.equals("java/lang/Object");
        boolean kept = start != null && start.desc.equals(call.owner) && start.getNext().getOpcode() == Opcodes.DUP;
        if (!bySuper && !kept) {
            return false;
        }
        InsnList hook = new InsnList();
        hook.add(bySuper ? new VarInsnNode(Opcodes.ALOAD, 0) : new InsnNode(Opcodes.DUP));
        hook.add(places.site(0));
        hook.add(MethodInstrumenter.call("made", "(" + OBJECT + "I)V"));
        method.instructions.insert(call, hook);
        return true;
    }

    /** The `new` of the object that this constructor is called for; null where it is called for the object of the present one. */
    private TypeInsnNode startOfNew() {
        int inner = 0;
        for (AbstractInsnNode at = call.getPrevious(); at != null; at = at.getPrevious()) {
            if (at instanceof MethodInsnNode && ((MethodInsnNode) at).name.equals("<init>")) {
                inner++;
            } else if (at.getOpcode() == Opcodes.NEW) {
                if (inner == 0) {
                    return (TypeInsnNode) at;
                }
                inner--;
            }
        }
        return null;
    }
}
