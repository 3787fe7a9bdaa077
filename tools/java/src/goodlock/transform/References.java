package goodlock.transform;

import java.util.ArrayList;
import java.util.List;
import org.objectweb.asm.Handle;
import org.objectweb.asm.Opcodes;
import org.objectweb.asm.Type;
import org.objectweb.asm.tree.ClassNode;
import org.objectweb.asm.tree.InsnNode;
import org.objectweb.asm.tree.InvokeDynamicInsnNode;
import org.objectweb.asm.tree.LabelNode;
import org.objectweb.asm.tree.LineNumberNode;
import org.objectweb.asm.tree.MethodInsnNode;
import org.objectweb.asm.tree.MethodNode;
import org.objectweb.asm.tree.TypeInsnNode;
import org.objectweb.asm.tree.VarInsnNode;

/**
 * References to methods of locks, conditions and threads, as `lock::unlock` and `ReentrantLock::new`. The call isn't in the class's code,
 * so the reference is led to a method that is added to the class and makes the call, at the reference's line.
 */
final class References {
    private static final String FACTORY = "java/lang/invoke/LambdaMetafactory";
    private static final int HANDLE = 1;
    private static final int FLAGS = 3;
    private static final int SERIALIZABLE = 1;

    private final ClassNode owner;
    private final List<MethodNode> added = new ArrayList<>();

    References(ClassNode owner) {
        this.owner = owner;
    }

    /** The methods to add. */
    List<MethodNode> added() {
        return added;
    }

    /** Whether the instruction makes a reference to a method that is recorded, which then leads to an added one. */
    boolean replace(InvokeDynamicInsnNode instruction, int line) {
        if (!instruction.bsm.getOwner().equals(FACTORY) || isSerializable(instruction)
                || !(instruction.bsmArgs[HANDLE] instanceof Handle)) {
            return false;
        }
        Handle handle = (Handle) instruction.bsmArgs[HANDLE];
        boolean made = handle.getTag() == Opcodes.H_NEWINVOKESPECIAL;
        boolean called = handle.getTag() == Opcodes.H_INVOKEVIRTUAL || handle.getTag() == Opcodes.H_INVOKEINTERFACE;
        if (!made && !called || !CallInstrumenter.isRecorded(handle.getOwner(), handle.getName(), handle.getDesc())) {
            return false;
        }
        MethodNode method = made ? making(handle, line) : calling(handle, Type.getArgumentTypes(instruction.desc), line);
        added.add(method);
        boolean isInterface = (owner.access & Opcodes.ACC_INTERFACE) != 0;
        instruction.bsmArgs[HANDLE] = new Handle(Opcodes.H_INVOKESTATIC, owner.name, method.name, method.desc, isInterface);
        return true;
    }

    /** The name of the method is written where the object is, and has to stay. */
    private static boolean isSerializable(InvokeDynamicInsnNode instruction) {
        return instruction.bsmArgs.length > FLAGS && instruction.bsmArgs[FLAGS] instanceof Integer
                && ((Integer) instruction.bsmArgs[FLAGS] & SERIALIZABLE) != 0;
    }

    private MethodNode begun(String descriptor, int line) {
        int access = Opcodes.ACC_PRIVATE | Opcodes.ACC_STATIC | Opcodes.ACC_SYNTHETIC;
        MethodNode method = new MethodNode(access, "goodlock$reference$" + added.size(), descriptor, null, null);
        if (line >= 0) {
            LabelNode start = new LabelNode();
            method.instructions.add(start);
            method.instructions.add(new LineNumberNode(line, start));
        }
        return method;
    }

    private static void loadArguments(MethodNode method, Type[] arguments) {
        int place = 0;
        for (Type argument : arguments) {
            method.instructions.add(new VarInsnNode(argument.getOpcode(Opcodes.ILOAD), place));
            place += argument.getSize();
        }
        method.maxLocals = place;
    }

    /** An object that the reference has with it, as `lock::unlock`, is given as what it is there, which may be of a class made of the
     * method's. */
    private MethodNode calling(Handle handle, Type[] had, int line) {
        Type[] given = Type.getArgumentTypes(handle.getDesc());
        Type[] arguments = new Type[given.length + 1];
        arguments[0] = had.length > 0 ? had[0] : Type.getObjectType(handle.getOwner());
        System.arraycopy(given, 0, arguments, 1, given.length);
        Type result = Type.getReturnType(handle.getDesc());
        MethodNode method = begun(Type.getMethodDescriptor(result, arguments), line);
        loadArguments(method, arguments);
        int code = handle.isInterface() ? Opcodes.INVOKEINTERFACE : Opcodes.INVOKEVIRTUAL;
        method.instructions.add(new MethodInsnNode(code, handle.getOwner(), handle.getName(), handle.getDesc(), handle.isInterface()));
        method.instructions.add(new InsnNode(result.getOpcode(Opcodes.IRETURN)));
        return method;
    }

    private MethodNode making(Handle handle, int line) {
        Type[] arguments = Type.getArgumentTypes(handle.getDesc());
        MethodNode method = begun(Type.getMethodDescriptor(Type.getObjectType(handle.getOwner()), arguments), line);
        method.instructions.add(new TypeInsnNode(Opcodes.NEW, handle.getOwner()));
        method.instructions.add(new InsnNode(Opcodes.DUP));
        loadArguments(method, arguments);
        method.instructions.add(new MethodInsnNode(Opcodes.INVOKESPECIAL, handle.getOwner(), handle.getName(), handle.getDesc(), false));
        method.instructions.add(new InsnNode(Opcodes.ARETURN));
        return method;
    }
}
