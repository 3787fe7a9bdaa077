package goodlock.transform;

import goodlock.runtime.Recorder;
import java.io.DataOutputStream;
import java.io.OutputStream;
import java.lang.instrument.ClassFileTransformer;
import java.lang.instrument.Instrumentation;
import java.lang.instrument.UnmodifiableClassException;
import java.security.AccessController;
import java.security.MessageDigest;
import java.security.NoSuchAlgorithmException;
import java.security.PrivilegedAction;
import java.security.ProtectionDomain;
import java.util.ArrayList;
import java.util.HashSet;
import java.util.List;
import java.util.Set;
import org.objectweb.asm.ClassReader;
import org.objectweb.asm.ClassWriter;
import org.objectweb.asm.Opcodes;
import org.objectweb.asm.commons.SerialVersionUIDAdder;
import org.objectweb.asm.tree.ClassNode;
import org.objectweb.asm.tree.FieldNode;
import org.objectweb.asm.tree.MethodNode;

/** Instruments the program's classes as they are loaded, and java.lang.Thread. */
public final class Transformer implements ClassFileTransformer {
    private static final String THREAD = "java/lang/Thread";
    private static final String LEFT_AS_IT_IS = "%d classes couldn't be instrumented: their locks aren't recorded (the first: ";

    /** The newest class files that each ASM from 9.1 on reads. Newer ones differ in nothing that matters here but their number. */
    private static final int NEWEST_READ = Opcodes.V17;
    private static final int VERSION_PLACE = 6;

    /** Classes of the JDK that are never instrumented: the recorder and the JVM's own work stand on them. */
    private static final String[] NEVER = {"java/lang/", "java/util/concurrent/locks/", "java/util/concurrent/atomic/", "jdk/",
        "sun/", "java/nio/", "java/security/", "com/sun/jndi/", "java/util/zip/", "java/util/jar/", "java/util/logging/Logger$"};

    private final boolean withJdk;
    /**
     * Classes that the JVM had loaded before the agent: they can't get or lose a method, a field or a flag. All others were instrumented
     * while they were loaded, and are again in the same way where another agent or a debugger has them transformed anew.
     */
    private final Set<Class<?>> loadedBefore;
    private String firstLeft;

    private Transformer(boolean withJdk, Class<?>[] loaded) {
        this.withJdk = withJdk;
        loadedBefore = new HashSet<>(List.of(loaded));
    }

    public static void install(Instrumentation instrumentation, boolean withJdk)
            throws UnmodifiableClassException, NoSuchAlgorithmException {
        // Serial versions need these: what is loaded while a class is instrumented isn't.
        MessageDigest.getInstance("SHA");
        new DataOutputStream(OutputStream.nullOutputStream());
        Transformer transformer = new Transformer(withJdk, instrumentation.getAllLoadedClasses());
        instrumentation.addTransformer(transformer, true);
        List<Class<?>> loaded = new ArrayList<>(List.of(Thread.class));
        for (Class<?> type : withJdk ? transformer.loadedBefore : Set.<Class<?>>of()) {
            if (instrumentation.isModifiableClass(type) && !type.isArray() && type != Thread.class
                    && isWanted(type.getName().replace('.', '/'), type.getModule(), true)) {
                loaded.add(type);
            }
        }
        instrumentation.retransformClasses(loaded.toArray(new Class<?>[0]));
    }

    /** Classes of the boot class loader that are in no module were put on its path by the program. */
    private static boolean isWanted(String name, Module module, boolean withJdk) {
        ClassLoader loader = module.getClassLoader();
        if (loader == null && name.startsWith("goodlock/runtime/") || loader == Transformer.class.getClassLoader()) {
            return false;
        }
        if (loader != null && loader != ClassLoader.getPlatformClassLoader() || !module.isNamed()) {
            return true;
        }
        boolean wanted = withJdk;
        for (String prefix : NEVER) {
            wanted = wanted && !name.startsWith(prefix);
        }
        return wanted;
    }

    @Override
    public byte[] transform(Module module, ClassLoader loader, String name, Class<?> loaded, ProtectionDomain domain,
            byte[] code) {
        boolean before = loaded != null && loadedBefore.contains(loaded);
        PrivilegedAction<byte[]> action = () -> transform(module, name, before, code);
        return Recorder.quietly(() -> AccessController.doPrivileged(action));
    }

    private byte[] transform(Module module, String name, boolean loaded, byte[] code) {
        if (name == null || !name.equals(THREAD) && !isWanted(name, module, withJdk)) {
            return null;
        }
        try {
            return instrumented(name, loaded, code);
        } catch (RuntimeException | Error failure) {
            leave(name, failure);
            return null;
        }
    }

    private synchronized void leave(String name, Throwable failure) {
        if (firstLeft == null) {
            firstLeft = name.replace('/', '.') + ": " + failure;
        }
        Recorder.note(LEFT_AS_IT_IS + firstLeft + ")");
    }

    private static byte[] instrumented(String name, boolean loaded, byte[] code) {
        byte[] read = code.clone();
        int version = (read[VERSION_PLACE] & 0xff) << 8 | read[VERSION_PLACE + 1] & 0xff;
        if (version > NEWEST_READ) {
            read[VERSION_PLACE] = 0;
            read[VERSION_PLACE + 1] = NEWEST_READ;
        }
        ClassReader reader = new ClassReader(read);
        ClassNode node = new ClassNode();
        reader.accept(node, ClassReader.EXPAND_FRAMES);
        boolean isRecord = (node.access & Opcodes.ACC_RECORD) != 0; // its serial version is 0 where none is written down
        if (!loaded && !isRecord && hasSynchronizedMethod(node)) {
            keepIdentity(node, reader);
        }
        boolean changed = name.equals(THREAD) ? hookStart(node) : instrumentMethods(node, loaded);
        if (!changed) {
            return null;
        }
        ClassWriter writer = new ClassWriter(reader, ClassWriter.COMPUTE_MAXS);
        node.accept(writer);
        byte[] written = writer.toByteArray();
        written[VERSION_PLACE] = code[VERSION_PLACE];
        written[VERSION_PLACE + 1] = code[VERSION_PLACE + 1];
        return written;
    }

    private static boolean hasSynchronizedMethod(ClassNode node) {
        for (MethodNode method : node.methods) {
            if ((method.access & Opcodes.ACC_SYNCHRONIZED) != 0) {
                return true;
            }
        }
        return false;
    }

    /** A synchronized method will be one with a synchronized block. A class's serial version, where none is written down, depends
     * on that: it is written down here as it was. */
    private static void keepIdentity(ClassNode node, ClassReader reader) {
        reader.accept(new SerialVersionUIDAdder(Opcodes.ASM9, null) {
            @Override
            protected void addSVUID(long identity) {
                int access = Opcodes.ACC_PRIVATE | Opcodes.ACC_STATIC | Opcodes.ACC_FINAL | Opcodes.ACC_SYNTHETIC;
                node.fields.add(new FieldNode(access, "serialVersionUID", "J", null, identity));
            }
        }, ClassReader.SKIP_CODE);
    }

    private static boolean hookStart(ClassNode node) {
        boolean changed = false;
        for (MethodNode method : node.methods) {
            if (method.name.equals("start") && (method.access & (Opcodes.ACC_STATIC | Opcodes.ACC_NATIVE)) == 0) {
                MethodInstrumenter.hookThreadStart(method);
                changed = true;
            }
        }
        return changed;
    }

    private static boolean instrumentMethods(ClassNode node, boolean loaded) {
        boolean changed = false;
        References references = loaded ? null : new References(node);
        for (MethodNode method : node.methods) {
            if ((method.access & (Opcodes.ACC_ABSTRACT | Opcodes.ACC_NATIVE)) == 0) {
                changed |= new MethodInstrumenter(node, method, loaded, references).instrument();
            }
        }
        for (MethodNode method : references == null ? List.<MethodNode>of() : references.added()) {
            new MethodInstrumenter(node, method, false, null).instrument();
            node.methods.add(method);
        }
        return changed;
    }
}
