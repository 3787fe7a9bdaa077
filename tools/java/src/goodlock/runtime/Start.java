package goodlock.runtime;

import java.io.File;
import java.io.IOException;
import java.lang.instrument.Instrumentation;
import java.net.MalformedURLException;
import java.net.URL;
import java.net.URLClassLoader;
import java.nio.charset.StandardCharsets;
import java.nio.file.Path;
import java.security.AccessController;
import java.security.AllPermission;
import java.security.CodeSource;
import java.security.PermissionCollection;
import java.security.Permissions;
import java.security.PrivilegedAction;
import java.util.Map;
import java.util.Set;

/**
 * Starts the recorder before the program: first what instrumented code calls, then what instruments it. The recorder has all
 * permissions, whatever a security manager leaves to the program.
 */
public final class Start {
    private static final int FRAMES_LIMIT = 16;

    private Start() {
    }

    /** In a class loader of its own, so that the program's own version of a library isn't in its way. */
    private static final class Loader extends URLClassLoader {
        Loader(URL[] urls) {
            super(urls, null);
        }

        @Override
        protected PermissionCollection getPermissions(CodeSource source) {
            PermissionCollection all = new Permissions();
            all.add(new AllPermission());
            return all;
        }
    }

    /** `classPath`: that of the part that instruments, and of the libraries that it needs. */
    public static void start(String classPath, Instrumentation instrumentation) {
        AccessController.doPrivileged((PrivilegedAction<Void>) () -> {
            String directory = System.getenv("GOODLOCK_JAVA_DIRECTORY");
            if (directory == null || Recorder.isStarted()) {
                return null; // two agents: goodlock-java runs goodlock-java
            }
            try {
                open(instrumentation);
                startRecorder(directory);
                startTransformer(classPath, instrumentation);
            } catch (IOException | ReflectiveOperationException | RuntimeException | LinkageError failure) {
                System.err.println("goodlock-java: this process isn't recorded: " + failure);
            }
            return null;
        });
    }

    /** What stands for a lock, and what a thread runs, is in private fields. */
    private static void open(Instrumentation instrumentation) {
        Set<Module> recorder = Set.of(Recorder.class.getModule());
        Map<String, Set<Module>> packages = Map.of("java.lang", recorder, "java.util.concurrent.locks", recorder);
        instrumentation.redefineModule(Object.class.getModule(), Set.of(), Map.of(), packages, Set.of(), Map.of());
    }

    private static void startRecorder(String directory) throws IOException {
        String wanted = System.getenv("GOODLOCK_JAVA_FRAMES");
        int frames = wanted == null ? 1 : Math.max(1, Math.min(FRAMES_LIMIT, Integer.parseInt(wanted)));
        boolean all = System.getenv("GOODLOCK_JAVA_ALL") != null;
        Recorder.start(directory, ProcessHandle.current().pid(), command(), frames, all);
    }

    private static String command() {
        try {
            String words = new String(java.nio.file.Files.readAllBytes(Path.of("/proc/self/cmdline")), StandardCharsets.UTF_8);
            return words.replace('\0', ' ').substring(0, Math.min(500, words.length()));
        } catch (IOException unreadable) {
            return "java";
        }
    }

    private static void startTransformer(String classPath, Instrumentation instrumentation)
            throws MalformedURLException, ReflectiveOperationException {
        String[] paths = classPath.split(File.pathSeparator);
        URL[] urls = new URL[paths.length];
        for (int i = 0; i < paths.length; i++) {
            urls[i] = new File(paths[i]).toURI().toURL();
        }
        boolean jdk = System.getenv("GOODLOCK_JAVA_JDK") != null;
        new Loader(urls).loadClass("goodlock.transform.Transformer").getMethod("install", Instrumentation.class, boolean.class)
                .invoke(null, instrumentation, jdk);
    }
}
