package goodlock.agent;

import goodlock.runtime.Start;
import java.lang.instrument.Instrumentation;

/** What the JVM calls before the program. Its class file is marked as one that an older JVM reads, too (agent.py), which so goes on. */
public final class Agent {
    private Agent() {
    }

    public static void premain(String classPath, Instrumentation instrumentation) {
        try {
            Start.start(classPath, instrumentation);
        } catch (UnsupportedClassVersionError old) {
            System.err.println("goodlock-java: this process isn't recorded: it needs Java 17 or later");
        }
    }
}
