"""Records the monitors and locks of a Java program, unchanged, as a trace that goodlock reads.

    goodlock-java [-o TRACE] [--frames N] [--all] [--jdk] [--] java [ARGUMENT..]
    goodlock-java [-o TRACE] --convert DIRECTORY

In java's place may stand whatever starts a JVM. docs/RECORDING-JAVA.md explains it.

-o TRACE              the file, else goodlock.std
--frames N            show N callers in a location (1 to 16)
--all                 leave no repeats out
--jdk                 record the monitors of the JDK's own classes too
--convert DIRECTORY   no run: write the trace of what a recording left behind
--help, --version     print this, print the version
"""

import os
import shlex
import sys

HERE = os.path.dirname(os.path.realpath(__file__))
sys.path[:0] = [os.path.join(os.path.dirname(HERE), "record"), HERE]
sys.pycache_prefix = os.path.join(os.path.dirname(HERE), "out", "python")
sys.dont_write_bytecode = True

from build import has_bytecode_room  # noqa: E402

sys.dont_write_bytecode = not has_bytecode_room()

import launch as recording  # noqa: E402
from options import split_options  # noqa: E402

USAGE = "usage:\n" + __doc__.split("\n\n")[1]


def read_arguments(arguments):
    """The options of all recorders, and --jdk."""
    own, others = split_options(arguments, {"--jdk": False})
    settings = recording.read_arguments(others, __doc__, USAGE)
    settings.jdk = "--jdk" in own
    return settings


class JavaRecorder(recording.Recorder):
    name = "goodlock-java"

    def prepare(self):
        from agent import AgentError, agent_option

        try:
            self.option = agent_option()
        except AgentError as error:
            raise recording.Failed(str(error))
        except OSError as error:
            raise recording.Failed("the agent can't be built: %s" % error)

    def environment(self, settings, directory):
        environment = dict(os.environ)
        # The JVM takes words apart as a shell does.
        option = shlex.quote(self.option)
        environment["JAVA_TOOL_OPTIONS"] = " ".join([option] + environment.get("JAVA_TOOL_OPTIONS", "").split(None, 0))
        environment["GOODLOCK_JAVA_DIRECTORY"] = directory
        environment["GOODLOCK_JAVA_FRAMES"] = str(settings.frames)
        for name, wanted in (("GOODLOCK_JAVA_ALL", settings.all), ("GOODLOCK_JAVA_JDK", settings.jdk)):
            if wanted:
                environment[name] = "1"
        return environment

    def clean_up(self):
        pass

    def advice(self, processes, settings):
        return []

    def reason(self, loaded):
        if loaded:
            return "the program took no monitor or lock and started no thread, in classes that aren't the JDK's"
        return "no JVM was recorded: Java 17 or later reads JAVA_TOOL_OPTIONS, which loads the recorder"


if __name__ == "__main__":
    sys.exit(recording.main(read_arguments, JavaRecorder()))
