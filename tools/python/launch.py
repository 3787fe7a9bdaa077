"""Records the locks of a Python program, unchanged, as a trace that goodlock reads.

    goodlock-python [-o TRACE] [--frames N] [--all] [--python INTERPRETER] [--] SCRIPT.py [ARGUMENT..]
    goodlock-python [-o TRACE] --convert DIRECTORY

SCRIPT.py may also be -m MODULE, -c CODE, - (standard input), after -- any options of the interpreter, or a program that runs
Python code.
docs/RECORDING-PYTHON.md explains it.

-o TRACE              the file, else goodlock.std
--frames N            show N callers in a location (1 to 16)
--all                 leave no repeats out
--python INTERPRETER  the interpreter, else the first python3 of PATH
--convert DIRECTORY   no run: write the trace of what a recording left behind
--help, --version     print this, print the version
"""

import os
import sys

HERE = os.path.dirname(os.path.realpath(__file__))
sys.path.insert(0, os.path.join(os.path.dirname(HERE), "record"))
sys.pycache_prefix = os.path.join(os.path.dirname(HERE), "out", "python")
sys.dont_write_bytecode = True

from early import end_when_interrupted  # noqa: E402

end_when_interrupted("goodlock-python")

from build import has_bytecode_room  # noqa: E402

sys.dont_write_bytecode = not has_bytecode_room()

import launch as recording  # noqa: E402
from options import VALUED, split_options  # noqa: E402
from tool import find_tool  # noqa: E402

USAGE = "usage:\n" + __doc__.split("\n\n")[1]
START = os.path.join(HERE, "start")


def interpreter_in(path):
    for directory in path.split(":"):
        candidate = os.path.join(directory or ".", "python3")
        if os.access(candidate, os.X_OK) and not os.path.isdir(candidate):
            return candidate
    raise recording.Failed("there is no python3: name an interpreter with --python")


def is_program(name):
    """Whether it can be run as it is."""
    if "/" in name:
        return os.access(name, os.X_OK) and not os.path.isdir(name)
    return find_tool(name) is not None


def is_script(name):
    """Whether the interpreter is to run it: by its ending; as what it runs and the system doesn't, whatever else PATH has by that name;
    or as something that is no program."""
    if name.endswith((".py", ".pyc", ".pyz")) or os.path.isfile(os.path.join(name, "__main__.py")):
        return True
    if os.path.isfile(name) and not os.access(name, os.X_OK):
        return True
    return os.path.exists(name) and not is_program(name)


def with_interpreter(command, interpreter):
    """A script, or options of the interpreter, are run by it; any other program runs as it is."""
    first = command[0]
    if first.startswith("-") or is_script(first) or interpreter:
        return [interpreter or interpreter_in(os.environ.get("PATH", os.defpath))] + command
    return command


def with_command_marked(arguments):
    """The words with -- before the options of the interpreter's that stand for a script."""
    place = 0
    while place < len(arguments) and arguments[place].startswith("-") and arguments[place] != "--":
        if arguments[place] in ("-m", "-c", "-"):
            return arguments[:place] + ["--"] + arguments[place:]
        place += 2 if arguments[place] in VALUED + ("--python",) else 1
    return arguments


def read_arguments(arguments):
    own, others = split_options(with_command_marked(arguments), {"--python": True})
    interpreter = own.get("--python")
    if "--python" in own and interpreter is None:
        raise recording.Failed("--python takes a value\n" + USAGE)
    if interpreter == "":
        raise recording.Failed("--python takes a name that isn't empty\n" + USAGE)
    settings = recording.read_arguments(others, __doc__, USAGE)
    if settings.convert is None:
        settings.command = with_interpreter(settings.command, interpreter)
    return settings


class PythonRecorder(recording.Recorder):
    name = "goodlock-python"

    def prepare(self):
        if ":" in START:
            raise recording.Failed("%s: an interpreter can't be given a folder whose path has : in it" % START)

    def clean_up(self):
        pass

    def environment(self, settings, directory):
        environment = dict(os.environ)
        earlier = environment.get("PYTHONPATH")
        environment["PYTHONPATH"] = START + (":" + earlier if earlier else "")
        environment["GOODLOCK_PYTHON_DIRECTORY"] = directory
        environment["GOODLOCK_PYTHON_FRAMES"] = str(settings.frames)
        if settings.all:
            environment["GOODLOCK_PYTHON_ALL"] = "1"
        return environment

    def advice(self, processes, settings):
        return []

    def reason(self, loaded):
        if loaded:
            return "the program took no lock of the threading module and started no thread"
        return (
            "no Python process was recorded: CPython 3.9 or later runs the recorder at its start, "
            "if it isn't run with -I, -E or -S"
        )


if __name__ == "__main__":
    sys.exit(recording.main(read_arguments, PythonRecorder()))
