"""Starts the recorder in each Python process of a recorded program, before the script; then gives way to the module of
this name that the program would have had."""

import os
import sys

START = os.path.dirname(os.path.abspath(__file__))


def start_recorder():
    sys.path[:] = [path for path in sys.path if os.path.abspath(path) != START]
    folder = os.path.dirname(START)
    sys.path.insert(0, folder)
    try:
        import goodlock_recorder

        goodlock_recorder.start()
    finally:
        sys.path.remove(folder)


def give_way():
    own = sys.modules.pop(__name__)
    try:
        import sitecustomize  # noqa: F401
    except ImportError as error:
        if error.name != __name__:
            raise
    finally:
        sys.modules.setdefault(__name__, own)


start_recorder()
give_way()
