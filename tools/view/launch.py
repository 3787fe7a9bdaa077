"""Runs the viewer from a checkout, as tools/goodlock-view does: see docs/VIEWING.md, or `goodlock-view --help`."""

import os
import runpy
import sys

VIEW = os.path.dirname(os.path.realpath(__file__))


def has_bytecode_room():
    """As the recorders ask; no where that isn't known, as on systems that they don't run on."""
    sys.path.insert(0, os.path.join(os.path.dirname(VIEW), "record"))
    try:
        import build
    except ImportError:
        return False
    finally:
        sys.path.pop(0)
    return build.has_bytecode_room()


if __name__ == "__main__":
    is_unwanted, sys.dont_write_bytecode = sys.dont_write_bytecode, True
    sys.dont_write_bytecode = is_unwanted or not has_bytecode_room()
    runpy.run_path(VIEW, run_name="__main__")
