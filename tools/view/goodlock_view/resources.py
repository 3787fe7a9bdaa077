"""Files of the package that aren't code, from a folder or from a zipapp file."""

import functools
import importlib.resources


@functools.lru_cache(maxsize=None)
def resource(name: str) -> str:
    """The text of a file of this package."""
    return (importlib.resources.files(__package__ or __name__) / name).read_text(encoding="utf-8")
