"""Runs a tool of binutils. The subprocess module would do, but loading it takes longer than most runs of a tool."""

import os

DIRECTORIES = ("/usr/bin", "/usr/local/bin", "/bin")


def find_tool(name):
    for directory in os.environ.get("PATH", "").split(":") + list(DIRECTORIES):
        path = os.path.join(directory or ".", name)
        if os.access(path, os.X_OK) and not os.path.isdir(path):
            return path
    return None


def run_tool(name, arguments, lines):
    """The tool's output, given these lines as its input; None if there is no such tool."""
    path = find_tool(name)
    if path is None:
        return None
    reading, writing = os.pipe()
    feeding = os.fork()
    if feeding == 0:
        feed(path, name, arguments, lines, reading, writing)
    os.close(writing)
    with os.fdopen(reading, "rb") as pipe:
        output = pipe.read()
    os.waitpid(feeding, 0)
    return output.decode("utf-8", "backslashreplace")


def feed(path, name, arguments, lines, reading, writing):
    """In a child: becomes the tool, whose input comes from a grandchild. Doesn't return."""
    try:
        os.close(reading)
        source, sink = os.pipe()
        if os.fork() == 0:
            os.close(source)
            os.close(writing)
            with os.fdopen(sink, "wb") as pipe:
                pipe.write("".join(line + "\n" for line in lines).encode("utf-8", "backslashreplace"))
            os._exit(0)
        os.close(sink)
        nothing = os.open(os.devnull, os.O_WRONLY)
        os.dup2(source, 0)
        os.dup2(writing, 1)
        os.dup2(nothing, 2)
        os.execv(path, [name] + arguments)
    finally:
        os._exit(127)
