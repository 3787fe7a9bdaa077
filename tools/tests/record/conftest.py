"""Each test runs in a folder of its own with the programs."""

import os
import shutil

import pytest
from c_programs import C_FLAGS, SOURCES, build, put

pytest.register_assert_rewrite("c_traces")


def source(name):
    return os.path.join(SOURCES, name)


@pytest.fixture(scope="session")
def programs(tmp_path_factory):
    folder = tmp_path_factory.mktemp("programs")
    build("gcc", C_FLAGS + ["-O1", "-o", "locks", source("locks.c")], folder)
    build("gcc", C_FLAGS + ["-O1", "-g0", "-o", "locks-without-lines", source("locks.c")], folder)
    build("gcc", C_FLAGS + ["-O1", "-static", "-o", "locks-static", source("locks.c")], folder)
    names = ("random", "walks", "storm", "interrupted", "forking", "thousands", "numbers", "born", "sealed")
    for name in names + ("earliest", "resolved"):
        build("gcc", C_FLAGS + ["-O1", "-o", name, source(name + ".c")], folder)
    build("g++", C_FLAGS + ["-std=c++17", "-O0", "-o", "wrappers-O0", source("wrappers.cc")], folder)
    build("g++", C_FLAGS + ["-std=c++17", "-O2", "-o", "wrappers-O2", source("wrappers.cc")], folder)
    flags = ["-std=c++17", "-O1", "-static-libstdc++", "-static-libgcc"]
    build("g++", C_FLAGS + flags + ["-o", "wrappers-static", source("wrappers.cc")], folder)
    if shutil.which("clang++"):
        flags = ["-std=c++17", "-O1", "-gdwarf-4"]  # whose inlined calls binutils reads
        build("clang++", C_FLAGS + flags + ["-o", "wrappers-clang", source("wrappers.cc")], folder)
    build("gcc", C_FLAGS + ["-O1", "-o", "priority", source("priority.c"), "-ldl"], folder)
    build("g++", C_FLAGS + ["-std=c++17", "-O0", "-o", "once", source("once.cc")], folder)
    build("gcc", C_FLAGS + ["-O1", "-rdynamic", "-o", "memory", source("memory.c"), "-ldl"], folder)
    build("gcc", C_FLAGS + ["-O1", "-shared", "-fPIC", "-o", "moves.so", source("moves.c")], folder)
    for name, line in (("one", 100), ("two", 200)):
        flags = ["-shared", "-fPIC", "-DNAME=" + name, "-DLINE=%d" % line]
        build("gcc", C_FLAGS + flags + ["-o", "plugin-%s.so" % name, source("plugin.c")], folder)
        build("gcc", C_FLAGS + flags + ["-o", "locker-%s.so" % name, source("locker.c")], folder)
    for name, flags in (("arena", []), ("blocks", ["-DBLOCKS"])):
        flags = ["-std=c++17", "-O1", "-fno-builtin", "-shared", "-fPIC", *flags]
        build("g++", C_FLAGS + flags + ["-o", "lib%s.so" % name, source("arena.cc")], folder)
        flags = ["-std=c++17", "-O1", "-L.", "-Wl,--no-as-needed", "-l" + name, "-Wl,-rpath,$ORIGIN"]
        build("g++", C_FLAGS + flags + ["-o", "deleted-" + name, source("deleted.cc")], folder)
    build("g++", C_FLAGS + ["-std=c++17", "-O1", "-o", "deleted", source("deleted.cc")], folder)
    build("g++", C_FLAGS + ["-shared", "-fPIC", "-o", "extension.so", source("extension.cc")], folder)
    build("gcc", C_FLAGS + ["-shared", "-fPIC", "-o", "liblibrary.so", source("library.c")], folder)
    build("gcc", C_FLAGS + ["-shared", "-fPIC", "-o", "libwaits.so", source("waits.c"), "-ldl"], folder)
    flags = ["-L.", "-Wl,--no-as-needed", "-llibrary", "-Wl,-rpath,$ORIGIN"]
    build("gcc", C_FLAGS + ["-o", "uses-library", source("uses_library.c")] + flags, folder)
    return folder


@pytest.fixture(autouse=True)
def in_a_folder_with_the_programs(programs, folder):
    put(programs, folder)
