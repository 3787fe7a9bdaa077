"""Ids of findings: which changes of the source leave them as they are, and which don't."""

import hashlib

import pytest
from goodlock_view.functions import Functions
from viewing import ids, pair, report, view, write

SERVER = """\
static int
serve(struct server *server)
{
    lock(&server->table);
    lock(&server->log);
    return 0;
}

int reap(struct server *server)
{
    lock(&server->log);
    lock(&server->table);
}
"""
LINES = (4, 5, 11, 12)  # held and wanted in serve, held and wanted in reap


def identity(text, lines=LINES, name="server.c", report_name="src/server.c", source="src"):
    """The id of the finding of these lines, where the file has this text."""
    write(f"src/{name}", text)
    write("r.json", report(pair(places=[f"{report_name}:{line}" for line in lines])))
    status, output, errors = view("r.json", "--source", source)
    assert (status, errors) == (1, "")
    (found,) = ids(output)
    return found


def test_a_finding_whose_code_moved_by_ten_lines_stays_known():
    identity(SERVER)
    view("r.json", "--source", "src", "--write-known", "known")
    write("src/server.c", 10 * "/* new */\n" + SERVER)
    write("moved.json", report(pair(places=[f"server.c:{line + 10}" for line in LINES])))
    assert view("moved.json", "--source", "src", "--known", "known")[0] == 0
    # Without the source, as with the same numbers in a changed source, it is another finding.
    assert view("moved.json", "--known", "known")[0] == 1


def test_functions_beside_places_leave_the_id_as_it_is():
    known = identity(SERVER)
    functions = ("serve", "serve", "reap", "reap")
    places = [f"src/server.c:{line} ({function})" for line, function in zip(LINES, functions)]
    write("r.json", report(pair(places=places)))
    assert ids(view("r.json", "--source", "src")[1]) == [known]


def test_the_mark_before_callers_in_the_name_of_a_file_is_a_part_of_it():
    assert identity(10 * "\n" + SERVER, [line + 10 for line in LINES], "map<key>.c", "map<key>.c") == identity(
        SERVER, name="map<key>.c", report_name="map<key>.c"
    )


def test_changed_code_at_the_same_lines_is_new():
    identity(SERVER)
    view("r.json", "--source", "src", "--write-known", "known")
    assert view("r.json", "--source", "src", "--known", "known")[0] == 0
    write("src/server.c", SERVER.replace("lock(&server->log);\n    return", "lock(&server->names);\n    return"))
    status, output, _ = view("r.json", "--source", "src", "--known", "known")
    assert status == 1
    assert "finding 1: new" in output
    assert "known findings that weren't seen: 1" in output


def test_the_id_is_a_hash_of_file_function_text_and_repeats():
    held, wanted = (
        '["src/server.c", "%s", "lock(&server->%s);", 0, 0]',
        '["src/server.c", "%s", "lock(&server->%s);", 0, 0]',
    )
    lines = [
        f"[{held}]\t[{wanted}]" % ("reap", "log", "reap", "table"),
        f"[{held}]\t[{wanted}]" % ("serve", "table", "serve", "log"),
    ]
    assert identity(SERVER) == hashlib.sha256("\n".join(lines).encode()).hexdigest()[:16]


STAYS = [
    ("lines before it", 10 * "\n" + SERVER, [line + 10 for line in LINES]),
    ("functions in another order", SERVER[SERVER.index("int reap") :] + SERVER[: SERVER.index("int reap")], [9, 10, 3, 4]),
    ("another indentation", SERVER.replace("    ", "\t\t"), LINES),
    ("a parameter more", SERVER.replace("server)", "server, int more)"), LINES),
    ("lines between", SERVER.replace("    lock(&server->log);\n    return", "    x();\n    lock(&server->log);\n    return"), (4, 6, 12, 13)),
    ("line ends of another system", SERVER.replace("\n", "\r\n"), LINES),
    ("the same line in another function", "void other(void)\n{\n    lock(&server->log);\n}\n" + SERVER, [line + 4 for line in LINES]),
]  # fmt: skip


@pytest.mark.parametrize("text, lines", [case[1:] for case in STAYS], ids=[case[0] for case in STAYS])
def test_what_leaves_the_id(text, lines):
    assert identity(text, lines) == identity(SERVER)


CHANGES = [
    ("a function of another name", SERVER.replace("reap", "harvest"), LINES),
    ("an argument of the call", SERVER.replace("lock(&server->table);\n}", "lock(&server->tables);\n}"), LINES),
    ("the same text once more above it", SERVER.replace("int reap(struct server *server)\n{\n", "int reap(struct server *server)\n{\n    lock(&server->log);\n"), (4, 5, 12, 13)),
    ("a place elsewhere in the function", SERVER, (4, 6, 11, 12)),
]  # fmt: skip


@pytest.mark.parametrize("text, lines", [case[1:] for case in CHANGES], ids=[case[0] for case in CHANGES])
def test_what_changes_the_id(text, lines):
    assert identity(text, lines) != identity(SERVER)


def test_the_file_counts_but_not_the_folder_in_which_it_was_built():
    first = identity(SERVER, report_name="/build/7/src/server.c")
    assert identity(SERVER, report_name="server.c", source="./src/") == first
    assert identity(SERVER, report_name="server.c", source=".") == first
    assert identity(SERVER, name="client.c", report_name="client.c") != first


def test_a_column_is_counted_behind_the_indentation():
    def of(line, held, wanted):
        return identity(f"f()\n{line}\nend\n", (f"2:{held}", f"2:{wanted}", 1, 3))

    assert of("\tlock(a); lock(b);", 2, 11) == of("    lock(a); lock(b);", 5, 14)
    assert of("    lock(a); lock(b);", 14, 5) != of("    lock(a); lock(b);", 5, 14)


def test_places_that_are_in_no_file_go_by_their_text():
    places = ("lib.so+0x10", "gone.c:7", "at 12:30", "short.c:9")
    write("src/short.c", "one\n\n")
    write("r.json", report(pair(places=places)))
    assert ids(view("r.json", "--source", "src")[1]) == ids(view("r.json")[1])
    write("r.json", report(pair(places=("short.c:2", "2", "3", "4"))))  # an empty line says nothing
    assert ids(view("r.json", "--source", "src")[1]) == ids(view("r.json")[1])


def test_callers_count_by_their_text_too():
    text = SERVER + "\nint main(void)\n{\n    serve(s);\n    serve(t);\n}\n"
    first, second = (identity(text, [f"{line}<server.c:{caller}" for line in LINES]) for caller in (17, 18))
    assert first != second
    assert identity("\n" + text, [f"{line + 1}<server.c:18" for line in LINES]) == first


FUNCTIONS = [
    ("a.c", "static void\nserve (int a,\n       int b)\n{\nout:\n    lock();\n}", 6, "serve"),
    ("a.c", "__attribute__((constructor)) static void begin(void)\n{\n    lock();", 3, "begin"),
    ("a.c", "int count;\nstruct pool pools[8];\n    lock();", 3, ""),
    ("a.c", "void one(void) { lock(); }", 1, "one"),
    ("a.cc", "namespace net {\nclass Server {\n    void accept(int port) const {\n        std::lock_guard<M> g(m);\n", 4, "accept"),
    ("a.cc", "bool Server::accept(int port)\n{\n    if (x) {\n        else if (y) {\n    lock(m);", 5, "Server::accept"),
    ("A.java", "class A {\n    private static int take(Lock a, Lock b) {\n        synchronized (a) {\n            return f(b);\n", 4, "take"),
    ("A.java", "class A {\n    void run() {\n        throw new Error(a,\n            lock(b));\n", 4, "run"),
    ("a.py", "class A:\n    async def take(self):\n        with a:\n            deferred = 1\n", 4, "take"),
    ("a.rs", "impl A {\n    pub(crate) async fn take(&self) {\n        self.a.lock();\n", 3, "take"),
    ("a.go", "func (s *Server) Accept(port int) {\n\ts.mu.Lock()\n", 2, "Accept"),
    ("a.kt", "    override suspend fun take() {\n        lock()\n", 2, "take"),
]  # fmt: skip


@pytest.mark.parametrize("path, text, line, name", FUNCTIONS)
def test_the_function_that_a_line_is_in(path, text, line, name):
    assert Functions(path.encode(), text.encode().split(b"\n")).at(line) == name.encode()
