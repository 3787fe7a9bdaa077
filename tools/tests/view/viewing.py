"""What the viewer's tests share: running the command, reports, and reading what it wrote."""

import base64
import hashlib
import html
import html.parser
import itertools
import json
import os
import pathlib
import re
import sys
import tempfile
import traceback

from goodlock_view import command

TOP = pathlib.Path(__file__).resolve().parents[3]
TOOL = TOP / "tools" / "goodlock-view"

# --- Running ----------------------------------------------------------------------------------------


def be_the_tool(arguments, files):
    """In a child: the command with these files as its standard input, output and errors. Never returns."""
    status = 99
    try:
        for number, file in enumerate(files):
            os.dup2(file.fileno(), number)
        sys.stdin, sys.stdout, sys.stderr = open(0), open(1, "w"), open(2, "w")
        status = command.main(list(arguments))
    except SystemExit as leaving:
        status = leaving.code
    except BaseException:
        traceback.print_exc()
    finally:
        sys.stdout.flush()
        sys.stderr.flush()
        os._exit(status)


def view(*arguments, stdin=b""):
    """Status, output and errors of the command, in the present directory. A child of this process runs it, which saves
    starting Python anew."""
    with tempfile.TemporaryFile() as given, tempfile.TemporaryFile() as output, tempfile.TemporaryFile() as errors:
        given.write(stdin)
        given.seek(0)
        sys.stdout.flush()
        child = os.fork()
        if child == 0:
            be_the_tool(arguments, (given, output, errors))
        status = os.waitstatus_to_exitcode(os.waitpid(child, 0)[1])
        output.seek(0)
        errors.seek(0)
        return status, output.read().decode(), errors.read().decode()


def write(path, text):
    path = pathlib.Path(path)
    path.parent.mkdir(parents=True, exist_ok=True)
    path.write_bytes(text if isinstance(text, bytes) else text.encode())


def read(path):
    return pathlib.Path(path).read_text(encoding="utf-8")


# --- Reports ----------------------------------------------------------------------------------------


def edge(thread, held, held_at, wanted, wanted_at, guards=None, **more):
    names = {"thread": thread, "held": held, "held_at": held_at, "wanted": wanted, "wanted_at": wanted_at}
    return {**names, "first": 0, "second": 0, "place": 1, "guards": guards or [held], **more}


def pair(a="a", b="b", threads=("T0", "T1"), places=("1", "2", "5", "6")):
    """Two threads that take two locks in opposite orders."""
    return [edge(threads[0], a, places[0], b, places[1]), edge(threads[1], b, places[2], a, places[3])]


def ring(locks, held_at, wanted_at):
    """Threads that all run the same lines: each takes a lock and then the next one."""
    size = len(locks)
    return [edge(f"P{i}", locks[i], held_at, locks[(i + 1) % size], wanted_at) for i in range(size)]


def report(*cycles, more=False, mode="full", length=4, most=1000):
    value = {"cycles": cycles, "format": 1, "len": length, "max": most, "mode": mode, "more": more}
    return json.dumps(value, separators=(",", ":")) + "\n"


def second_format(*cycles, more=False, trim=None, modes=("x", "x")):
    edges = [dict(e, guard_modes=["x"] * len(e["guards"]), held_mode=modes[0], wanted_mode=modes[1])
             for cycle in cycles for e in cycle]  # fmt: skip
    counter = itertools.count()
    positions = [[next(counter) for _ in cycle] for cycle in cycles]
    value = {"cycles": positions, "edges": edges, "format": 2, "len": 4, "max": 1000, "mode": "full"}
    return json.dumps(dict(value, more=more, trim=trim), separators=(",", ":")) + "\n"


def third_format(*cycles, more=False):
    """A report of findings, each shown by one cycle."""
    value = json.loads(second_format(*cycles, more=more))
    del value["trim"]
    value.update(format=3, findings=value.pop("cycles"))
    return json.dumps(value, separators=(",", ":")) + "\n"


EXAMPLE = (
    '{"cycles":[[{"first":0,"guards":["a"],"held":"a","held_at":"1","place":1,"second":0,"thread":"T0",'
    '"wanted":"b","wanted_at":"2"},{"first":0,"guards":["b"],"held":"b","held_at":"5","place":1,"second":0,'
    '"thread":"T1","wanted":"a","wanted_at":"6"}]],"format":1,"len":4,"max":1000,"mode":"full","more":false}\n'
)


def spell(raw):
    """Bytes as reports spell them, from the format's words."""
    return "".join(chr(b) if 32 <= b <= 126 and b != 92 else "\\x%02x" % b for b in raw)


HOSTILE = [
    b"<script>window.hit=1</script>",
    b"</style><script>window.hit=1</script>",
    b"<img src=x onerror=window.hit=1>",
    b'" onmouseover="window.hit=1" x=\'',
    b'" onmouseover="window.hit=1" x=\'' * 4,  # so long that it is in a title
    b"'\"&amp;&lt;&#60;<!--]]>-->",
    b'\\N\\l\\\\"];evil->node;//',
    bytes(range(32)) + b"\x7f",
    "é日本\u202eevil\u202c\u2066x\u2069\u200b\ufeff".encode(),
    b"\xff\xfe\xc3(\x80",
    b"[link](http://evil.example/) {0} {{1}} $(x) `y`",
    b"W" * 64,  # has no place to break a line at
    b" ",
    b"",
    b"%s %n ../../../etc/passwd:1",
    b"n" * 30_000 + b"<b>" + b"\x00" * 27_000 + b"end",
    b"n" * 30_000 + b"<i>" + b"\x00" * 27_000 + b"end",
]


def hostile_report():
    """Each name once as thread, held lock and places of an edge, in one cycle each with a tame edge."""
    cycles = []
    for at, raw in enumerate(HOSTILE):
        name = spell(raw)
        cycles.append([edge(name, name, name, f"tame{at}", name, [name, "tame guard"]),
                       edge("tame", f"tame{at}", f"x{at}", name, f"y{at}")])  # fmt: skip
    return report(*cycles)


def broken(change, text=None):
    """The example, or another report, with one thing changed."""
    value = json.loads(text or EXAMPLE)
    change(value)
    return json.dumps(value)


TWO = second_format(pair())  # the example in format 2
THREE = third_format(pair())  # and as a finding
OTHER = ("7", "8", "9", "10")  # places of another finding than the example's
SOURCE = "".join(f"line {i} of server\n" for i in range(1, 41))


# --- What was written -------------------------------------------------------------------------------


def heads(text):
    """The first line of each finding, and the last line."""
    lines = text.splitlines()
    return [line for line in lines if line.startswith("finding ")], lines[-1]


def ids(text):
    """The id of each finding."""
    return re.findall(r", id ([0-9a-f]{16})$", text, re.M)


ALLOWED = set(
    "html head meta title style body header main h1 h2 p details summary b span code a ol ul li div pre i table tr th td"
    " dl dt dd svg g rect circle path text label input select option button output kbd script".split()
)
VOID = {"meta", "input"}


def hash_of(text):
    """As a policy names the one style sheet or script that it lets through."""
    return "'sha256-" + base64.b64encode(hashlib.sha256(text.encode()).digest()).decode() + "'"


class Checked(html.parser.HTMLParser):
    """Every tag allowed and balanced, no attribute that could run or load anything, every link to a place here."""

    def __init__(self, page):
        super().__init__(convert_charrefs=True)
        self.open, self.ids, self.links, self.texts, self.titles = [], [], [], [], []
        self.policy, self.styles, self.scripts = None, [], []
        self.feed(page)
        self.close()
        assert self.open == []
        assert len(self.ids) == len(set(self.ids))
        assert [link for link in self.links if link not in ["#" + name for name in self.ids]] == []
        (style,), (script,) = self.styles, self.scripts
        rules = ["default-src 'none'", f"style-src {hash_of(style)}", f"script-src {hash_of(script)}"]
        assert self.policy == "; ".join([*rules, "base-uri 'none'", "form-action 'none'"])
        assert "url(" not in style
        assert "@import" not in style

    def handle_starttag(self, tag, attributes):
        if tag not in ALLOWED and not (tag == "title" and "svg" in self.open):
            raise AssertionError(f"tag {tag}")
        for key, value in attributes:
            if key.startswith("on") or key in ("src", "style", "srcdoc", "action", "xlink:href"):
                raise AssertionError(f"attribute {key}")
            if key == "href":
                assert value[0] == "#"
                self.links.append(value)
            if key == "id":
                self.ids.append(value)
            if key == "title":
                self.titles.append(value)
        if tag == "meta" and ("http-equiv", "Content-Security-Policy") in attributes:
            self.policy = dict(attributes)["content"]
        if tag not in VOID:
            self.open.append(tag)

    def handle_startendtag(self, tag, attributes):
        self.handle_starttag(tag, attributes)
        self.open.pop()

    def handle_endtag(self, tag):
        assert self.open.pop() == tag

    def handle_data(self, data):
        if self.open and self.open[-1] == "style":
            self.styles.append(data)
        elif self.open and self.open[-1] == "script":
            self.scripts.append(data)
        else:
            self.texts.append(data)

    def handle_comment(self, data):
        raise AssertionError(f"comment {data!r}")

    def handle_decl(self, declaration):
        assert declaration == "DOCTYPE html"

    def unknown_decl(self, data):
        raise AssertionError(f"declaration {data!r}")

    def handle_pi(self, data):
        raise AssertionError(f"instruction {data!r}")


def text_of_page(path):
    return re.sub(r"\s+", " ", "".join(Checked(read(path)).texts))


def page_with_source(*places, source="src"):
    write("r.json", report(pair(places=places)))
    status, output, errors = view("r.json", "-o", "p.html", "--sarif", "s.sarif", "--source", source)
    assert (status, output, errors) == (1, "", "")
    return text_of_page("p.html")
