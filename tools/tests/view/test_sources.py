"""Source lines: which are shown, and that nothing else is read."""

import html
import os
import re
import shutil

from goodlock_view.sources import Sources
from viewing import SOURCE, Checked, page_with_source, read, report, ring, spell, view, write


def test_source_lines_are_shown_with_those_around():
    write("src/net/server.c", SOURCE)
    text = page_with_source("server.c:10", "server.c:30", "1", "2")
    assert (excerpts("p.html") == [
        [("7", "line 7 of server"), ("8", "line 8 of server"), ("9", "line 9 of server"), ("", "↓ held since here"),
         ("10", "line 10 of server"), ("11", "line 11 of server"), ("12", "line 12 of server"),
         ("13", "line 13 of server")],
        [("27", "line 27 of server"), ("28", "line 28 of server"), ("29", "line 29 of server"), ("", "↓ wanted here"),
         ("30", "line 30 of server"), ("31", "line 31 of server"), ("32", "line 32 of server"),
         ("33", "line 33 of server")],
    ])  # fmt: skip
    assert "net/server.c" in text


def excerpts(path):
    """Of each excerpt its lines as (number, text)."""
    found = []
    for block in re.findall(r"<pre>(.*?)</pre>", read(path), re.S):
        lines = re.findall(r"<span[^>]*><i>(.*?)</i>(.*?)</span>", block)
        texts = [(head.strip().split(" ", 1), html.unescape(tail)) for head, tail in lines]
        found.append([("", " ".join(head)) if head[0] == "↓" else (head[0], tail) for head, tail in texts])
    return found


def marked(path):
    """Of each excerpt the lines that follow a mark, with the mark."""
    found = []
    for lines in excerpts(path):
        found.append([(mark[1], *line) for mark, line in zip(lines, lines[1:]) if mark[0] == ""])
    return found


def test_near_places_share_an_excerpt_and_the_file_may_end_there():
    write("src/a.c", "one\ntwo\nthree")
    write("src/b.c", "\tone\r\n  two\r\n")
    page_with_source("a.c:1", "a.c:3", "b.c:2", "b.c:1")
    assert (marked("p.html") == [
        [("↓ held since here", "1", "one"), ("↓ wanted here", "3", "three")],
        [("↓ wanted here", "1", "    one"), ("↓ held since here", "2", "  two")],
    ])  # fmt: skip
    assert len(excerpts("p.html")[1]) == 4  # the file has two lines, and two are marks


def test_the_longest_end_of_the_path_decides():
    write("src/net/util/log.c", "of net\n")
    write("src/log.c", "of the top\n")
    write("src/disk/util/log.c", "of disk\n")
    text = page_with_source("/build/7/disk/util/log.c:1", "../../net/./util//log.c:1:5", "util/log.c:1", "xlog.c:1")
    assert marked("p.html") == [[("↓ held since here", "1", "of disk")], [("↓ wanted here", "1", "of net")]]
    assert "util/log.c: 2 files fit equally well." in text
    assert "xlog.c: no such file below the source directory." in text
    # The directory's own path counts, so that an absolute path below it always finds its file.
    page_with_source(os.path.abspath("src/log.c") + ":1", "src/log.c:1", "1", "2")
    assert marked("p.html") == [[("↓ held since here and wanted here", "1", "of the top")]]


def test_what_is_installed_below_the_directory_gives_way_to_sources():
    """As a Python environment in a checkout, which has files of any name; a place in it is told with its package."""
    write("src/app/base.py", "of the program\n")
    write("src/.venv/lib/python3.11/site-packages/pool/base.py", "of a package\n")
    page_with_source("base.py:1", "pool/base.py:1", "1", "2")
    assert marked("p.html") == [
        [("↓ held since here", "1", "of the program")],
        [("↓ wanted here", "1", "of a package")],
    ]
    write("src/app/web/base.py", "of the program too\n")
    write("src/.venv/lib/python3/dist-packages/only.py", "of a package\n")
    text = page_with_source("base.py:1", "only.py:1", "1", "2")
    assert "base.py: 2 files fit equally well." in text
    assert marked("p.html") == [[("↓ wanted here", "1", "of a package")]]


def test_nothing_outside_of_the_directory_is_read():
    write("secret.c", "SECRET\n")
    write("outside/deep.c", "SECRET\n")
    write("src/in.c", "inside\n")
    os.symlink("../secret.c", "src/secret.c")
    os.symlink(os.path.abspath("secret.c"), "src/absolute.c")
    os.symlink("../outside", "src/folder")
    os.symlink("in.c", "src/alias.c")
    os.mkfifo("src/pipe.c")
    os.mkdir("src/dir.c")
    above = os.path.abspath("secret.c")
    for place in ("../secret.c", "src/../../secret.c", "secret.c", "absolute.c", "folder/deep.c", "deep.c", above,
                  "alias.c", "in.c/../../secret.c", "pipe.c", "dir.c", "..", ".", "/", "\\x00/secret.c",
                  "/etc/passwd"):  # fmt: skip
        text = page_with_source(f"{place}:1", "in.c:1", "1", "2")
        assert "no such file below the source directory" in text
        assert "SECRET" not in text
        assert "root:" not in text
        assert marked("p.html") == [[("↓ wanted here", "1", "inside")]]


def test_a_link_that_comes_after_the_walk_is_not_followed():
    for at in ("src/d/x.c", "src/y.c", "outside/x.c"):
        write(at, "text\n")
    sources = Sources("src", {b"d/x.c", b"y.c"})
    assert (sources.find(b"x.c"), sources.find(b"y.c")) == ((b"d/x.c", ""), (b"y.c", ""))
    shutil.rmtree("src/d")
    os.symlink("../outside", "src/d")
    os.remove("src/y.c")
    os.symlink("../outside/x.c", "src/y.c")
    assert (sources.read(b"d/x.c"), sources.read(b"y.c")) == (None, None)
    assert Sources("outside", {b"x.c"}).read(b"x.c") == [b"text"]  # and without links the same call reads


def test_a_linked_directory_may_be_the_source_directory():
    write("real/in.c", "inside\n")
    os.symlink("real", "link")
    page_with_source("in.c:1", "1", "2", "3", source="link")
    assert marked("p.html") == [[("↓ held since here", "1", "inside")]]


def test_hostile_source_text_is_text():
    line = "</pre></style><script>window.hit=1</script> \u202e \u2066 \x1b[31m \x00 \u200b <!-- &amp; é"
    write("src/a.c", line.encode() + b" \xff\xc3\n" + b"x" * 5_000_000 + b"\n")
    page_with_source("a.c:1", "a.c:2", "1", "2")
    Checked(read("p.html"))
    ((first, second),) = marked("p.html")
    assert (first[2] == line.replace("\u202e", "\\u{202e}").replace("\u2066", "\\u{2066}").replace("\x1b", "\\u{1b}")
          .replace("\x00", "\\u{0}").replace("\u200b", "\\u{200b}") + " \ufffd\ufffd")  # fmt: skip
    assert second[2] == "x" * 400 + "…"


def test_file_names_of_any_bytes_are_found_and_shown_escaped():
    raw = "é \u202e&b.c".encode() + b"\xff.c"
    write("src/" + os.fsdecode(raw), "found\n")
    text = page_with_source(spell(raw) + ":1", "1", "2", "3")
    assert marked("p.html") == [[("↓ held since here", "1", "found")]]
    assert "é \\xe2\\x80\\xae&b.c\\xff.c" in text


def test_a_file_may_have_the_mark_before_callers_and_those_of_html_in_its_name():
    """A caller stands behind a whole place alone: behind a line's number, an offset, or what Java tells of a method without lines."""
    write("src/map<key>.c", "take key\n")
    write('src/a&b"<c.c', "\ntake both\n")
    write("src/m.c", "first call\nsecond call\n")
    text = page_with_source("map<key>.c:1<m.c:2", 'a&b"<c.c:2 (main)', "o.Bank.<init>+12<m.c:1", "o.Bank.take<m.c:1<?")
    assert marked("p.html") == [
        [("↓ held since here", "1", "take key")],
        [("↓ wanted here", "2", "take both")],
        [("↓ calls", "2", "second call")],
        [("↓ calls", "1", "first call")],
    ]
    assert text.count("map<key>.c") == 3  # as one of a pair, behind "since", and above its line
    assert "no such file" not in text
    assert '"uri": "src/map%3Ckey%3E.c"' in read("s.sarif")
    assert '"uri": "src/a%26b%22%3Cc.c"' in read("s.sarif")


def test_lines_that_are_not_there_are_said():
    write("src/short.c", "one\ntwo\n")
    write("src/large.c", b"\n" * 17_000_000)
    text = page_with_source("short.c:3", "large.c:1", "at 12:30", "short.c:0")
    assert marked("p.html") == []
    assert "short.c: has only 2 lines, so it isn't the source of this run." in text
    assert "large.c: can't be read, or is too large." in text
    assert "at 12: no such file" not in text


def test_callers_are_shown_folded():
    write("src/a.c", "lock_it\n")
    write("src/m.c", "one\ncaller\n")
    page_with_source("a.c:1<m.c:2<libc.so.6+0x99", "2", "3", "4")
    assert marked("p.html") == [[("↓ held since here", "1", "lock_it")], [("↓ calls", "2", "caller")]]
    assert '<details class="small"><summary>Source of the callers</summary><div class="source">' in read("p.html")


def test_where_held_and_wanted_are_on_one_line_both_are_said():
    write("src/a.c", "lock both\n" + 20 * "\n" + "the other order\n")
    page_with_source("a.c:1", "a.c:1", "a.c:22", "a.c:22")
    both = "↓ held since here and wanted here"
    assert marked("p.html") == [[(both, "1", "lock both")], [(both, "22", "the other order")]]


def test_a_line_that_one_thread_wants_at_and_the_next_holds_since_is_shown_for_both():
    write("src/a.c", "first\n" + 20 * "\n" + "second\n")
    page_with_source("a.c:1", "a.c:22", "a.c:22", "a.c:1")
    assert marked("p.html") == [
        [("↓ held since here", "1", "first")],
        [("↓ wanted here", "22", "second")],
        [("↓ held since here", "22", "second")],
        [("↓ wanted here", "1", "first")],
    ]


def test_the_same_source_is_shown_once_a_finding():
    write("src/f.c", "take left\ntake right\n")
    write("r.json", report(ring("abcd", "f.c:1", "f.c:2")))
    view("r.json", "-o", "p.html", "--source", "src")
    assert marked("p.html") == [[("↓ held since here", "1", "take left"), ("↓ wanted here", "2", "take right")]]
