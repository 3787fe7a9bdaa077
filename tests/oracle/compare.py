#!/usr/bin/env python3
"""Compares a program with the reference on worked traces and on random and damaged ones.

    compare.py [--stage first|full] [--cases N] [--seed S] [--commands LIST] PROGRAM [ARGUMENT..]

Standard output, standard error and exit status must be equal byte for byte. Further arguments go to the
program. `--mode`, `--len` and `--max` tell the reference another query than the stage's. `--commands`, as
"predict, predict --json, predict --findings, stats, replay, live, live --stream, live --findings", also runs the program with these
words and without the further arguments: on the worked traces of each, and on each random one with one of them, with options of its
own. A difference is shrunk by leaving out lines and written into a file; `--only K` runs case K of the seed
alone. The last line is `N passed, N failed`, with one for each answer.
"""

import argparse
import os
import pathlib
import random
import subprocess
import sys
import tempfile

sys.dont_write_bytecode = True
sys.path.insert(0, str(pathlib.Path(__file__).resolve().parent.parent))

from fuzz import random_traces  # noqa: E402
from oracle import reference, worked_traces  # noqa: E402

FLAGS = ["--findings", "--json", "--stream"]
STREAM_THREADS = 64  # unless --threads is given


def by_reference(words, text, form=worked_traces.FORMAT):
    """The reference's answer to these words and this text, with JSON of cycles in this format."""
    word, *options = words
    values = {name: value for name, value in zip(options, [*options[1:], ""]) if name not in FLAGS}
    query = reference.Query(values.get("--mode", "full"), int(values.get("--len", 4)), int(values.get("--max", 1000)))
    query.findings = "--findings" in options
    if "--stream" in options:
        query.threads = int(values.get("--threads", STREAM_THREADS))
    return reference.answer(word, text, query, form if "--json" in options else None)


def plain(words):
    """A command without the values of its options."""
    return " ".join(part for at, part in enumerate(words.split()) if at == 0 or part in FLAGS)


def run(command, text):
    done = subprocess.run(command, input=text, capture_output=True)
    return done.stdout, done.stderr, done.returncode


def shrunk(text, differs):
    """The text with as many lines left out as keeps the difference."""
    parts = text.split(b"\n")
    at = 0
    while at < len(parts):
        fewer = parts[:at] + parts[at + 1 :]
        if differs(b"\n".join(fewer)):
            parts = fewer
        else:
            at += 1
    return b"\n".join(parts)


def show(answer):
    output, errors, status = answer
    return f"status {status}\n      output {output[:600]!r}\n      errors {errors[:300]!r}"


def unreadable(command):
    """A directory as input, and a full device as output."""
    with tempfile.TemporaryDirectory() as folder:
        handle = os.open(folder, os.O_RDONLY)
        done = subprocess.run(command, stdin=handle, capture_output=True)
        os.close(handle)
        yield "unreadable input", (b"", b"goodlock: read failed\n", 4), (done.stdout, done.stderr, done.returncode)
    if os.path.exists("/dev/full"):
        with open("/dev/full", "wb") as full:
            done = subprocess.run(command, input=b"", stdout=full, stderr=subprocess.PIPE)
        yield "full output", (b"", b"goodlock: write failed\n", 4), (b"", done.stderr, done.returncode)


def main():
    parser = argparse.ArgumentParser(description=__doc__, formatter_class=argparse.RawDescriptionHelpFormatter)
    parser.add_argument("--stage", choices=sorted(reference.STAGES), default="full")
    parser.add_argument("--mode", choices=["basic", "guarded", "full"])
    parser.add_argument("--len", type=int, dest="length")
    parser.add_argument("--max", type=int, dest="most")
    parser.add_argument("--cases", type=int, default=5000)
    parser.add_argument("--seed", default="1")
    parser.add_argument("--lines", type=int, default=34, help="most lines of a random trace, about")
    parser.add_argument("--only", type=int)
    parser.add_argument("--commands", default="", help="further ones that are compared, with commas between them")
    parser.add_argument("program")
    parser.add_argument("arguments", nargs=argparse.REMAINDER)
    options = parser.parse_args()
    stage = reference.STAGES[options.stage]
    is_other = options.mode or options.length or options.most
    query = reference.Query(
        options.mode or stage.mode, options.length or stage.length, options.most or stage.most, stage.with_forks
    )
    command = [os.path.abspath(options.program)] + [a for a in options.arguments if a != "--"]
    commands = [words.strip() for words in options.commands.split(",") if words.strip()]
    known = {plain(words) for _, words, _, _ in worked_traces.worked_of_commands()} | {"predict"}
    if not known.issuperset(commands):
        parser.error(f"--commands knows {', '.join(sorted(known))}")
    has_stream = any("--stream" in words for words in commands)  # then --threads is known, of every live
    tried = wrong = 0
    seen = {}
    by_command = {}

    def compare(name, answers):
        nonlocal tried, wrong
        tried += 1
        if any(answer != answers[0][1] for _, answer in answers):
            wrong += 1
            print(f"{name}: answers differ")
            for who, answer in answers:
                print(f"    {who}: {show(answer)}")

    if options.only is None:
        for name, text, by_hand, is_quick in worked_traces.worked(options.stage):
            answers = [("program", run(command, text))]
            if is_quick:
                answers.append(("reference", reference.predict(text, query)))
            if by_hand is not None and not is_other:
                answers.insert(0, ("by hand", by_hand))
            compare(name, answers)
        for name, text, by_hand in worked_traces.worked_of_lock_modes():
            in_modes = by_hand if isinstance(by_hand, dict) else dict.fromkeys(["basic", "guarded", "full"], by_hand)
            for mode, answer in in_modes.items():
                answers = [("by hand", answer), ("reference", reference.predict(text, reference.Query(mode)))]
                if mode == query.mode and (options.most or stage.most) > 1:
                    answers.append(("program", run(command, text)))
                compare(f"{name}, mode {mode}", answers)
        for name, words, text, by_hand in worked_traces.worked_of_commands():
            if "--json" in words and "--findings" not in words:  # the reference is tried in both formats of cycles
                answers = [
                    ("by hand", worked_traces.in_format(by_hand, 1)),
                    ("reference", by_reference(words.split(), text, 1)),
                ]
                compare(f"{name}, {words}, format 1", answers)
            answers = [("by hand", worked_traces.in_format(by_hand)), ("reference", by_reference(words.split(), text))]
            if plain(words) in commands and (has_stream or "--threads" not in words):
                answers.append(("program", run(command[:1] + words.split(), text)))
            compare(f"{name}, {words}", answers)
        for name, expected, got in unreadable(command):
            tried += 1
            if got != expected:
                wrong += 1
                print(f"{name}: expected {show(expected)}\n    got {show(got)}")

    def compare_case(number, text, words, answer):
        """Whether the answers are equal; the reference's."""
        nonlocal tried, wrong
        tried += 1
        expected = answer(text)
        if run(words, text) == expected:
            return expected
        wrong += 1
        small = shrunk(text, lambda t: answer(t) != run(words, t))
        path = os.path.join(tempfile.gettempdir(), f"goodlock-differs-{options.seed}-{number}.std")
        with open(path, "wb") as file:
            file.write(small)
        print(f"case {number}: {' '.join(words)}: answers differ on {path}: {small[:400]!r}")
        print(f"    reference: {show(answer(small))}\n    program: {show(run(words, small))}")
        return expected

    for number in range(options.cases) if options.only is None else [options.only]:
        text = random_traces.case(options.seed, number, options.lines)
        expected = compare_case(number, text, command, lambda t: reference.predict(t, query))
        sort = expected[1].split(b": ", 2)[-1].strip().decode("latin-1") or f"status {expected[2]}"
        sort = "inconsistent" if "precedes" in sort else sort
        seen[sort] = seen.get(sort, 0) + 1
        if commands:
            random_ = random.Random(f"{options.seed}/{number}/command")
            drawn = random_.choice(commands)
            words = random_traces.asked(random_, drawn, has_stream)
            compare_case(number, text, command[:1] + words, lambda t: by_reference(words, t))
            by_command[drawn] = by_command.get(drawn, 0) + 1
        if wrong >= 10:
            print("stopped at 10 differences")
            break
    made = sum(seen.values())
    print(f"{made} random cases: " + ", ".join(f"{kind} {count}" for kind, count in sorted(seen.items())))
    if commands:
        print("by command: " + ", ".join(f"{words} {count}" for words, count in sorted(by_command.items())))
    print(f"{tried - wrong} passed, {wrong} failed")
    return 1 if wrong or tried == 0 else 0


if __name__ == "__main__":
    sys.exit(main())
