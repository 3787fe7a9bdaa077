"""Worked traces, with the answers of each command written by hand."""


def lines(*events, end="\n"):
    """`T0 acq a @1` stands for the line `T0|acq(a)|1`."""
    text = ""
    for event in events:
        thread, word, operand, location = event.split(" ")
        text += f"{thread}|{word}({operand})|{location.removeprefix('@')}{end}"
    return text.encode()


OPPOSITE = ["T0 acq a @1", "T0 acq b @2", "T0 rel b @3", "T0 rel a @4", "T1 acq b @5", "T1 acq a @6"]
OPPOSITE_REPORT = b"cycle 1: 2 edges\n  T0 holds a since 1 wants b at 2\n  T1 holds b since 5 wants a at 6\ncycles: 1\n"
NONE = (b"cycles: 0\n", b"", 0)
GATE = [
    "T0 acq g @1", "T0 acq a @2", "T0 acq b @3", "T0 rel b @4", "T0 rel a @5", "T0 rel g @6",
    "T1 acq g @7", "T1 acq b @8", "T1 acq a @9",
]  # fmt: skip
RING = ["T0 acq a @1", "T0 acq b @2", "T1 acq b @3", "T1 acq c @4", "T2 acq c @5", "T2 acq a @6"]
MANY_OPPOSITE = [
    f"T{t} {word} {lock} @{t}"
    for t in range(40)
    for word, lock in [("acq", "a"), ("acq", "b"), ("rel", "b"), ("rel", "a")]
    + [("acq", "b"), ("acq", "a"), ("rel", "a"), ("rel", "b")]
]


def cycle(number, *edges):
    text = f"cycle {number}: {len(edges)} edges\n"
    for edge in edges:
        text += "  {} holds {} since {} wants {} at {}\n".format(*edge.split(" "))
    return text.encode()


def refused(line, text):
    return b"", f"goodlock: line {line}: {text}\n".encode(), 2


def two_edges(*cycles):
    """The answer that lists these cycles of two edges."""
    text = b"".join(cycle(number, *edges) for number, edges in enumerate(cycles, 1))
    return text + f"cycles: {len(cycles)}\n".encode(), b"", 1


def findings(*shown, more=""):
    """The answer that lists these findings, each with the edges of the cycle that shows it. Behind an edge stand how many
    threads and how many locks its pair of places has; where nothing does, one thread and two locks."""
    text = ""
    for number, edges in enumerate(shown, 1):
        text += f"finding {number}: {len(edges)} edges\n"
        for edge_ in edges:
            thread, held, held_at, wanted, wanted_at, *counted = edge_.split(" ")
            threads, locks = counted or ("1", "2")
            text += f"  {thread} holds {held} since {held_at} wants {wanted} at {wanted_at}\n"
            text += f"    threads: {threads}, locks: {locks}\n"
    return f"{text}findings: {len(shown)}{more}\n".encode(), b"", 1 if shown else 0


def worked_of_lock_modes():
    """Name, text, answers by hand: one for all modes, or by mode. The cycles have two edges and no fork orders
    any of them, so that the answers are those of both stages."""
    upgrade = refused(2, "shared lock taken exclusively")
    opposite = two_edges(("T0 a 1 b 2", "T1 b 3 a 4"))
    gated = two_edges(("T0 a 2 b 3", "T1 b 5 a 6"))
    by_gate = {"basic": gated, "guarded": NONE, "full": NONE}

    def behind_gate(word, other_word):
        first = [f"T0 {word} g @1", "T0 acq a @2", "T0 acq b @3"]
        return lines(*first, f"T1 {other_word} g @4", "T1 acq b @5", "T1 acq a @6")

    def opposite_by(*words):
        acquires = zip(("T0", "T0", "T1", "T1"), words, ("a", "b", "b", "a"), (1, 2, 3, 4))
        return lines(*[f"{thread} {word} {lock} @{at}" for thread, word, lock, at in acquires])

    rest = ["T0 acq a @5", "T0 acq b @6", "T1 acq b @7", "T1 acq a @8"]
    return [
        # Readers let each other in; a writer meets a reader, and a reader a writer.
        ("shared, both", opposite_by("racq", "acq", "acq", "racq"), NONE),
        ("shared, both, of the first's wanted lock", opposite_by("acq", "racq", "racq", "acq"), NONE),
        ("shared, the held one", opposite_by("racq", "acq", "acq", "acq"), opposite),
        ("shared, the wanted one", opposite_by("acq", "acq", "acq", "racq"), opposite),
        ("shared, both held ones", opposite_by("racq", "acq", "racq", "acq"), opposite),
        ("shared, both wanted ones", opposite_by("acq", "racq", "acq", "racq"), opposite),
        ("shared, both of one thread", opposite_by("racq", "racq", "acq", "acq"), opposite),
        ("shared, all but one", opposite_by("racq", "racq", "acq", "racq"), NONE),
        ("shared, all", opposite_by("racq", "racq", "racq", "racq"), NONE),
        ("shared_gate, by both", behind_gate("racq", "racq"), gated),
        ("shared_gate, by the first", behind_gate("racq", "acq"), by_gate),
        ("shared_gate, by the second", behind_gate("acq", "racq"), by_gate),
        # What is taken again keeps the mode of its outermost acquire.
        ("upgrade", lines("T0 racq a @1", "T0 acq a @2"), upgrade),
        ("upgrade, tried", lines("T0 racq a @1", "T0 tryacq a @2"), upgrade),
        ("upgrade, of a lock that was tried", lines("T0 tryracq a @1", "T0 acq a @2"), upgrade),
        ("upgrade, below a second shared acquire", lines("T0 racq a @1", "T0 racq a @2", "T0 rrel a @3")
         + lines("T0 acq a @4"), refused(4, "shared lock taken exclusively")),
        ("upgrade, by another thread", lines("T0 racq a @1", "T1 acq a @2"), NONE),
        ("upgrade, after the last release", lines("T0 racq a @1", "T0 rrel a @2", "T0 acq a @3"), NONE),
        (
            "shared below exclusive",
            lines("T0 acq a @1", "T0 racq a @2", "T0 rrel a @3", "T0 acq b @4", "T1 acq b @5", "T1 racq a @6"),
            two_edges(("T0 a 1 b 4", "T1 b 5 a 6")),
        ),
        ("exclusive below exclusive below shared", lines("T0 acq a @1", "T0 racq a @2", "T0 acq a @3"), NONE),
        (
            "exclusive before shared",
            lines("T0 racq a @1", "T0 acq b @2", "T0 rel b @3", "T0 rrel a @4", *rest),
            two_edges(("T0 a 5 b 6", "T1 b 7 a 8"), ("T0 a 1 b 2", "T1 b 7 a 8")),
        ),
        (
            "wanted exclusive before wanted shared",
            lines("T0 acq a @1", "T0 racq b @2", "T0 rrel b @3", "T0 rel a @4", *rest),
            two_edges(("T0 a 5 b 6", "T1 b 7 a 8"), ("T0 a 1 b 2", "T1 b 7 a 8")),
        ),
        (
            "held mode before segments",
            lines("T0 racq a @1", "T0 acq b @2", "T0 rel b @3", "T0 rrel a @4", "T0 fork X @4", *rest),
            two_edges(("T0 a 5 b 6", "T1 b 7 a 8"), ("T0 a 1 b 2", "T1 b 7 a 8")),
        ),
        (
            "wanted mode before segments",
            lines("T0 acq a @1", "T0 racq b @2", "T0 rrel b @3", "T0 rel a @4", "T0 fork X @4", *rest),
            two_edges(("T0 a 5 b 6", "T1 b 7 a 8"), ("T0 a 1 b 2", "T1 b 7 a 8")),
        ),
        (
            "held mode before wanted lock",
            lines("T0 racq a @1", "T0 acq b @2", "T0 rel b @3", "T0 rrel a @4", "T0 acq a @5", "T0 acq c @6")
            + lines("T1 acq b @7", "T1 acq a @8", "T1 rel a @9", "T1 rel b @10", "T1 acq c @11", "T1 acq a @12"),
            two_edges(("T0 a 5 c 6", "T1 c 11 a 12"), ("T0 a 1 b 2", "T1 b 7 a 8")),
        ),
        (
            "exclusive guard before shared guard",
            lines("T0 racq g @1", "T0 acq a @2", "T0 acq b @3", "T0 rel b @4", "T0 rel a @5", "T0 rrel g @6")
            + lines("T0 acq g @7", "T0 acq a @8", "T0 acq b @9", "T1 acq b @10", "T1 acq a @11"),
            two_edges(("T0 a 8 b 9", "T1 b 10 a 11"), ("T0 a 2 b 3", "T1 b 10 a 11")),
        ),
        # Either word releases in whichever mode the lock is held.
        ("release by either word", lines("T0 racq a @1", "T0 rel a @2", "T0 rrel a @3"), NONE),
        ("release by rel", lines("T0 racq a @1", "T0 rel a @2", "T0 acq b @3", "T1 acq b @4", "T1 acq a @5"), NONE),
        ("release by rrel", lines("T0 acq a @1", "T0 rrel a @2", "T0 acq b @3", "T1 acq b @4", "T1 acq a @5"), NONE),
        ("release of the depth", lines("T0 acq a @1", "T0 racq a @2", "T0 rel a @3", "T0 acq b @4")
         + lines("T1 acq b @5", "T1 acq a @6"), two_edges(("T0 a 1 b 4", "T1 b 5 a 6"))),
        ("stray rrel", lines("T0 rrel a @1", "T0 acq b @2"), NONE),
        # A lock that is tried isn't waited for, but is held from then on.
        ("tried, the second lock", opposite_by("acq", "tryacq", "acq", "acq"), NONE),
        ("tried, the second lock, shared", opposite_by("acq", "tryracq", "acq", "acq"), NONE),
        ("tried, the first lock", opposite_by("tryacq", "acq", "acq", "acq"), opposite),
        ("tried, the first lock, shared", opposite_by("tryracq", "acq", "acq", "acq"), opposite),
        ("tried, the first lock, shared by both", opposite_by("tryracq", "acq", "acq", "racq"), NONE),
        ("tried gate", behind_gate("tryacq", "acq"), by_gate),
        ("tried gate, shared by both", behind_gate("tryracq", "racq"), gated),
        (
            "tried while held",
            lines("T0 acq a @1", "T0 tryacq a @2", "T0 rel a @3", "T0 acq b @4", "T1 acq b @5", "T1 acq a @6"),
            two_edges(("T0 a 1 b 4", "T1 b 5 a 6")),
        ),
        (
            "waited for after it was tried",
            lines("T0 acq a @1", "T0 tryacq b @2", "T0 rel b @3", "T0 acq b @4", "T1 acq b @5", "T1 acq a @6"),
            two_edges(("T0 a 1 b 4", "T1 b 5 a 6")),
        ),
        # The words are read like the others, and what is like them is skipped.
        ("tried, no closing parenthesis", b"T0|tryacq(|3", refused(1, "bad operand")),
        ("shared, no parenthesis", b"T0|racq|3", refused(1, "bad operand")),
        ("shared release, no operand", b"T0|rrel()|3", refused(1, "bad operand")),
        ("tried and shared, no operand", b"T0|tryracq()|3", refused(1, "bad operand")),
        ("words that are like these", b"".join(b"T0|%s(|1\n" % word for word in
         [b"tryrel", b"tryrrel", b"rtryacq", b"rracq", b"wacq", b"tryacq ", b"Racq", b"try"]), NONE),
        (
            "shared, 65 locks held",
            lines(*[f"T0 {word} l{i} @{i}" for i, word in enumerate(["racq", "acq", "tryacq", "tryracq"] * 16)])
            + lines("T0 tryracq l64 @64"),
            refused(65, "too many locks held"),
        ),
    ]  # fmt: skip


def worked(stage):
    """Name, text, answer by hand, whether the reference is quick enough for it."""
    first = stage == "first"
    prefix = b"T0|acq(a)|"
    gate = cycle(1, "T0 a 2 b 3", "T1 b 8 a 9") + b"cycles: 1\n"
    ring = cycle(1, "T0 a 1 b 2", "T1 b 3 c 4", "T2 c 5 a 6") + b"cycles: 1\n"
    opposite = (OPPOSITE_REPORT, b"", 1)
    loop = (b"", b"goodlock: inconsistent: T0.1 precedes itself\n", 2)
    loops = (b"", b"goodlock: inconsistent: T0.2 precedes itself\n", 2)
    skipped = (
        b"T0|acq(a)|1\r\n\r\nT0|r(x)|9\r\nT0|acq(b)|A.java:7|x\r\nT0|rel(b)|3\r\nT0|rel(a)|4\r\n"
        b"T0|begin|3\r\nT1|acq(b)|5\r\nT1|acq(a)|6"
    )
    rounds = [
        f"T0 {word} {lock} @{4 * k + i}"
        for k in range(1000)
        for i, (word, lock) in enumerate([("acq", "a"), ("acq", "b"), ("rel", "b"), ("rel", "a")], 1)
    ]
    least = cycle(1, "T0 a 1 b 2", "T1 b 4001 a 4002") + b"cycles: 1\n"
    two = cycle(1, "T0 a 1 b 2", "T1 b 9 a 10") + cycle(2, "T0 c 5 d 6", "T1 d 13 c 14") + b"cycles: 2\n"
    forks = ["M fork T0 @1", "M join T0 @2", "M fork T1 @3"]
    holding = ["M acq a @1", "M fork T1 @2", "M acq b @3", "T1 acq b @4", "T1 acq a @5"]
    return [
        ("empty_input", b"", NONE, True),
        ("opposite_order", lines(*OPPOSITE), opposite, True),
        ("gate_lock", lines(*GATE), (gate, b"", 1) if first else NONE, True),
        ("joined_before", lines(*forks, *OPPOSITE), opposite if first else NONE, True),
        (
            "fork_while_holding",
            lines(*holding),
            (cycle(1, "M a 1 b 3", "T1 b 4 a 5") + b"cycles: 1\n", b"", 1),
            True,
        ),
        ("three_lock_ring", lines(*RING), NONE if first else (ring, b"", 1), True),
        (
            "reentrant_acquire",
            lines("T0 acq a @1", "T0 acq a @2", "T0 acq b @3", "T0 rel a @4", "T0 acq c @5")
            + lines("T1 acq c @6", "T1 acq a @7"),
            (cycle(1, "T0 a 1 c 5", "T1 c 6 a 7") + b"cycles: 1\n", b"", 1),
            True,
        ),
        ("crossed_releases", lines("T0 acq a @1", "T0 acq b @2", "T0 rel a @3", "T0 acq c @4"), NONE, True),
        (
            "one_thread_both_orders",
            lines(*OPPOSITE[:4], "T0 acq b @5", "T0 acq a @6"),
            NONE,
            True,
        ),
        ("least_sample", lines(*rounds, "T1 acq b @4001", "T1 acq a @4002"), (least, b"", 1), False),
        ("crlf_and_skipped", skipped, (OPPOSITE_REPORT.replace(b"b at 2", b"b at A.java:7|x"), b"", 1), True),
        ("bad_lines, no closing parenthesis", b"T0|acq(|3", refused(1, "bad operand"), True),
        ("bad_lines, no parenthesis", b"T0|acq|3", refused(1, "bad operand"), True),
        ("bad_lines, one bar", b"T0|acq(a)", refused(1, "no location field"), True),
        ("bad_lines, no thread", b"|acq(a)|1", refused(1, "no thread"), True),
        ("bad_lines, no bar", b"T0", refused(1, "no bar"), True),
        (
            "bad_lines, fork of itself",
            b"T0|fork(T0)|1",
            NONE if first else refused(1, "thread forks or joins itself"),
            True,
        ),
        ("stray_release", lines("T0 rel a @1", "T0 acq b @2"), NONE, True),
        (
            "first_of_two_cycles",
            lines("T0 acq a @1", "T0 acq b @2", "T0 rel b @3", "T0 rel a @4")
            + lines("T0 acq c @5", "T0 acq d @6", "T0 rel d @7", "T0 rel c @8")
            + lines("T1 acq b @9", "T1 acq a @10", "T1 rel a @11", "T1 rel b @12")
            + lines("T1 acq d @13", "T1 acq c @14"),
            (two, b"", 1),
            True,
        ),
        ("join_loop", lines("T0 join T1 @1", "T1 join T0 @2"), NONE if first else loop, True),
        (
            "fork_join_fork",
            lines("T0 fork T1 @1", "T0 join T1 @2", "T0 fork T1 @3", "T1 acq a @4"),
            NONE if first else loops,
            True,
        ),
        ("longest_line", prefix + b"x" * 65_526, NONE, True),
        ("longest_line, LF", prefix + b"x" * 65_526 + b"\n", NONE, True),
        ("longest_line, CR LF", prefix + b"x" * 65_526 + b"\r\n", NONE, True),
        ("longest_line, one more", prefix + b"x" * 65_527 + b"\n", refused(1, "line too long"), True),
        ("longest_line, CR kept", prefix + b"x" * 65_526 + b"\r", refused(1, "line too long"), True),
        (
            "limits_reached, 64 locks held",
            lines(*[f"T0 acq l{i} @{i}" for i in range(64)], "T0 acq l3 @64", "T0 rel l9 @65"),
            NONE,
            False,
        ),
        (
            "limits_reached, 65 locks held",
            lines(*[f"T0 acq l{i} @{i}" for i in range(65)]),
            refused(65, "too many locks held"),
            True,
        ),
        ("limits_reached, depth", lines("T0 acq a @1") * 1_000_000, NONE, False),
        (
            "limits_reached, depth and one more",
            lines("T0 acq a @1") * 1_000_001,
            refused(1_000_001, "lock taken too often"),
            False,
        ),
        (
            "limits_reached, depth and one more, in shared mode",
            lines("T0 racq a @1") * 1_000_000 + lines("T0 acq a @1"),
            refused(1_000_001, "lock taken too often"),
            False,
        ),
        (
            "limits_reached, an upgrade and a depth below the limit",
            lines("T0 racq a @1") * 999_999 + lines("T0 acq a @1"),
            refused(1_000_000, "shared lock taken exclusively"),
            False,
        ),
        ("limits_reached, threads", lines(*[f"T{i} acq a @1" for i in range(1024)]), NONE, False),
        (
            "limits_reached, threads and one more",
            lines(*[f"T{i} acq a @1" for i in range(1025)]),
            refused(1025, "too many threads"),
            False,
        ),
        (
            "limits_reached, a forked thread too many",
            lines(*[f"T{i} acq a @1" for i in range(1024)], "T5 fork T9999 @2", "T5 acq b @3"),
            NONE if first else refused(1025, "too many threads"),
            False,
        ),
        (
            "limits_reached, a stray's thread has no number",
            lines(*[f"T{i} acq a @1" for i in range(1024)], "T9999 rel a @2", "T5 acq b @3"),
            NONE,
            False,
        ),
        ("more_than_1000_cycles", lines(*MANY_OPPOSITE), None, True),
    ]


def edge(thread, held, held_at, wanted, wanted_at, place, guards=None, segment=0):
    """An edge of exclusive locks, in one segment, as JSON spells it: in format 1 and in format 2. Guards are the held
    lock unless given."""
    guards = guards or [held]
    names, modes = (",".join(f'"{word}"' for word in words) for words in (guards, "x" * len(guards)))

    def spelled(guard_modes, held_mode, wanted_mode):
        return (
            f'{{"first":{segment},{guard_modes}"guards":[{names}],"held":"{held}","held_at":"{held_at}",{held_mode}'
            f'"place":{place},"second":{segment},"thread":"{thread}","wanted":"{wanted}","wanted_at":"{wanted_at}"'
            f"{wanted_mode}}}"
        )

    return spelled("", "", ""), spelled(f'"guard_modes":[{modes}],', '"held_mode":"x",', ',"wanted_mode":"x"')


def as_json(table, cycles, trim="null"):
    """The answers that list these cycles, by positions in the table of edges, for the query of the program; by format."""
    asked = '"len":4,"max":1000,"mode":"full","more":false'
    listed = ",".join("[" + ",".join(table[at][0] for at in cycle) + "]" for cycle in cycles)
    first = f'{{"cycles":[{listed}],"format":1,{asked}}}\n'
    listed = ",".join("[" + ",".join(map(str, cycle)) + "]" for cycle in cycles)
    edges = ",".join(in_format_2 for _, in_format_2 in table)
    second = f'{{"cycles":[{listed}],"edges":[{edges}],"format":2,{asked},"trim":{trim}}}\n'
    return {form: (text.encode(), b"", 1 if cycles else 0) for form, text in ((1, first), (2, second))}


NONE_JSON = as_json([], [], "[]")
OPPOSITE_JSON = as_json([edge("T0", "a", 1, "b", 2, 1), edge("T1", "b", 5, "a", 6, 1)], [[0, 1]])


# The format of JSON that the program prints.
FORMAT = 2


def in_format(by_hand, form=FORMAT):
    """The answer by hand; where there is one for each format of JSON, that of this format."""
    return by_hand[form] if isinstance(by_hand, dict) else by_hand


def findings_json(table, shown, most=1000, more="false"):
    """The answer that lists these findings, each by the positions of the edges of the cycle that shows it."""
    edges = ",".join(in_format_2 for _, in_format_2 in table)
    listed = ",".join("[" + ",".join(map(str, cycle)) + "]" for cycle in shown)
    asked = f'"len":4,"max":{most},"mode":"full","more":{more}'
    return f'{{"edges":[{edges}],"findings":[{listed}],"format":3,{asked}}}\n'.encode(), b"", 1 if shown else 0


def counts(events, skipped, stray, threads, locks, segments, edges, cycles):
    text = f"events: {events}\nskipped: {skipped}\nstray: {stray}\nthreads: {threads}\nlocks: {locks}\n"
    return (text + f"segments: {segments}\nedges: {edges}\ncycles: {cycles}\n").encode(), b"", 0


def section(thread, held, held_at, wanted, wanted_at):
    """The thread takes one lock and then, while it holds it, the other; and gives both back."""
    taken = [f"{thread} acq {held} @{held_at}", f"{thread} acq {wanted} @{wanted_at}"]
    return [*taken, f"{thread} rel {wanted} @-", f"{thread} rel {held} @-"]


def sections(*told):
    """`T0 a P b Q` stands for T0's section in which it holds a since P and wants b at Q."""
    return lines(*[event for one in told for event in section(*one.split(" "))])


# Three threads run one piece of code, and three the other: nine cycles, which are one finding.
TWO_PIECES = sections(*[f"T{i} a P b Q" for i in range(3)], *[f"U{i} b R a S" for i in range(3)])
# Of each of two faults four cycles. Edges 0 to 7 are of the classes 0, 1, 0, 1, 4, 5, 4 and 5.
TWO_FAULTS = sections(
    *[f"T{i} {rest}" for i in range(2) for rest in ("a A b B", "c C d D")],
    *[f"U{i} {rest}" for i in range(2) for rest in ("b E a F", "d G c H")],
)
TWO_FAULTS_EDGES = [
    edge("T0", "a", "A", "b", "B", 1), edge("T0", "c", "C", "d", "D", 5),
    edge("T1", "a", "A", "b", "B", 1), edge("T1", "c", "C", "d", "D", 5),
    edge("U0", "b", "E", "a", "F", 1), edge("U0", "d", "G", "c", "H", 5),
    edge("U1", "b", "E", "a", "F", 1), edge("U1", "d", "G", "c", "H", 5),
]  # fmt: skip
FIRST_FAULT, SECOND_FAULT = ("T0 a A b B 2 2", "U0 b E a F 2 2"), ("T0 c C d D 2 2", "U0 d G c H 2 2")


def worked_of_findings():
    """Name, command, text, answer by hand."""
    one = findings(("T0 a 1 b 2", "T1 b 5 a 6"))
    philosophers = sections(*[f"P{i} s{i} L s{(i + 1) % 5} R" for i in range(5)])
    ring_of_five = findings(tuple(f"P{i} s{i} L s{(i + 1) % 5} R 5 5" for i in range(5)))
    # The classes are 1, 2, 3 and, by T0's edge, 0; the cycles' signatures 1 3 and 2 0, which is told as 0 2.
    crossed = ("T1 a U b V", "T1 c P d Q", "T2 b W a X", "T2 d R c S")
    first, second = ("T1 a U b V", "T2 b W a X"), ("T1 c P d Q", "T2 d R c S")
    second_with_another = ("T1 c P d Q", "T2 d R c S 2 4")
    # T0's and T1's sections are below a gate, T2's isn't.
    gated = lines("T0 acq g @G", "T0 acq a @P", "T0 acq b @Q", "T1 acq g @G", "T1 acq b @R", "T1 acq a @S")
    gated += sections("T2 a P b Q")
    # All of T's part comes after M's, and U's part is ordered by nothing.
    forked = sections("M a P b Q") + lines("M fork T @-") + sections("T b R a S", "U b R a S")
    # A ring of three in one turn, the same told from another place, and in the other turn.
    turns = sections("T0 a A b A2", "T1 b B c B2", "T2 c C a C2")
    turns += sections("T3 d B e B2", "T4 e C f C2", "T5 f A d A2")
    other_turn = sections("T6 g A h A2", "T7 h C i C2", "T8 i B g B2")
    unclosed = lines("T0 acq a @1") + b"T0|rel(a|2\n" + lines("T0 acq b @3")
    loop = lines("T0 join T1 @1", "T1 join T0 @2")
    in_two_pieces = findings(("T0 a P b Q 3 2", "U0 b R a S 3 2"))
    by_one_place = ("T0 a P b Q 4 3", "T3 b P a Q 4 3"), ("T0 a P b Q 4 3", "T1 b P c Q 4 3", "T2 c P a Q 4 3")
    turned, other_turned = ("T0 a A b A2", "T1 b B c B2", "T2 c C a C2"), ("T6 g A h A2", "T7 h C i C2", "T8 i B g B2")
    listed = "predict --findings"
    return [
        ("empty_input", listed, b"", findings()),
        ("opposite_order", listed, lines(*OPPOSITE), one),
        ("one thread alone", listed, sections("T0 a 1 b 2", "T0 b 3 a 4"), findings()),
        ("many threads in two pieces of code", listed, TWO_PIECES, in_two_pieces),
        ("many threads, one of them listed", f"{listed} --max 1", TWO_PIECES, in_two_pieces),
        ("two faults", listed, TWO_FAULTS, findings(FIRST_FAULT, SECOND_FAULT)),
        ("two faults, both listed", f"{listed} --max 2", TWO_FAULTS, findings(FIRST_FAULT, SECOND_FAULT)),
        ("two faults, more", f"{listed} --max 1", TWO_FAULTS, findings(FIRST_FAULT, more=" (more)")),
        # A place is a pair: where the held lock was acquired, and where the wanted one is asked for.
        (
            "held since other places",
            listed,
            sections("T0 a P b Q", "T1 a V b Q", "T2 b R a S"),
            findings(("T0 a P b Q", "T2 b R a S"), ("T1 a V b Q", "T2 b R a S")),
        ),
        (
            "wanted at other places",
            listed,
            sections("T0 a P b Q", "T1 a P b V", "T2 b R a S"),
            findings(("T0 a P b Q", "T2 b R a S"), ("T1 a P b V", "T2 b R a S")),
        ),
        ("both places changed round", listed, sections("T0 a P b Q", "T1 a Q b P", "T2 b R a S"),
         findings(("T0 a P b Q", "T2 b R a S"), ("T1 a Q b P", "T2 b R a S"))),
        ("places without a name", listed, sections("T0 a  b ", "T1 b  a ", "T2 a  b "),
         (b"finding 1: 2 edges\n  T0 holds a since  wants b at \n    threads: 3, locks: 2\n"
          b"  T1 holds b since  wants a at \n    threads: 3, locks: 2\nfindings: 1\n", b"", 1)),
        # Rings that one place makes: the signatures 0 0, 0 0 0 and so on.
        ("a ring by one place", f"{listed} --len 5", philosophers, ring_of_five),
        ("a ring by one place, too long", listed, philosophers, findings()),
        (
            "a front before what goes on from it",
            listed,
            sections("T0 a P b Q", "T1 b P c Q", "T2 c P a Q", "T3 b P a Q"),
            findings(*by_one_place),
        ),
        (
            "a front, of which alone there is more",
            f"{listed} --max 1",
            sections("T0 a P b Q", "T1 b P c Q", "T2 c P a Q", "T3 b P a Q"),
            findings(by_one_place[0], more=" (more)"),
        ),
        (
            "a longer one before a shorter one",
            listed,
            sections("T0 a A b B", "T1 b C c D", "T2 c E a F", "T3 d G e H", "T4 e I d J"),
            findings(("T0 a A b B", "T1 b C c D", "T2 c E a F"), ("T3 d G e H", "T4 e I d J")),
        ),
        ("a pair within another pair's classes", listed, sections("T0 a A b B", "T0 c C d D", "T1 d G c H", "T2 b E a F"),
         findings(("T0 a A b B", "T2 b E a F"), ("T0 c C d D", "T1 d G c H"))),
        # A signature is told from where it is least, though the cycle begins at its least thread.
        ("told from elsewhere", listed, sections("T0 x R y S", *crossed),
         findings(second_with_another, first)),
        ("told from elsewhere, more", f"{listed} --max 1", sections("T0 x R y S", *crossed),
         findings(second_with_another, more=" (more)")),
        ("without the edge that gives the class", listed, sections(*crossed), findings(first, second)),
        ("a pair told from the other place", listed, sections("T0 a P b Q", "T1 b R a S", "T2 c R d S", "T3 d P c Q"),
         findings(("T0 a P b Q 2 4", "T1 b R a S 2 4"))),
        ("a ring told from another place", listed, turns,
         findings(tuple(f"{edge_} 2 4" for edge_ in turned))),
        (
            "a ring the other way round",
            listed,
            turns + other_turn,
            findings(*[tuple(f"{edge_} 3 6" for edge_ in ring) for ring in (turned, other_turned)]),
        ),
        ("rings of up to two", f"{listed} --len 2", turns + other_turn, findings()),
        # Which cycles there are is the mode's to say, and so which one shows a finding.
        ("a gate lock", listed, gated, findings(("T1 b R a S", "T2 a P b Q 2 2"))),
        ("a gate lock, guarded", f"{listed} --mode guarded", gated, findings(("T1 b R a S", "T2 a P b Q 2 2"))),
        ("a gate lock, basic", f"{listed} --mode basic", gated, findings(("T0 a P b Q 2 2", "T1 b R a S"))),
        ("gate_lock", listed, lines(*GATE), findings()),
        ("fork order", listed, forked, findings(("M a P b Q", "U b R a S 2 2"))),
        ("fork order, guarded", f"{listed} --mode guarded", forked, findings(("M a P b Q", "T b R a S 2 2"))),
        ("joined_before", listed, lines("M fork T0 @1", "M join T0 @2", "M fork T1 @3", *OPPOSITE), findings()),
        # An edge that is made at several places is of the first one's class.
        ("an edge made again elsewhere", listed, sections("T0 a P b Q", "T0 a V b W", "T1 b R a S"),
         findings(("T0 a P b Q", "T1 b R a S"))),
        ("an edge of another thread elsewhere", listed, sections("T0 a P b Q", "T0 a V b W", "T1 b R a S", "T2 a V b W"),
         findings(("T0 a P b Q", "T1 b R a S"), ("T1 b R a S", "T2 a V b W"))),
        # What is counted are all edges of a pair of places, in cycles or not; a lock once, held or wanted, and no guard.
        ("one thread, many locks", listed, sections("T0 a P b Q", "T0 c P d Q", "T0 e P b Q", "T1 b R a S"),
         findings(("T0 a P b Q 1 5", "T1 b R a S"))),
        ("many threads, one lock in common", listed, sections(*[f"T{i} a P b{i} Q" for i in range(4)], "U b0 R a S"),
         findings(("T0 a P b0 Q 4 5", "U b0 R a S"))),
        ("one lock, held by some and wanted by others", listed, sections("T0 a P b Q", "T1 c P a Q", "T2 b R a S"),
         findings(("T0 a P b Q 2 3", "T2 b R a S"))),
        ("other modes at the same places", listed, sections("T0 a P b Q", "T1 b R a S")
         + lines("T2 racq c @P", "T2 racq d @Q"), findings(("T0 a P b Q 2 4", "T1 b R a S"))),
        ("an edge made again elsewhere, counted once", listed,
         sections("T0 a P b Q", "T2 c V d W", "T2 c P d Q", "T1 b R a S"), findings(("T0 a P b Q", "T1 b R a S"))),
        ("readers", listed, lines("T0 racq a @P", "T0 acq b @Q", "T1 acq b @R", "T1 racq a @S"), findings()),
        ("an unclosed operand", listed, unclosed, refused(2, "bad operand")),
        ("join_loop", listed, loop, (b"", b"goodlock: inconsistent: T0.1 precedes itself\n", 2)),
        ("empty_input", f"{listed} --json", b"", findings_json([], [])),
        ("opposite_order", f"{listed} --json", lines(*OPPOSITE),
         findings_json([edge("T0", "a", 1, "b", 2, 1), edge("T1", "b", 5, "a", 6, 1)], [[0, 1]])),
        ("no finding", f"{listed} --json", sections("T0 a 1 b 2"), findings_json([edge("T0", "a", 1, "b", 2, 1)], [])),
        ("two faults", f"{listed} --json", TWO_FAULTS, findings_json(TWO_FAULTS_EDGES, [[0, 4], [1, 5]])),
        ("two faults, more", f"{listed} --json --max 1", TWO_FAULTS,
         findings_json(TWO_FAULTS_EDGES, [[0, 4]], 1, "true")),
        ("an unclosed operand", f"{listed} --json", unclosed, refused(2, "bad operand")),
    ]  # fmt: skip


def worked_of_live_findings():
    """The same of both forms of live: what they list is what predict lists."""
    shown = worked_of_findings()
    for form in ("live", "live --stream"):
        yield from ((name, words.replace("predict", form, 1), text, by_hand) for name, words, text, by_hand in shown)
    two = findings(FIRST_FAULT, SECOND_FAULT)
    one = findings(FIRST_FAULT, more=" (more)")
    yield "two faults", "live --findings --recorders 2 --shards 3 --ring 1", TWO_FAULTS, two
    yield "two faults, more", "live --findings --recorders 1 --max 1 --shards 16", TWO_FAULTS, one
    yield "threads of no stream", "live --findings --threads 1", TWO_FAULTS, two
    yield "two faults", "live --stream --findings --shards 3 --ring 1 --threads 4", TWO_FAULTS, two
    yield "two faults, more", "live --stream --findings --max 1 --threads 1024", TWO_FAULTS, one
    yield "one_thread_too_few", "live --stream --findings --threads 1", lines(*OPPOSITE), refused(5, "too many threads")
    bad = TWO_FAULTS + b"T0|acq|7"
    yield "findings before a bad line", "live --stream --findings", bad, refused(33, "bad operand")


def worked_of_commands():
    """Name, command, text, answer by hand, for the program's own query."""
    crlf = b"T0|acq(a)|1\r\n\r\nT0|r(x)|9\r\nT1|rel(a)|2\r\nT0|begin|3\nT0|acq(b)|5\r"
    holding = lines("M acq a @1", "M fork T1 @2", "M acq b @3", "T1 acq b @4", "T1 acq a @5")
    fork_loop = lines("T0 fork T1 @1", "T0 join T1 @2", "T0 fork T1 @3", "T1 acq a @4")
    words = ["acq", "racq", "tryacq", "tryracq", "fork", "join"]
    each_word = lines(*[f"T{i % 2} {word} l{i} @{i}" for i, word in enumerate(words)], "T1 rel l1 @7", "T0 rrel l0 @8")
    by_thread = lines(*[f"T0 {words[i]} l{i} @{i}" for i in (0, 2, 4)], "T0 rrel l0 @8")
    by_thread += lines(*[f"T1 {words[i]} l{i} @{i}" for i in (1, 3, 5)], "T1 rel l1 @7")
    unclosed = lines("T0 acq a @1") + b"T0|rel(a|2\n" + lines("T0 acq b @3")
    odd = b"T 0|acq(a\xc3\xa9)|x|y\\\nT 0|acq(\x7f)|\nT1|acq(\x7f)| ~\nT1|acq(a\xc3\xa9)|\x00\n"
    odd_edges = [edge("T 0", "a\\\\xc3\\\\xa9", "x|y\\\\x5c", "\\\\x7f", "", 1)]
    odd_edges += [edge("T1", "\\\\x7f", " ~", "a\\\\xc3\\\\xa9", "\\\\x00", 1)]
    nested = ["T0 acq c @1", "T0 acq a @2", "T0 acq b @3", "T1 acq b @4", "T1 acq a @5"]
    guarded = [edge("T0", "c", 1, "a", 2, 1), edge("T0", "c", 1, "b", 3, 2, ["c", "a"])]
    guarded += [edge("T0", "a", 2, "b", 3, 2, ["c", "a"]), edge("T1", "b", 4, "a", 5, 1)]
    one_thread = "live --stream --threads 1"
    return [
        ("empty_input", "predict --json", b"", NONE_JSON),
        ("opposite_order", "predict --json", lines(*OPPOSITE), OPPOSITE_JSON),
        ("guards by number", "predict --json", lines(*nested), as_json(guarded, [[2, 3]])),
        ("escaped names", "predict --json", odd, as_json(odd_edges, [[0, 1]])),
        ("an unclosed operand", "predict --json", unclosed, refused(2, "bad operand")),
        ("empty_input", "stats", b"", counts(0, 0, 0, 0, 0, 0, 0, 0)),
        ("opposite_order", "stats", lines(*OPPOSITE), counts(6, 0, 0, 2, 2, 2, 2, 1)),
        ("opposite_order", "stats --jobs 2", lines(*OPPOSITE), counts(6, 0, 0, 2, 2, 2, 2, 1)),
        ("fork_while_holding", "stats", holding, counts(5, 0, 0, 2, 2, 3, 2, 1)),
        ("crlf_and_skipped", "stats", crlf, counts(2, 2, 1, 1, 2, 1, 1, 0)),
        ("stray_release", "stats", lines("T0 rel a @1", "T0 acq b @2"), counts(1, 0, 1, 1, 1, 1, 0, 0)),
        # A forked thread without events counts, with its one segment; equal edges count once.
        ("a thread without events", "stats", lines("T0 fork T1 @1"), counts(1, 0, 0, 2, 0, 3, 0, 0)),
        ("equal edges", "stats", lines(*OPPOSITE[:4] * 3), counts(12, 0, 0, 1, 2, 1, 1, 0)),
        ("each word", "stats", each_word, counts(8, 0, 0, 4, 4, 6, 0, 0)),
        ("an unclosed operand", "stats", unclosed, refused(2, "bad operand")),
        ("fork_join_fork", "stats", fork_loop, (b"", b"goodlock: inconsistent: T0.2 precedes itself\n", 2)),
        ("empty_input", "live", b"", NONE),
        ("empty_input", "live --json", b"", NONE_JSON),
        ("empty_input", "live --stream", b"", NONE),
        ("opposite_order", "live", lines(*OPPOSITE), (OPPOSITE_REPORT, b"", 1)),
        ("opposite_order", "live --recorders 2 --shards 3 --ring 1", lines(*OPPOSITE), (OPPOSITE_REPORT, b"", 1)),
        ("opposite_order", "live --jobs 64", lines(*OPPOSITE), (OPPOSITE_REPORT, b"", 1)),
        ("opposite_order", "live --stream --jobs 3", lines(*OPPOSITE), (OPPOSITE_REPORT, b"", 1)),
        ("opposite_order", "live --json", lines(*OPPOSITE), OPPOSITE_JSON),
        ("opposite_order", "live --stream", lines(*OPPOSITE), (OPPOSITE_REPORT, b"", 1)),
        ("opposite_order", "live --stream --json", lines(*OPPOSITE), OPPOSITE_JSON),
        ("one_thread_too_few", "live --stream --threads 1", lines(*OPPOSITE), refused(5, "too many threads")),
        ("as many threads", "live --stream --threads 2", lines(*OPPOSITE), (OPPOSITE_REPORT, b"", 1)),
        ("threads of no stream", "live --threads 1", lines(*OPPOSITE), (OPPOSITE_REPORT, b"", 1)),
        ("64 threads", "live --stream", lines(*[f"T{i} acq a @1" for i in range(64)]), NONE),
        ("65 threads", "live --stream", lines(*[f"T{i} acq a @1" for i in range(65)]), refused(65, "too many threads")),
        ("an unclosed operand", "live", unclosed, refused(2, "bad operand")),
        ("an unclosed operand", "live --stream", unclosed, refused(2, "bad operand")),
        ("fork_join_fork", "live", fork_loop, (b"", b"goodlock: inconsistent: T0.2 precedes itself\n", 2)),
        ("fork_join_fork", "live --stream", fork_loop, (b"", b"goodlock: inconsistent: T0.2 precedes itself\n", 2)),
        ("crlf_and_skipped", one_thread, crlf, NONE),
        ("guards by number", "live --stream --json --threads 2", lines(*nested), as_json(guarded, [[2, 3]])),
        ("lanes left over", "live --stream --threads 1024 --ring 1", lines(*OPPOSITE), (OPPOSITE_REPORT, b"", 1)),
        ("16 shards", "live --stream --shards 16 --ring 1", lines(*OPPOSITE), (OPPOSITE_REPORT, b"", 1)),
        # The first line with a fault is told, whatever the lines before it and after it say.
        ("a loop before a bad line", "live --stream", fork_loop + b"T0\n", refused(5, "no bar")),
        ("a cycle before a bad line", "live --stream", lines(*OPPOSITE) + b"T0|acq|7", refused(7, "bad operand")),
        ("two bad lines", "live --stream", b"T0|acq(|1\nT0\n", refused(1, "bad operand")),
        ("a bad line, then a thread too many", one_thread, b"T0\n" + lines(*OPPOSITE), refused(1, "no bar")),
        # Which threads a line mentions: an event's, and a forked or joined one.
        ("a forked thread too many", one_thread, lines("T0 fork T1 @1"), refused(1, "too many threads")),
        ("a joined thread too many", one_thread, lines("T0 acq a @1", "T0 join T1 @2"), refused(2, "too many threads")),
        ("a stray's thread has no number", one_thread, lines("T0 acq a @1", "T1 rel a @2"), NONE),
        ("a skipped line's thread has no number", one_thread, lines("T0 acq a @1", "T1 r a @2"), NONE),
        ("a forked thread has a lane", "live --stream --threads 2", lines("T0 fork T1 @1", "T1 acq a @2"), NONE),
        ("empty_input", "replay", b"", (b"", b"", 0)),
        ("empty_input", "replay --jobs 16", b"", (b"", b"", 0)),
        (
            "replayed_lists",
            "replay",
            lines("T1 acq b @5", "T0 acq a @1", "T1 rel b @6", "T1 r x @9"),
            (lines("T1 acq b @5", "T1 rel b @6", "T0 acq a @1"), b"", 0),
        ),
        ("replayed_lists, CR alone", "replay", b"T0|acq(a)|x\r", (b"T0|acq(a)|x\r\r\n", b"", 0)),
        ("crlf_and_skipped", "replay", crlf, (b"T0|acq(a)|1\nT0|acq(b)|5\r\r\n", b"", 0)),
        ("each word", "replay", each_word, (by_thread, b"", 0)),
        ("an unclosed operand", "replay", unclosed, refused(2, "bad operand")),
        ("fork_join_fork", "replay", fork_loop, (fork_loop, b"", 0)),
        *worked_of_findings(),
        *worked_of_live_findings(),
    ]
