"""Random and damaged traces, and random options of the commands that read them."""

import random

PLAIN = ["T0", "T1", "T2", "T3", "T4", "T5"]
ODD = ["T 0", "\u00e9", "main)", "(", "t\t", "T0 ", "acq(a)", "\x00", "\\", "x\ry"]

ACQUIRES = [["acq", "racq"], ["tryacq", "tryracq"]]  # by whether it is tried, and whether shared
RELEASES = ["rel", "rrel"]
SKIPPED = ["r(x)", "w(y)", "begin", "end", "", "acquire(a)", "ACQ(a)", "acq ", "tryrel(a)", "rracq(a)", "try(a)"]

# Names are compared, and ends of fields looked for, four, eight or sixteen bytes in a step, and from 64 bytes on otherwise.
LENGTHS = [3, 4, 5, 7, 8, 9, 12, 15, 16, 17, 24, 31, 32, 33, 47, 48, 49, 63, 64, 65, 70, 100]


def alike(random_, count):
    """So many different names of one length, each of which differs from the others in a byte or two."""
    length = random_.choice(LENGTHS)
    whole = "".join(random_.choice("abcxyz019./:") for _ in range(length))
    where = [random_.choice([0, length // 2, length - 1, random_.randrange(length)]) for _ in range(count)]
    return [whole[:at] + letter + whole[at + 1 :] for at, letter in zip(where, "ABCDEFGHIJKL")]


class Maker:
    """Makes one random trace; what it keeps only makes likely what is worth testing."""

    def __init__(self, random_, most_lines=34):
        self.random = random_
        odd = random_.random() < 0.2
        names = PLAIN + (ODD if odd else [])
        # How many pieces of code the threads run, which are then many; none, where each line has a place of its own.
        self.pieces = random_.choice([0, 0, 1, 2, 3])
        self.threads = random_.sample(names, random_.randint(4 if self.pieces else 1, 5))
        locks = ["a", "b", "c", "d", "e", "g"] + (["a ", "a)", "(", "\u00fc", "\r"] if odd else [])
        self.locks = random_.sample(locks, random_.randint(2 if self.pieces else 1, 5))
        self.places = ["Pool.java:88", "", "a|b", "x y"] + (["\r", "(1)"] if odd else [])
        if random_.random() < 0.3:
            self.threads = alike(random_, len(self.threads))
            self.locks = alike(random_, len(self.locks))
            self.places += alike(random_, 6)
        self.stack = {}  # by thread, a lock and whether it is shared, once for each acquire
        self.made = []
        self.shared = random_.choice([0, 0, 0.2, 0.5, 0.8])
        self.tried = random_.choice([0, 0, 0.1, 0.4])
        self.upgrades = random_.choice([0, 0, 0, 0.2])
        self.size = random_.randint(0, most_lines)

    def line(self, thread, call, place=None):
        places = [str(len(self.made) + 1)] * 4 + self.places
        self.made.append(f"{thread}|{call}|{self.random.choice(places) if place is None else place}")

    def acquire(self, thread, lock, place=None):
        random_ = self.random
        stack = self.stack.setdefault(thread, [])
        outermost = next((is_shared for held, is_shared in stack if held == lock), None)
        is_shared = random_.random() < self.shared
        if outermost and random_.random() >= self.upgrades:
            is_shared = True
        self.line(thread, f"{ACQUIRES[random_.random() < self.tried][is_shared]}({lock})", place)
        stack.append((lock, is_shared if outermost is None else outermost))

    def release(self, thread, at):
        lock, is_shared = self.stack[thread].pop(at)
        word = RELEASES[is_shared] if self.random.random() < 0.85 else self.random.choice(RELEASES)
        self.line(thread, f"{word}({lock})")

    def block(self):
        """Nested sections of one thread, mostly released in order; of a piece of code, where others run it too."""
        thread = self.random.choice(self.threads)
        depth = self.random.choice([2, 2, 2, 3, 4])
        held = len(self.stack.get(thread, []))
        piece = self.random.randrange(self.pieces) if self.pieces else None
        for at, lock in enumerate(self.random.sample(self.locks, min(depth, len(self.locks)))):
            self.acquire(thread, lock, None if piece is None else f"{piece}:{at}")
        if self.random.random() < 0.85:
            while len(self.stack[thread]) > held:
                self.release(thread, -1)

    def single(self):
        random_ = self.random
        thread = random_.choice(self.threads)
        held = self.stack.get(thread, [])
        kind = random_.random()
        if kind < 0.4:
            self.acquire(thread, random_.choice(self.locks))
        elif kind < 0.75 and held:
            self.release(thread, random_.choice([-1, -1, random_.randrange(len(held))]))
        elif kind < 0.8:
            self.line(thread, f"{random_.choice(RELEASES)}({random_.choice(self.locks)})")
        elif kind < 0.9:
            self.line(thread, random_.choice(SKIPPED))
        else:
            self.link()

    def link(self):
        word = self.random.choice(["fork", "join"])
        thread, other = self.random.choice(self.threads), self.random.choice(self.threads + ["X", "Y"])
        if other != thread or self.random.random() < 0.02:
            self.line(thread, f"{word}({other})")

    def phases(self):
        """A main thread forks and joins the others in turn, so that segments are ordered."""
        main, *others = self.threads
        for other in others:
            if self.random.random() < 0.8:
                self.line(main, f"fork({other})")
            for _ in range(self.random.randint(0, 2)):
                self.block()
            if self.random.random() < 0.5:
                self.line(main, f"join({other})")

    def relay(self):
        """Each thread waits for another or is started by it, so that order passes through third threads."""
        order = self.random.sample(self.threads, len(self.threads))
        self.locks = self.locks[:2] if self.random.random() < 0.5 else self.locks
        for before, after in zip([None] + order, order):
            way = self.random.random()
            if before is not None and way < 0.4:
                self.line(before, f"fork({after})")
            elif before is not None and way < 0.85:
                self.line(after, f"join({before})")
            for _ in range(self.random.randint(0, 2)):
                thread_names, self.threads = self.threads, [after]
                self.block()
                self.threads = thread_names

    def make(self):
        style = self.random.random()
        if style < 0.2:
            self.phases()
        elif style < 0.4:
            self.relay()
        while len(self.made) < self.size:
            if style < 0.75 and self.random.random() < (0.9 if self.pieces else 0.7):
                self.block()
            else:
                self.single()
        return self.made


def joined(random_, made):
    """The lines as text: LF, CR LF or a mixture, with or without the last line end."""
    style = random_.random()
    pieces = []
    for line in made:
        end = b"\n" if style < 0.6 else b"\r\n" if style < 0.8 else random_.choice([b"\n", b"\r\n", b"\n\n", b"\r\r\n"])
        pieces += line.encode(), end
    text = b"".join(pieces)
    if random_.random() < 0.25:
        text = text.rstrip(b"\n")
    return text


def damaged(random_, text):
    """Bytes changed, left out or put in; lines cut, doubled or moved."""
    odd = [b"|", b"(", b")", b"\r", b"\n", b"\x00", b"\xff", b" ", b"a", b"T0", b"acq(", b"fork(T0)", b"||", b"\r\n"]
    odd += [b"|r", b"|try", b"rrel(", b"tryracq("]
    words = [b"acq", b"racq", b"tryacq", b"tryracq", b"rel", b"rrel", b"fork", b"join"]
    for _ in range(random_.choice([1, 1, 1, 2, 3, 8])):
        at = random_.randint(0, len(text))
        kind = random_.random()
        if kind < 0.3:
            text = text[:at] + random_.choice(odd) + text[at + 1 :]
        elif kind < 0.55:
            text = text[:at] + random_.choice(odd) + text[at:]
        elif kind < 0.65:
            text = text[:at] + text[at + random_.randint(1, 3) :]
        elif kind < 0.75:
            parts = text.split(b"|")
            places = [i for i, part in enumerate(parts) if part.split(b"(")[0] in words]
            if places:
                i = random_.choice(places)
                parts[i] = random_.choice(words) + parts[i][len(parts[i].split(b"(")[0]) :]
            text = b"|".join(parts)
        elif kind < 0.8:
            text = text[:at]
        elif kind < 0.9:
            parts = text.split(b"\n")
            i = random_.randrange(len(parts))
            parts.insert(random_.randint(0, len(parts)), parts[i])
            text = b"\n".join(parts)
        else:
            text = text[:at] + bytes(random_.randrange(256) for _ in range(random_.randint(1, 4))) + text[at:]
    return text


def huge(random_, made):
    """One line of about the greatest length, somewhere among the others."""
    size = 65_536 + random_.choice([-2, -1, 0, 0, 0, 1, 1, 2, 300])
    shapes = ["T0|acq(a)|{}", "T0|acq({})|1", "{}|acq(a)|1", "T0|r({})|1", "{}", "T0|{}", "|{}|", "T0|rel({})|9"]
    shape = random_.choice(shapes + ["T0|racq({})|1", "T0|tryacq(a)|{}", "T0|tryracq({})|1", "T0|rrel({})|9"])
    fill = size - len(shape) + 2
    line = shape.format(random_.choice("xxx|(") * fill).encode()
    text = joined(random_, made)
    place = random_.choice([0, len(text), text.find(b"\n") + 1])
    end = random_.choice([b"\n", b"\r\n", b"\r", b""] if place == len(text) else [b"\n", b"\r\n"])
    return text[:place] + line + end + text[place:]


def asked(random_, command, has_stream=True):
    """The command's words, with options of its own."""
    word, *flags = command.split()
    options = []
    if word != "replay":
        options.append(["--mode", random_.choice(["basic", "guarded", "full"])])
        options.append(["--len", random_.choice([2, 3, 4, 5, 16])])
        options.append(["--max", random_.choice([1, 2, 3, 1000, 100_000])])
    options.append(["--jobs", random_.choice([0, 1, 2, 3, 64])])
    if word == "live":
        options.append(["--recorders", random_.choice([1, 2, 3, 16])])
        options.append(["--shards", random_.choice([1, 2, 3, 16])])
        options.append(["--ring", random_.choice([1, 2, 7, 256, 65_536])])
        if has_stream:
            options.append(["--threads", random_.choice([1, 2, 3, 5, 64, 1024])])
    chosen = [[flag] for flag in flags] + random_.sample(options, random_.randint(0, len(options)))
    random_.shuffle(chosen)
    return [word, *(str(part) for option in chosen for part in option)]


def case(seed, number, most_lines=34):
    random_ = random.Random(f"{seed}/{number}")
    kind = random_.random()
    if kind < 0.02:
        return huge(random_, Maker(random_, 10).make())
    text = joined(random_, Maker(random_, most_lines).make())
    return text if kind < 0.65 else damaged(random_, text)
