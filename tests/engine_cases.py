#!/usr/bin/env python3
"""Writes crates/calls/{data,args,stdout}: scripts of calls of the step engine and what it must answer.

Each call's answer, and the words that it leaves, are written here by hand from document 01 ("Refusals, in checking order",
"Configurations and steps"): the threads after the call, and the marker entries it appended. Only the two check numbers at the end of a line are
computed, from lists that are kept here: the words written go to the front, the others stay. Where it matters, `lists` names every word
again. Run it at the top of the repository after a change; the gate compares what the program prints.
"""
import os
import shutil
import struct

from array_cases import A, B, C, CASES as ARRAY_CASES, CHOICE, IN, NEW, OUT, PAR, RESOURCE, STOP, pis, rec
from table_cases import TWO

HUGE = 2**32 - 1  # stands for the largest position or count
LEFT = bytes(128)
OPS = {"start": 0, "step": 1, "walk": 2, "stride": 3, "counts": 4, "word": 5, "number": 6, "lists": 7}


def o(new, marker=0):
    """The word of a free name: the new that opened its channel, and that opening's marker number."""
    return 1 + 65536 * new + marker


# Commands. `threads` are those after the call, each a list of words; `notes` are the marker entries that the call appended; `via` are the
# configurations that a walk's earlier steps left, where they are longer than the last one.
def start(answer, *threads):
    return ("start", (), answer, threads)


def step(receiver, sender, answer, *threads, notes=()):
    return ("step", (receiver, sender), answer, threads, notes)


def walk(allowed, answer, *threads, notes=(), via=()):
    return ("walk", (allowed,), answer, threads, notes, via)


def stride(allowed, left, answer, *threads, notes=()):
    return ("stride", (allowed, left), answer, threads, notes)


def counts(threads, markers):
    return ("counts", (threads, markers))


def word(index, value):
    return ("word", (index, value))


def number(index, value):
    return ("number", (index, value))


def lists(text):
    return ("lists", (), text)


def bad(*words):
    """Words at which the script is bad. Nothing after them is followed."""
    return ("bad", words)


def refused(text):
    """Step, walk and stride of the first two threads, all refused alike."""
    return [step(1, 0, text), walk(5, text), stride(5, 5, text)]


def check_number(words):
    h = 7
    for x in words:
        h = (h * 31 + x) % 2**32
    return h


class Script:
    """A script's bytes and its lines. `words` and `numbers` are the lists; a length stands for that many sevens or nines."""

    def __init__(self, name, array, commands, choices=LEFT, words=0, numbers=0, counts=(0, 0), cut=None):
        self.name = name + ".rpl"
        self.words = [7] * words if isinstance(words, int) else list(words)
        self.numbers = [9] * numbers if isinstance(numbers, int) else list(numbers)
        self.counts = counts
        self.lines, self.calls = [], 0
        self.data = self.head(array, choices)
        for command in commands:
            self.add(*command)
        if cut is not None:
            self.data, self.lines = self.data[:cut], [f"{self.name} bad script"]

    def head(self, array, choices):
        data = b""
        for content in (array, choices):
            data += struct.pack("<I", len(content)) + content + bytes(-len(content) % 4)
        data += struct.pack(f"<I{len(self.words)}I", len(self.words), *self.words)
        numbers = struct.pack(f"<I{len(self.numbers)}H", len(self.numbers), *self.numbers)
        return data + numbers + bytes(-len(numbers) % 4) + struct.pack("<II", *self.counts)

    def add(self, op, operands, answer=None, threads=(), notes=(), via=()):
        head = () if op == "bad" else (OPS[op],)
        self.data += struct.pack(f"<{len(head + operands)}I", *head, *operands)
        if op == "counts":
            self.counts = operands
        elif op == "word":
            self.words[operands[0]] = operands[1]
        elif op == "number":
            self.numbers[operands[0]] = operands[1]
        elif op == "lists":
            text = " ".join(["lists", *map(str, self.words), "|", *map(str, self.numbers)])
            assert text == "lists " + answer, (self.name, answer, text)
            self.lines.append(f"{self.name} {text}")
        elif op == "bad":
            self.lines.append(f"{self.name} bad script")
        else:
            self.call(op, answer, threads, notes, via)

    def call(self, op, answer, threads, notes, via):
        self.calls += 1
        kind, *figures = answer.split()
        if kind in ("refused", "quiet", "spent", "full"):
            assert not threads and not notes, (self.name, answer)
        else:
            # The answer's counts are those of the threads and entries written beside it.
            markers = 0 if op == "start" else self.counts[1] + len(notes)
            counts = {"start": [figures[0], 0], "stride": figures[3:5]}.get(op, figures[-2:])
            after = tuple(map(int, counts))
            assert after[0] == len(threads) or not threads and after[0] in (0, self.counts[0]), (self.name, answer)
            assert after[1] == markers, (self.name, answer)
            for configuration in (*via, threads):
                used = sum(configuration, [])
                self.words[:len(used)] = used
            entries = sum(map(list, notes), [])
            self.numbers[4 * self.counts[1]:4 * self.counts[1] + len(entries)] = entries
            self.counts = after
        checks = f"{check_number(self.words)} {check_number(self.numbers)}"
        self.lines.append(f"{self.name} {op} {answer} {checks}")


a, b, c = pis(A, 3), pis(B, 1), pis(C, 1)
damaged = {name: content for name, content, _ in ARRAY_CASES}

# Threads of A: its out, its in, and the out that the in leaves behind.
A3, A5, A6 = [3, 0, o(0), o(1), 0], [5, 0, o(0), 0, 0], [6, 0, 0, 0, o(1)]
# Threads of B: its out, its resource, and the out behind the resource under a marker.
B2, B4 = [2, 0, o(0)], [4, 0, o(0)]


def B5(marker):
    return [5, marker, o(0)]


# Entries of B: the resource fed by the first out, then by the out under marker i.
FED = (4, 2, 0, 0)


def fed(marker):
    return (4, 5, 0, marker)


# Like B, but each feed of the resource leaves two outs.
TWICE = [rec(NEW, 1, name=0), rec(PAR, 2, 4), rec(OUT, 3, name=0), rec(STOP), rec(RESOURCE, 5, name=0), rec(PAR, 6, 8),
         rec(OUT, 7, name=0), rec(STOP), rec(OUT, 9, name=0), rec(STOP)]
twice = pis(TWICE, 1)

# A sender of arity 1 and a receiver of arity 0, on one channel and on two.
ARITY = [rec(NEW, 1, name=0), rec(PAR, 2, 4), rec(OUT, 3, name=0, args=[0]), rec(STOP), rec(IN, 5, name=0), rec(STOP)]
BOTH = [rec(NEW, 1, name=0), rec(NEW, 2, name=1), rec(PAR, 3, 5), rec(OUT, 4, name=0, args=[0]), rec(STOP), rec(IN, 6, name=1), rec(STOP)]
# A sender and a receiver of one arity on two channels.
APART = [rec(NEW, 1, name=0), rec(NEW, 2, name=1), rec(PAR, 3, 5), rec(OUT, 4, name=0), rec(STOP), rec(IN, 6, name=1), rec(STOP)]

# A resource that opens a channel at each feed and leaves a sender and a receiver on it; it is fed twice.
OPENS = [rec(NEW, 1, name=0), rec(PAR, 2, 5), rec(OUT, 3, name=0), rec(OUT, 4, name=0), rec(STOP), rec(RESOURCE, 6, name=0),
         rec(NEW, 7, name=1), rec(PAR, 8, 10), rec(OUT, 9, name=1), rec(STOP), rec(IN, 11, name=1), rec(STOP)]
opens = pis(OPENS, 2)
P2, P3, P5 = [2, 0, o(0), 0], [3, 0, o(0), 0], [5, 0, o(0), 0]


def P8(marker):
    return [8, marker, 0, o(1, marker)]


def P10(marker):
    return [10, marker, 0, o(1, marker)]


# A receiver whose continuation is par of stop and choice node 9; the choice's sides use two channels, both free in the receiver.
LATER = [rec(NEW, 1, name=0), rec(NEW, 2, name=1), rec(NEW, 3, name=2), rec(PAR, 4, 6), rec(OUT, 5, name=0), rec(STOP), rec(IN, 7, name=0),
         rec(PAR, 8, 9), rec(STOP), rec(CHOICE, 10, 12), rec(OUT, 11, name=1), rec(STOP), rec(OUT, 13, name=2), rec(STOP)]
L4, L6, L10, L12 = [4, 0, o(0), 0, 0], [6, 0, o(0), o(1), o(2)], [10, 0, 0, o(1), 0], [12, 0, 0, 0, o(2)]

# A sender and a receiver that each leave two threads.
SPLIT = [rec(NEW, 1, name=0), rec(PAR, 2, 8), rec(OUT, 3, name=0), rec(PAR, 4, 6), rec(OUT, 5, name=0), rec(STOP), rec(OUT, 7, name=0),
         rec(STOP), rec(IN, 9, name=0), rec(PAR, 10, 12), rec(IN, 11, name=0), rec(STOP), rec(OUT, 13, name=0), rec(STOP)]

# In, out, out, in on two channels: pairs that stand apart, receiver before sender and after.
CROSS = [rec(NEW, 1, name=0), rec(NEW, 2, name=1), rec(PAR, 3, 4), rec(PAR, 5, 7), rec(PAR, 9, 11), rec(IN, 6, name=0), rec(STOP),
         rec(OUT, 8, name=1), rec(STOP), rec(OUT, 10, name=0), rec(STOP), rec(IN, 12, name=1), rec(STOP)]
X5, X7, X9, X11 = [5, 0, o(0), 0], [7, 0, 0, o(1)], [9, 0, o(0), 0], [11, 0, 0, o(1)]

# Eight names handed over; the sender's continuation opens a channel of its own.
EIGHT = [rec(NEW, 1, name=0), rec(NEW, 2, name=1), rec(PAR, 3, 4), rec(OUT, 5, name=0, args=[0, 1, 0, 1, 0, 0, 1, 1]),
         rec(IN, 8, name=0, args=range(2, 10)), rec(NEW, 6, name=10), rec(OUT, 7, name=10, args=[10, 1]), rec(STOP),
         rec(OUT, 9, name=9, args=[2, 3, 4, 5, 6, 7, 8, 8]), rec(STOP)]

# A sender whose continuation opens a channel, and a resource that leaves nothing.
SENDER = [rec(NEW, 1, name=0), rec(PAR, 2, 6), rec(OUT, 3, name=0), rec(NEW, 4, name=1), rec(OUT, 5, name=1, args=[0]), rec(STOP),
          rec(RESOURCE, 7, name=0), rec(STOP)]

# A resource that leaves an in; the in's continuation opens a channel. Two outs feed them, one behind the other.
INNER = [rec(NEW, 1, name=0), rec(PAR, 2, 3), rec(OUT, 4, name=0), rec(RESOURCE, 5, name=0), rec(OUT, 6, name=0), rec(IN, 7, name=0), rec(STOP),
         rec(NEW, 8, name=1), rec(OUT, 9, name=1), rec(STOP)]
inner = pis(INNER, 2)
N2, N3, N4 = [2, 0, o(0), 0], [3, 0, o(0), 0], [4, 0, o(0), 0]


def N5(marker):
    return [5, marker, o(0), 0]


def N8(marker):
    return [8, marker, 0, o(1, marker)]


# No names: par, choice and stop.
NAMELESS = [rec(PAR, 1, 2), rec(CHOICE, 3, 4), rec(STOP), rec(STOP), rec(PAR, 5, 6), rec(STOP), rec(STOP)]


def fan(agents, news=1):
    """So many news in a row, then a chain of pars with the agents: agent k is the pair (kind, channel), its continuation a stop."""
    nodes = [rec(NEW, k + 1, name=k) for k in range(news)]
    for k in range(len(agents) - 1):
        nodes.append(rec(PAR, news + len(agents) - 1 + k, len(nodes) + 1 if k < len(agents) - 2 else news + 2 * len(agents) - 2))
    first = len(nodes)
    for k, (kind, channel) in enumerate(agents):
        nodes.append(rec(kind, first + len(agents) + k, name=channel))
    return nodes + [rec(STOP)] * len(agents)


# 1,024 nodes; the only choice is node 1,019: byte 127, weight 8.
DEEP = [rec(NEW, 1, name=0)] + [node for k in range(1, 1019, 2) for node in (rec(PAR, k + 1, k + 2), rec(STOP))]
DEEP += [rec(CHOICE, 1020, 1022), rec(OUT, 1021, name=0), rec(STOP), rec(IN, 1023, name=0), rec(STOP)]

# 256 names, 256 agents: out and in in turn, two to each odd channel. 1,023 nodes; agent k is node 511 + k.
MANY = fan([(OUT if k % 2 == 0 else IN, k // 2 * 2 + 1) for k in range(256)], 256)
many = pis(MANY, 256)


def many_threads(agents):
    return [[511 + k, 0] + [o(v) if v == k // 2 * 2 + 1 else 0 for v in range(256)] for k in agents]


# One name, 256 and 257 senders: nodes 256 + k and 257 + k.
crowd = pis(fan([(OUT, 0)] * 256), 1)
crowded = pis(fan([(OUT, 0)] * 257), 1)

# Well-formed marker entries of B, no two equal: entry i - 1 is (4, 2, i - 1, 0).
chain = [x for i in range(1, 4098) for x in (4, 2, i - 1, 0)]


def ill(index, value, right):
    """With one word of the thread list changed every call is refused by 23; then the word is put back."""
    return [word(index, value), *refused("refused 23 0"), word(index, right)]


def ill_entry(index, value, right):
    return [number(index, value), *refused("refused 23 0"), number(index, right)]


SCRIPTS = [
    # start
    Script("A-start", a, [start("started 2", A3, A5), lists("3 0 1 65537 0 5 0 1 0 0 7 7 | 9")], words=12, numbers=1),
    Script("B-start", b, [start("started 2", B2, B4), lists("2 0 1 4 0 1 |")], words=6),
    Script("B-start-room-for-one", b, [start("refused 28 0"), lists("7 7 7 7 7 |")], words=5),
    Script("B-start-no-room", b, [start("refused 28 0"), lists("|")]),
    Script("C-left", c, [start("started 1", [2, 0, o(0)])], words=3),
    Script("C-right", c, [start("started 1", [4, 0, o(0)])], words=3, choices=b"\x02" + bytes(127)),
    # bits of nodes that are no choice, and of numbers past M, are ignored
    Script("C-left-other-bits", c, [start("started 1", [2, 0, o(0)])], words=4, choices=b"\xfd" + b"\xff" * 127),
    Script("C-right-all-bits", c, [start("started 1", [4, 0, o(0)]), lists("4 0 1 7 |")], words=4, choices=b"\xff" * 128),
    # a start asks nothing of counts and lists, and sets the counts
    Script("start-anew", b, [counts(HUGE, HUGE), start("started 2", B2, B4), step(1, 0, "stepped 2 1", B4, B5(1), notes=[FED]),
                             start("started 2", B2, B4), lists("2 0 1 4 0 1 7 | 4 2 0 0"), walk(0, "walked spent 0 2 0")], words=7, numbers=4),
    # the handover of A; the words past the shorter list stay, and the empty marker list is enough for an in
    Script("A-step", a, [start("started 2", A3, A5), step(1, 0, "stepped 1 0", A6), lists("6 0 0 0 65537 5 0 1 0 0 7 |"),
                         step(0, 0, "refused 25 0"), walk(9, "walked quiet 0 1 0")], words=11),
    Script("A-walk", a, [start("started 2", A3, A5), walk(1, "walked quiet 1 1 0", A6), lists("6 0 0 0 65537 5 0 1 0 0 |")], words=10),
    Script("A-walk-longest", a, [start("started 2", A3, A5), walk(HUGE, "walked quiet 1 1 0", A6)], words=10),
    # quiet comes before spent, spent before any step
    Script("A-quiet-first", a, [start("started 2", A3, A5), walk(0, "walked spent 0 2 0"), walk(1, "walked quiet 1 1 0", A6),
                                walk(0, "walked quiet 0 1 0")], words=10),
    Script("A-strides", a, [start("started 2", A3, A5), stride(100, 100, "made 5 3 0 1 0 100 99", A6), stride(100, 99, "quiet 1")], words=10),
    # B: two steps, as 01 gives them
    Script("B-two-steps", b, [start("started 2", B2, B4), step(1, 0, "stepped 2 1", B4, B5(1), notes=[FED]),
                              step(0, 1, "stepped 2 2", B4, B5(2), notes=[fed(1)]), lists("4 0 1 5 2 1 7 | 4 2 0 0 4 5 0 1 9")],
           words=7, numbers=9),
    Script("B-walk-2", b, [start("started 2", B2, B4), walk(2, "walked spent 2 2 2", B4, B5(2), notes=[FED, fed(1)]),
                           lists("4 0 1 5 2 1 | 4 2 0 0 4 5 0 1")], words=6, numbers=8),
    Script("B-walk-0", b, [start("started 2", B2, B4), walk(0, "walked spent 0 2 0"), lists("2 0 1 4 0 1 | 9 9 9 9")], words=6, numbers=4),
    Script("B-walk-3", b, [start("started 2", B2, B4), walk(3, "walked spent 3 2 3", B4, B5(3), notes=[FED, fed(1), fed(2)])],
           words=6, numbers=12),
    # 29 ends a walk as full, and only where a step is still allowed
    Script("B-walk-3-room-for-2", b, [start("started 2", B2, B4), walk(3, "walked full 2 2 2", B4, B5(2), notes=[FED, fed(1)]),
                                      walk(0, "walked spent 0 2 2"), walk(1, "walked full 0 2 2"), stride(7, 3, "full 4"), step(0, 1, "refused 29 0"),
                                      lists("4 0 1 5 2 1 | 4 2 0 0 4 5 0 1")], words=6, numbers=8),
    Script("B-walk-100", b, [start("started 2", B2, B4),
                             walk(100, "walked full 5 2 5", B4, B5(5), notes=[FED, fed(1), fed(2), fed(3), fed(4)])], words=6, numbers=21),
    Script("B-walk-100-enough", b, [start("started 2", B2, B4),
                                    walk(100, "walked spent 100 2 100", B4, B5(100), notes=[FED, *(fed(i) for i in range(1, 100))])],
           words=6, numbers=400),
    Script("B-walk-2-room-for-1", b, [start("started 2", B2, B4), walk(2, "walked full 1 2 1", B4, B5(1), notes=[FED])], words=6, numbers=7),
    Script("B-walk-no-markers", b, [start("started 2", B2, B4), walk(100, "walked full 0 2 0"), walk(0, "walked spent 0 2 0"),
                                    step(1, 0, "refused 29 0"), stride(1, 1, "full 0"), lists("2 0 1 4 0 1 | 9 9 9")], words=6, numbers=3),
    Script("B-strides", b, [start("started 2", B2, B4), stride(3, 3, "made 4 2 1 2 1 3 2", B4, B5(1), notes=[FED]),
                            stride(3, 2, "made 4 5 2 2 2 3 1", B4, B5(2), notes=[fed(1)]), stride(3, 1, "full 2"), stride(3, 0, "spent 3"),
                            stride(0, 0, "spent 0"), stride(0, HUGE, "full 0"), stride(HUGE, 0, f"spent {HUGE}"),
                            lists("4 0 1 5 2 1 | 4 2 0 0 4 5 0 1")], words=6, numbers=8),
    # a marker that is listed is used, also where the list is full; a third one does not fit
    Script("listed-marker", b, [step(2, 0, "stepped 3 1", B2, B4, B5(1), notes=[FED]), step(1, 0, "stepped 3 1", B4, B5(1), B5(1)),
                                lists("4 0 1 5 1 1 5 1 1 | 4 2 0 0"), step(0, 1, "refused 29 0"), walk(3, "walked full 0 3 1")],
           words=B2 + B2 + B4, numbers=4, counts=(3, 0)),
    Script("listed-marker-stride", b, [stride(9, 9, "made 4 2 1 3 1 9 8", B2, B4, B5(1), notes=[FED]),
                                       stride(9, 8, "made 4 2 1 3 1 9 7", B4, B5(1), B5(1)),
                                       stride(9, 7, "made 4 5 2 3 2 9 6", B4, B5(1), B5(2), notes=[fed(1)]),
                                       stride(9, 6, "made 4 5 2 3 2 9 5", B4, B5(2), B5(2))], words=B2 + B2 + B4, numbers=8, counts=(3, 0)),
    Script("listed-marker-walk", b, [walk(2, "walked spent 2 3 1", B4, B5(1), B5(1), notes=[FED])], words=B2 + B2 + B4, numbers=4, counts=(3, 0)),
    # 28: more threads than fit; it comes before 29 and leaves every word
    Script("28-by-step", twice, [start("started 2", B2, B4), step(1, 0, "stepped 3 1", B4, [6, 1, o(0)], [8, 1, o(0)], notes=[FED]),
                                 step(0, 1, "refused 28 0"), step(0, 2, "refused 28 0"), walk(1, "walked full 0 3 1"),
                                 walk(0, "walked spent 0 3 1"), stride(HUGE, HUGE, "full 0"), lists("4 0 1 6 1 1 8 1 1 7 7 | 4 2 0 0 9 9 9 9")],
           words=11, numbers=8),
    Script("28-before-29", twice, [start("started 2", B2, B4), step(1, 0, "stepped 3 1", B4, [6, 1, o(0)], [8, 1, o(0)], notes=[FED]),
                                   step(0, 1, "refused 28 0"), lists("4 0 1 6 1 1 8 1 1 | 4 2 0 0")], words=9, numbers=4),
    Script("29-with-room-for-threads", twice, [start("started 2", B2, B4), step(1, 0, "refused 29 0"), lists("2 0 1 4 0 1 7 7 7 |")], words=9),
    Script("28-by-walk", twice, [start("started 2", B2, B4), walk(100, "walked full 1 3 1", B4, [6, 1, o(0)], [8, 1, o(0)], notes=[FED])],
           words=9, numbers=40),
    Script("28-spent-first", twice, [start("started 2", B2, B4), walk(1, "walked spent 1 3 1", B4, [6, 1, o(0)], [8, 1, o(0)], notes=[FED])],
           words=9, numbers=40),
    Script("27-before-28", twice, [start("started 2", B2, B4), step(1, 0, "stepped 3 1", B4, [6, 1, o(0)], [8, 1, o(0)], notes=[FED]),
                                   word(2, o(0, 1)), step(0, 1, "refused 27 0"), walk(1, "walked quiet 0 3 1"), word(2, o(0)),
                                   step(0, 1, "refused 28 0")], words=9, numbers=4),
    # both continuations count, and both partners are gone
    Script("28-by-both", pis(SPLIT, 1), [start("started 2", [2, 0, o(0)], [8, 0, o(0)]), step(1, 0, "refused 28 0"), walk(1, "walked full 0 2 0")], words=11),
    Script("four-in-room-for-four", pis(SPLIT, 1), [start("started 2", [2, 0, o(0)], [8, 0, o(0)]),
                                                    step(1, 0, "stepped 4 0", [10, 0, o(0)], [12, 0, o(0)], [4, 0, o(0)], [6, 0, o(0)]),
                                                    stride(1, 1, "made 10 12 0 2 0 1 0", [4, 0, o(0)], [6, 0, o(0)]),
                                                    lists("4 0 1 6 0 1 4 0 1 6 0 1 |")], words=12),
    # a walk is full at its first ready pair, even where a later pair's step would fit
    Script("full-at-first-pair", opens, [start("started 2", P2, P5), step(1, 0, "stepped 4 1", P5, P8(1), P10(1), P3, notes=[(5, 2, 0, 0)]),
                                         walk(9, "walked full 0 4 1"), stride(2, 1, "full 1"), step(0, 3, "refused 29 0"), step(2, 1, "stepped 2 1", P5, P3),
                                         lists("5 0 1 0 3 0 1 0 10 1 0 65538 3 0 1 0 7 7 7 7 | 5 2 0 0")], words=20, numbers=4),
    # 24: at the count, past it, huge; before 25
    Script("24", b, [start("started 2", B2, B4), step(2, 0, "refused 24 0"), step(1, 2, "refused 24 0"), step(3, 0, "refused 24 0"),
                     step(1, 300, "refused 24 0"), step(HUGE, 0, "refused 24 0"), step(1, HUGE, "refused 24 0"), step(HUGE, HUGE, "refused 24 0"),
                     step(2**31, 2**31, "refused 24 0"), step(0, 2, "refused 24 0"), step(2, 1, "refused 24 0"),
                     step(1, 0, "stepped 2 1", B4, B5(1), notes=[FED])], words=30, numbers=4),
    Script("24-no-threads", b, [step(0, 0, "refused 24 0"), walk(7, "walked quiet 0 0 0"), stride(0, 0, "quiet 0")], words=9, numbers=4),
    # 25: each wrong kind; the same thread twice
    Script("25-same-thread", b, [start("started 2", B2, B4), step(0, 0, "refused 25 0"), step(1, 1, "refused 25 0")], words=6, numbers=4),
    Script("25-kinds", pis(TWO, 4), [start("started 4", [5, 0, o(0), o(1), 0, 0], [6, 0, o(0), o(1), 0, 0], [7, 0, o(0), 0, 0, 0], [8, 0, o(0), 0, 0, 0]),
                                     step(0, 1, "refused 25 0"), step(2, 3, "refused 25 0"), step(3, 2, "refused 25 0"), step(0, 2, "refused 25 0"),
                                     step(1, 3, "refused 25 0"), step(2, 2, "refused 25 0")], words=24, numbers=4),
    # 26, and 25 before 26 before 27
    Script("26", pis(ARITY, 1), [start("started 2", [2, 0, o(0)], [4, 0, o(0)]), step(1, 0, "refused 26 0"), step(0, 1, "refused 25 0"),
                                 walk(3, "walked quiet 0 2 0"), stride(3, 0, "quiet 3")], words=6),
    Script("26-before-27", pis(BOTH, 2), [start("started 2", [3, 0, o(0), 0], [5, 0, 0, o(1)]), step(1, 0, "refused 26 0"),
                                          step(0, 1, "refused 25 0")], words=8),
    # 27: another opening; the same opening under another marker
    Script("27-opening", pis(APART, 2), [start("started 2", [3, 0, o(0), 0], [5, 0, 0, o(1)]), step(1, 0, "refused 27 0"),
                                         walk(3, "walked quiet 0 2 0"), stride(3, 3, "quiet 0"), word(7, o(0)), step(1, 0, "stepped 0 0"),
                                         lists("3 0 1 0 5 0 0 1 |")], words=8),
    Script("27-marker", b, [step(1, 0, "refused 27 0"), walk(3, "walked quiet 0 2 1"), stride(300, 1, "quiet 299"), word(2, o(0, 1)),
                            step(1, 0, "stepped 2 1", [4, 0, o(0, 1)], [5, 1, o(0, 1)]), lists("4 0 2 5 1 2 | 4 2 0 0")],
           words=B2 + [4, 0, o(0, 1)], numbers=FED, counts=(2, 1)),
    # a thread's own marker is no part of its channel
    Script("threads-under-markers", b, [step(1, 0, "stepped 2 3", [4, 1, o(0)], [5, 3, o(0)], notes=[(4, 2, 1, 2)]),
                                        lists("4 1 1 5 3 1 | 4 2 0 0 4 5 0 1 4 2 1 2")],
           words=[2, 2, o(0), 4, 1, o(0)], numbers=list(FED + fed(1)) + [9] * 4, counts=(2, 2)),
    # a channel opened at each feed is another one: 27 between the two, steps within each
    Script("opened-twice", opens, [start("started 2", P2, P5), step(1, 0, "stepped 4 1", P5, P8(1), P10(1), P3, notes=[(5, 2, 0, 0)]),
                                   step(0, 3, "stepped 5 2", P5, P8(1), P10(1), P8(2), P10(2), notes=[(5, 3, 0, 0)]),
                                   lists("5 0 1 0 8 1 0 65538 10 1 0 65538 8 2 0 65539 10 2 0 65539 | 5 2 0 0 5 3 0 0"),
                                   step(2, 3, "refused 27 0"), step(4, 1, "refused 27 0"), step(0, 1, "refused 27 0"),
                                   step(4, 3, "stepped 3 2", P5, P8(1), P10(1)), step(2, 1, "stepped 1 2", P5), walk(9, "walked quiet 0 1 2"),
                                   lists("5 0 1 0 8 1 0 65538 10 1 0 65538 8 2 0 65539 10 2 0 65539 | 5 2 0 0 5 3 0 0")], words=20, numbers=8),
    Script("opened-twice-strides", opens, [start("started 2", P2, P5), stride(1000, 1000, "made 5 2 1 4 1 1000 999", P5, P8(1), P10(1), P3, notes=[(5, 2, 0, 0)]),
                                           stride(1000, 999, "made 5 3 2 5 2 1000 998", P5, P8(1), P10(1), P8(2), P10(2), notes=[(5, 3, 0, 0)]),
                                           stride(1000, 998, "made 10 8 1 3 2 1000 997", P5, P8(2), P10(2)),
                                           stride(1000, 997, "made 10 8 2 1 2 1000 996", P5), stride(1000, 996, "quiet 4")],
           words=20, numbers=8),
    Script("opened-twice-walk", opens, [start("started 2", P2, P5), walk(2, "walked spent 2 5 2", P5, P8(1), P10(1), P8(2), P10(2),
                                                                      notes=[(5, 2, 0, 0), (5, 3, 0, 0)]),
                                        walk(100, "walked quiet 2 1 2", P5, via=[[P5, P8(2), P10(2)]]),
                                        lists("5 0 1 0 8 2 0 65539 10 2 0 65539 8 2 0 65539 10 2 0 65539 7 7 | 5 2 0 0 5 3 0 0")], words=22, numbers=8),
    # lowest receiver first, then lowest sender; old threads keep their order
    Script("first-pair", pis(TWO, 4), [start("started 4", [5, 0, o(0), o(1), 0, 0], [6, 0, o(0), o(1), 0, 0], [7, 0, o(0), 0, 0, 0], [8, 0, o(0), 0, 0, 0]),
                                       stride(2, 2, "made 7 5 0 2 0 2 1", [6, 0, o(0), o(1), 0, 0], [8, 0, o(0), 0, 0, 0]),
                                       stride(2, 1, "made 8 6 1 1 1 2 0", [8, 0, o(0), 0, 0, 0], notes=[(8, 6, 0, 0)]), stride(2, 0, "quiet 2")], words=24, numbers=4),
    Script("pairs-apart", pis(CROSS, 2), [start("started 4", X5, X7, X9, X11), step(0, 2, "stepped 2 0", X7, X11),
                                          lists("7 0 0 65537 11 0 0 65537 9 0 1 0 11 0 0 65537 7 |"), step(1, 0, "stepped 0 0"),
                                          lists("7 0 0 65537 11 0 0 65537 9 0 1 0 11 0 0 65537 7 |")], words=17),
    Script("pairs-apart-back", pis(CROSS, 2), [start("started 4", X5, X7, X9, X11), step(3, 1, "stepped 2 0", X5, X9),
                                               lists("5 0 1 0 9 0 1 0 9 0 1 0 11 0 0 65537 |"), step(0, 1, "stepped 0 0"), walk(1, "walked quiet 0 0 0"),
                                               start("started 4", X5, X7, X9, X11)], words=16),
    # choices in a continuation, under the step's own bytes: node 9 is byte 1, weight 2
    Script("choice-in-step-left", pis(LATER, 3), [start("started 2", L4, L6), step(1, 0, "stepped 1 0", L10)],
           words=10, choices=b"\xff\xfd" + b"\xff" * 126),
    Script("choice-in-step-right", pis(LATER, 3), [start("started 2", L4, L6), step(1, 0, "stepped 1 0", L12),
                                                   lists("12 0 0 0 131073 6 0 1 65537 131073 |")], words=10, choices=b"\x00\x02" + bytes(126)),
    Script("last-choice-byte-left", pis(DEEP, 1), [start("started 1", [1020, 0, o(0)])], words=3, choices=b"\xff" * 127 + b"\xf7"),
    Script("last-choice-byte-right", pis(DEEP, 1), [start("started 1", [1022, 0, o(0)])], words=3, choices=bytes(127) + b"\x08"),
    # eight names handed over; the receiver's thread before the sender's, whose channel opens under its own marker
    Script("eight-names", pis(EIGHT, 11), [start("started 2", [3, 0, o(0), o(1)] + [0] * 9, [4, 0, o(0)] + [0] * 10),
                                           step(1, 0, "stepped 2 0", [8, 0, 0, 0, o(0), o(1), o(0), o(1), o(0), o(0), o(1), o(1), 0],
                                                [6, 0, 0, o(1)] + [0] * 8 + [o(10)]), walk(3, "walked quiet 0 2 0"),
                                           lists("8 0 0 0 1 65537 1 65537 1 1 65537 65537 0 6 0 0 65537 0 0 0 0 0 0 0 0 655361 |")], words=26),
    Script("sender-opens-under-its-marker", pis(SENDER, 2), [step(1, 0, "stepped 2 2", [6, 0, o(0), 0], [4, 1, o(0), o(1, 1)], notes=[(6, 2, 0, 1)]),
                                                             lists("6 0 1 0 4 1 1 65538 | 6 2 0 0 6 2 0 1")],
           words=[2, 1, o(0), 0, 6, 0, o(0), 0], numbers=[6, 2, 0, 0, 9, 9, 9, 9], counts=(2, 1)),
    # an in's continuation runs under the in's own marker, whatever its sender's, and what it opens is opened under that marker
    Script("in-under-its-marker", inner, [start("started 2", N2, N3), step(1, 0, "stepped 3 1", N3, N5(1), N4, notes=[(3, 2, 0, 0)]),
                                          step(1, 2, "stepped 2 1", N3, N8(1)), lists("3 0 1 0 8 1 0 65538 4 0 1 0 | 3 2 0 0")],
           words=12, numbers=4),
    Script("in-under-no-marker", inner, [step(0, 1, "stepped 1 1", N8(0)), lists("8 0 0 65537 4 1 1 0 | 3 2 0 0")],
           words=N5(0) + [4, 1, o(0), 0], numbers=[3, 2, 0, 0], counts=(2, 1)),
    # the marker told is that of the receiver's continuation: the in's own, 1 and 0, where the sender's is 0 and 1
    Script("told-marker-of-in", inner, [stride(2, 2, "made 5 4 1 2 1 2 1", N3, N8(1)), lists("3 0 1 0 8 1 0 65538 3 0 1 0 | 3 2 0 0")],
           words=N5(1) + N4 + N3, numbers=[3, 2, 0, 0], counts=(3, 1)),
    Script("told-no-marker-of-in", inner, [stride(2, 1, "made 5 4 0 1 1 2 0", N8(0)), lists("8 0 0 65537 4 1 1 0 | 3 2 0 0")],
           words=N5(0) + [4, 1, o(0), 0], numbers=[3, 2, 0, 0], counts=(2, 1)),
    # no names: two words for a thread, and no thread to be had
    Script("one-stop", pis([rec(STOP)], 0), [start("started 0"), step(0, 0, "refused 24 0"), walk(5, "walked quiet 0 0 0"), stride(5, 7, "quiet 0"),
                                             counts(1, 0), *refused("refused 23 0"), lists("7 7 7 | 9 9 9 9")], words=3, numbers=4),
    Script("one-stop-no-lists", pis([rec(STOP)], 0), [start("started 0"), step(0, 0, "refused 24 0"), walk(0, "walked quiet 0 0 0")]),
    Script("nameless", pis(NAMELESS, 0), [start("started 0"), walk(1, "walked quiet 0 0 0"), lists("7 7 |")], words=2, choices=b"\xff" * 128),
    # 256 names and 256 threads: the list just full, and one word too short
    Script("many", many, [start("started 256", *many_threads(range(256))), step(0, 1, "refused 25 0"), step(3, 0, "refused 27 0"),
                          step(1, 256, "refused 24 0"), step(255, 254, "stepped 254 0", *many_threads(range(254))),
                          walk(2, "walked spent 2 250 0", *many_threads(range(4, 254)), via=[many_threads(range(2, 254))]),
                          stride(5, 9, "made 516 515 0 248 0 5 8", *many_threads(range(6, 254))),
                          walk(1000, "walked quiet 124 0 0", via=[many_threads(range(k, 254)) for k in range(8, 254, 2)])], words=66048),
    Script("many-word-short", many, [start("refused 28 0")], words=66047),
    # at most 256 threads fit, whatever the list's length
    Script("crowd", crowd, [start("started 256", *([256 + k, 0, o(0)] for k in range(256)))], words=768),
    Script("crowded", crowded, [start("refused 28 0"), counts(257, 0), *refused("refused 23 0"), counts(256, 0), walk(1, "walked quiet 0 256 0")],
           words=sum(([257 + k, 0, o(0)] for k in range(257)), []) + [7] * 29),
    Script("256-threads", b, [step(0, 1, "stepped 256 1", B4, *[B2] * 254, B5(1), notes=[FED]),
                              step(0, 255, "stepped 256 2", B4, *[B2] * 254, B5(2), notes=[fed(1)]), counts(257, 2), *refused("refused 23 0")],
           words=B4 + B2 * 256, numbers=8, counts=(256, 0)),
    Script("257-threads-after", twice, [step(0, 1, "refused 28 0"), walk(1, "walked full 0 256 0"), stride(65536, 1, "full 65535"), counts(255, 0),
                                        step(0, 1, "stepped 256 1", B4, *[B2] * 253, [6, 1, o(0)], [8, 1, o(0)], notes=[FED])],
           words=B4 + B2 * 256, numbers=8, counts=(256, 0)),
    # at most 4,096 markers fit
    Script("4096-markers", b, [counts(2, 4097), *refused("refused 23 0"), counts(2, 4096), word(2, o(0, 4096)), step(1, 0, "refused 27 0"), word(1, 4096),
                               walk(1, "walked quiet 0 2 4096"), word(1, 0), word(2, o(0)), step(1, 0, "stepped 2 4096", B4, B5(1)),
                               step(0, 1, "refused 29 0"), walk(4, "walked full 0 2 4096"), stride(4, 4, "full 0"), counts(2, 4095),
                               stride(70000, 66000, "made 4 5 4096 2 4096 70000 65999", B4, B5(4096), notes=[fed(1)]), step(0, 1, "refused 29 0"), counts(2, 4095),
                               *refused("refused 23 0")], words=B2 + B4, numbers=chain, counts=(2, 4096)),
    # counts that don't fit the lists
    Script("counts", b, [counts(3, 0), *refused("refused 23 0"), counts(2, 2), *refused("refused 23 0"), counts(HUGE, 0), *refused("refused 23 0"),
                         counts(2, HUGE), *refused("refused 23 0"), counts(HUGE, HUGE), *refused("refused 23 0"),
                         counts(2**31, 2**30), *refused("refused 23 0"), counts(2, 1), walk(0, "walked spent 0 2 1")],
           words=B2 + B4 + [2, 0], numbers=list(FED + (9, 9, 9))),
    # what stands past the counts is not looked at
    Script("past-the-counts", b, [counts(1, 0), walk(3, "walked quiet 0 1 0"), step(0, 0, "refused 25 0"), counts(2, 1), *refused("refused 23 0")],
           words=B4 + [9, 9, 9], numbers=[9, 9, 9, 9]),
    # 23, word by word
    Script("23-node", b, [*ill(0, 7, 2), *ill(0, 8, 2), *ill(0, 65538, 2), *ill(0, HUGE, 2), *ill(3, 0, 4), *ill(3, 1, 4), *ill(3, 3, 4), *ill(3, 6, 4),
                          *ill(3, 1028, 4), walk(0, "walked spent 0 2 0")], words=B2 + B4, numbers=4, counts=(2, 0)),
    Script("23-choice-node", c, [*ill(0, 1, 2), walk(0, "walked quiet 0 1 0")], words=[2, 0, o(0)], counts=(1, 0)),
    Script("23-marker", b, [*ill(1, 1, 0), *ill(4, 1, 0), *ill(1, 65536, 0), *ill(1, HUGE, 0), counts(2, 1), word(1, 1), walk(0, "walked spent 0 2 1"),
                            *ill(4, 2, 0)], words=B2 + B4, numbers=FED, counts=(2, 0)),
    Script("23-free-name", a, [*ill(2, 0, 1), *ill(3, 0, 65537), *ill(7, 0, 1), walk(0, "walked spent 0 2 0")], words=A3 + A5, counts=(2, 0)),
    Script("23-name-not-free", a, [*ill(4, o(1), 0), *ill(8, o(1), 0), *ill(9, 1, 0), *ill(9, HUGE, 0), walk(0, "walked spent 0 2 0")],
           words=A3 + A5, counts=(2, 0)),
    Script("23-no-new", a, [*ill(3, o(2), 65537), *ill(3, o(3), 65537), *ill(3, o(255), 65537), *ill(3, o(256), 65537), *ill(3, o(65535), 65537),
                            *ill(7, HUGE, 1), *ill(7, o(2), 1), word(3, o(0)), walk(0, "walked spent 0 2 0")], words=A3 + A5, counts=(2, 0)),
    Script("23-opening-marker", b, [*ill(2, o(0, 1), 1), *ill(2, o(0, 65535), 1), *ill(5, o(0, 1), 1), counts(2, 1), word(2, o(0, 1)),
                                    walk(3, "walked quiet 0 2 1"), *ill(2, o(0, 2), 2)], words=B2 + B4, numbers=FED, counts=(2, 0)),
    Script("23-entry", b, [*ill_entry(0, 2, 4), *ill_entry(0, 0, 4), *ill_entry(0, 7, 4), *ill_entry(0, 65535, 4), *ill_entry(1, 4, 2),
                           *ill_entry(1, 3, 2), *ill_entry(1, 7, 2), *ill_entry(1, 65535, 2), *ill_entry(2, 1, 0), *ill_entry(2, 2, 0),
                           *ill_entry(3, 1, 0), *ill_entry(3, 65535, 0), *ill_entry(6, 2, 0), *ill_entry(6, 3, 0), *ill_entry(7, 2, 1),
                           *ill_entry(7, 65535, 1), walk(0, "walked spent 0 2 2"), number(6, 1), walk(0, "walked spent 0 2 2")],
           words=B2 + B4, numbers=FED + fed(1), counts=(2, 2)),
    # an in is no resource: its array has no marker at all
    Script("23-entry-of-in", a, [*refused("refused 23 0")], words=A3 + A5, numbers=[5, 3, 0, 0], counts=(2, 1)),
    Script("23-equal-entries", b, [*refused("refused 23 0"), counts(2, 1), walk(0, "walked spent 0 2 1"), counts(2, 2), number(7, 1),
                                   walk(0, "walked spent 0 2 2"), counts(2, 3), *refused("refused 23 0"), number(9, 5),
                                   walk(0, "walked spent 0 2 3")], words=B2 + B4, numbers=FED * 3, counts=(2, 2)),
    # 22: the number of choice bytes; before 23 and before 28
    Script("22-127", b, [start("refused 22 0"), *refused("refused 22 0")], words=B2 + B4, numbers=4, counts=(2, 0), choices=bytes(127)),
    Script("22-129", b, [start("refused 22 0"), *refused("refused 22 0")], words=B2 + B4, numbers=4, counts=(2, 0), choices=bytes(129)),
    Script("22-none", b, [start("refused 22 0"), *refused("refused 22 0"), lists("2 0 1 4 0 1 | 9 9 9 9")],
           words=B2 + B4, numbers=4, counts=(2, 0), choices=b""),
    Script("22-before-23", b, [counts(HUGE, 1), *refused("refused 22 0"), counts(2, 1), *refused("refused 22 0"), step(HUGE, 0, "refused 22 0")],
           words=B2 + B4, numbers=4, choices=bytes(127)),
    Script("22-before-28", b, [start("refused 22 0")], words=5, choices=bytes(127)),
    Script("23-before-24", b, [step(HUGE, 0, "refused 23 0"), step(3, 3, "refused 23 0"), word(1, 0), step(HUGE, 0, "refused 24 0")],
           words=[2, 1, 1] + B4, counts=(2, 0)),
]

# 1 to 12, through every call, before 22 and 23: damaged files, 127 choice bytes and counts that don't fit.
for name, answer in [("A-byte-short", "refused 1 0"), ("A-next-letters", "refused 2 0"), ("257-names", "refused 3 0"), ("start-off", "refused 4 0"),
                     ("sum-off-by-one", "refused 5 0"), ("kind-7", "refused 6 3"), ("byte-7", "refused 7 3"), ("child-is-parent", "refused 8 2"),
                     ("two-parents", "refused 9 6"), ("channel-is-N", "refused 10 6"), ("never-bound", "refused 11 3"), ("sent-out-of-reach", "refused 12 3")]:
    number_of = answer.split()[1]
    SCRIPTS += [Script(f"array-{number_of}", damaged[name], [start(answer), *refused(answer)], words=A3 + A5, counts=(2, 0)),
                Script(f"array-{number_of}-first", damaged[name], [start(answer), *refused(answer), step(HUGE, HUGE, answer), lists("7 7 7 | 9 9 9")],
                       words=3, numbers=3, counts=(HUGE, HUGE), choices=bytes(127))]
SCRIPTS += [Script("array-17428-bytes", damaged["17428-bytes"], [start("refused 1 0"), *refused("refused 1 0")], words=3),
            Script("array-empty", b"", [start("refused 1 0"), *refused("refused 1 0")], words=3)]

# Scripts that are none: the program's own answer.
SCRIPTS += [
    Script("bad-cut-operand", b, [start("started 2", B2, B4), bad(1, 0)], words=6),
    Script("bad-unknown-command", b, [start("started 2", B2, B4), bad(8, 0, 0)], words=6),
    Script("bad-word-index", b, [word(5, 3), start("started 2", B2, B4), bad(5, 6, 1)], words=6),
    Script("bad-number-index", b, [number(3, 65535), start("started 2", B2, B4), bad(6, 4, 1)], words=6, numbers=4),
    Script("bad-number-value", b, [bad(6, 0, 65536)], words=6, numbers=4),
    Script("bad-no-counts", b, [], words=6, cut=-8),
    Script("bad-one-count", b, [], words=6, cut=-4),
    Script("bad-length", b, [start("started 2", B2, B4)], words=6, cut=-1),
    Script("bad-empty", b, [], cut=0),
    Script("bad-in-array", b, [], cut=100),
    Script("bad-in-words", b, [], words=6, cut=-16),
    Script("no-commands", b, [], words=6),
]


def main():
    folder = os.path.join("crates", "calls")
    data = os.path.join(folder, "data")
    shutil.rmtree(data, ignore_errors=True)
    os.makedirs(data)
    names, lines = [], []
    for script in SCRIPTS:
        assert script.name not in names, script.name
        with open(os.path.join(data, script.name), "wb") as out:
            out.write(script.data)
        names.append(script.name)
        lines += script.lines
    names.append("missing.rpl")
    lines.append("missing.rpl bad script")
    for path, rows in (("args", names), ("stdout", lines)):
        with open(os.path.join(folder, path), "w") as out:
            out.write("\n".join(rows) + "\n")
    print(len(names), "scripts,", sum(script.calls for script in SCRIPTS), "calls,", len(lines), "lines")


if __name__ == "__main__":
    main()
