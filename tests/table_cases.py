#!/usr/bin/env python3
"""Writes crates/cases/{data,args,stdout}, crates/sizes/{data,args,stdout}, crates/judge/{data,stdout} and crates/mend/{data,stdout}: pairs of array
and table files, what the checker must say of them, what the table reader must, and what mend must.

Each answer is written here by hand from documents 01 and 02: a case is an array, a table's name, the table and the words of the verdict, or of the
reader's answer. Run it at the top of the repository after a change; the gate compares what the programs print.
"""
import os
import shutil
import struct

from array_cases import A, B, C, CHOICE, IN, NEW, OUT, PAR, RESOURCE, STOP, pis, rec, word_sum


def row(*bits, width=32):
    data = bytearray(width)
    for bit in bits:
        data[bit // 8] |= 1 << bit % 8
    return bytes(data)


def balance(bound, weights, nodes, pad=0):
    """Weights by node number."""
    words = [weights.get(i, 0) for i in range(nodes)] + ([pad] if nodes % 2 else [])
    return struct.pack("<I", bound) + struct.pack(f"<{len(words)}H", *words)


def claim(agent, most, number=0, of=0):
    """Of balance `number` and set `of`; set 0 stands alone."""
    return struct.pack("<HHHH", agent, most, number, of)


def pic(array, rows, balances=(), claims=(), starts=None, counts=None, named=None, total=None, letters=b"PIC1"):
    parts = [b"".join(rows), b"".join(balances), b"".join(claims)]
    places = (0, len(parts[0]), len(parts[0]) + len(parts[1])) if starts is None else starts
    head = b"".join(parts) + struct.pack("<III", *places)
    head += struct.pack("<HH", *((len(balances), len(claims)) if counts is None else counts))
    head += array[-8:-4] if named is None else struct.pack("<I", named)
    return head + struct.pack("<I", word_sum(head) if total is None else total) + letters


FILES = {"A": pis(A, 3), "B": pis(B, 1), "C": pis(C, 1), "stop": pis([rec(STOP)], 0), "broken": pis(A, 4)}
a, b, c = FILES["A"], FILES["B"], FILES["C"]
rows = [row(0), row(1), row(1)]
one = {5: 1, 6: 1}
bal = balance(1, one, 8)
table = pic(a, rows, [bal], [claim(6, 1)])

# A pair that is live twice, so that the lowest receiver and sender count: two receivers and two senders on one channel.
TWO = [rec(NEW, 1, name=0), rec(NEW, 2, name=1), rec(PAR, 3, 4), rec(PAR, 5, 6), rec(PAR, 7, 8), rec(OUT, 9, name=0, args=[1]),
       rec(OUT, 10, name=0, args=[1]), rec(IN, 11, name=0, args=[2]), rec(RESOURCE, 12, name=0, args=[3]), rec(STOP), rec(STOP),
       rec(STOP), rec(STOP)]
FILES["two"] = pis(TWO, 4)
two = FILES["two"]
# A channel of arity 8 whose last argument is the one that is not contained.
WIDE = [rec(NEW, 1, name=0), rec(NEW, 2, name=1), rec(PAR, 3, 4), rec(OUT, 5, name=0, args=[0] * 7 + [1]),
        rec(IN, 6, name=0, args=range(2, 10)), rec(STOP), rec(STOP)]
FILES["wide"] = pis(WIDE, 10)
wide = FILES["wide"]
# A receiver of one name and senders of none, on one channel; a receiver of one and a sender of two.
FILES["arities"] = pis([rec(NEW, 1, name=0), rec(PAR, 2, 3), rec(OUT, 4, name=0), rec(IN, 5, name=0, args=[1]), rec(STOP), rec(OUT, 6, name=0), rec(STOP)], 2)
FILES["one-of-two"] = pis([rec(NEW, 1, name=0), rec(NEW, 2, name=1), rec(PAR, 3, 4), rec(OUT, 5, name=0, args=[1, 1]), rec(IN, 6, name=0, args=[2]),
                           rec(STOP), rec(STOP)], 3)
# A sender (3) and a receiver (5) on two channels; the receiver leaves a sender (6) on its own channel.
FILES["apart"] = pis([rec(NEW, 1, name=0), rec(NEW, 2, name=1), rec(PAR, 3, 5), rec(OUT, 4, name=0), rec(STOP), rec(IN, 6, name=1), rec(OUT, 7, name=1),
                      rec(STOP)], 2)
# Like C, but the receiver (4) leaves a sender (5).
FILES["either"] = pis([rec(NEW, 1, name=0), rec(CHOICE, 2, 4), rec(OUT, 3, name=0), rec(STOP), rec(IN, 5, name=0), rec(OUT, 6, name=0), rec(STOP)], 1)
arities, one_of_two, apart, either = (FILES[name] for name in ("arities", "one-of-two", "apart", "either"))
# 253 news, so that numbers stand in every byte of a row; then a sender (254) of names 70, 135 and 252 and its receiver (255).
FILES["many"] = pis([rec(NEW, i + 1, name=i) for i in range(253)]
                    + [rec(PAR, 254, 255), rec(OUT, 256, name=0, args=[70, 135, 252]), rec(IN, 257, name=0, args=[253, 254, 255]), rec(STOP), rec(STOP)], 256)
many = FILES["many"]
own = [row(o) for o in range(253)]


def of_sets(*claims, weights=bal):
    """A's table with other claims, each an agent, a most and a set."""
    return pic(a, rows, [weights], [claim(agent, most, 0, of) for agent, most, of in claims])


def of_five(*claims):
    """The same where 5 alone has a weight, so that of a set of 5 and 6 the later claim is not met by itself."""
    return of_sets(*claims, weights=balance(1, {5: 1}, 8))


def of_two(*claims):
    """A's table with its balance twice, and other claims, each an agent, a most and a balance."""
    return pic(a, rows, [bal] * 2, [claim(*numbers) for numbers in claims])


def second(w6):
    """A's table with a second balance, of greater numbers, and a claim on it: w6 x 234 against 70,000."""
    return pic(a, rows, [bal, balance(70000, {5: 300, 6: w6}, 8)], [claim(6, 1), claim(6, 233, 1), claim(6, 234, 1)])


CASES = [
    # the marked cases, from outside
    ("A", "A", table, "held 8 3 1 1"),
    ("A", "A-most-0", pic(a, rows, [bal], [claim(6, 0)]), "rule 5 0"),
    ("A", "A-bound-0", pic(a, rows, [balance(0, one, 8)], [claim(6, 1)]), "rule 2 0"),
    ("A", "A-row-2-empty", pic(a, [row(0), row(1), row()], [bal], [claim(6, 1)]), "rule 3 5 3 1"),
    ("A", "A-row-1-empty", pic(a, [row(0), row(), row(1)], [bal], [claim(6, 1)]), "rule 1 1"),
    ("A", "A-w6-2", pic(a, rows, [balance(1, {5: 1, 6: 2}, 8)], [claim(6, 1)]), "rule 4 5 3 0"),
    ("B", "B", pic(b, [row(0)], [balance(1, {2: 1, 5: 1}, 7)]), "held 7 1 1 0"),
    ("B", "B-w5", pic(b, [row(0)], [balance(1, {5: 1}, 7)]), "rule 4 4 2 0"),
    ("C", "C", pic(c, [row(0)], [balance(1, {2: 1, 4: 1}, 6)]), "held 6 1 1 0"),
    # nothing to say: no balances, no claims, no rows
    ("stop", "stop", pic(FILES["stop"], []), "held 1 0 0 0"),
    ("A", "A-flows", pic(a, rows), "held 8 3 0 0"),
    # more of the rules
    ("A", "A-rule-1-lowest", pic(a, [row(), row(), row(1)], [bal]), "rule 1 0"),
    ("A", "A-second-bound", pic(a, rows, [bal, balance(0, {5: 1}, 8)]), "rule 2 1"),
    ("A", "A-second-balance", pic(a, rows, [bal, balance(1, {5: 1, 6: 2}, 8)]), "rule 4 5 3 1"),
    ("A", "A-second-claim", pic(a, rows, [bal], [claim(5, 1), claim(6, 0), claim(6, 1)]), "rule 5 1"),
    ("A", "A-weightless-claim", pic(a, rows, [bal], [claim(3, 65535)]), "rule 5 0"),
    ("A", "A-claim-reached", pic(a, rows, [balance(2, {6: 2, 5: 2}, 8)], [claim(6, 0)]), "rule 5 0"),
    ("A", "A-weight-65535", pic(a, rows, [balance(65535, {5: 65535, 6: 65535}, 8)], [claim(6, 1)]), "held 8 3 1 1"),
    ("A", "A-both-agents", pic(a, [row(0), row(1), row()], [balance(1, {3: 1, 5: 1}, 8)]), "rule 2 0"),
    ("two", "two-lowest-pair", pic(two, [row(0), row(1), row(), row()]), "rule 3 7 5 1"),
    ("two", "two-second-receiver", pic(two, [row(0), row(1), row(1), row()]), "rule 3 8 5 1"),
    ("two", "two-rule-3-first", pic(two, [row(0), row(1), row(1), row()], [balance(9, {7: 1}, 13)]), "rule 3 8 5 1"),
    ("two", "two-held", pic(two, [row(0), row(1), row(1), row(1)]), "held 13 4 0 0"),
    ("wide", "wide-last-argument", pic(wide, [row(0), row(1)] + [row(0)] * 8), "rule 3 4 3 8"),
    ("wide", "wide-held", pic(wide, [row(0), row(1)] + [row(0, 1)] * 8), "held 7 10 0 0"),
    # a number in each byte of a row: with two bytes exchanged, some row lacks its own number (rule 1)
    ("many", "many-held", pic(many, own + [row(70), row(135), row(252)]), "held 258 256 0 0"),
    ("many", "many-row-200", pic(many, own[:200] + [row(136)] + own[201:] + [row(70), row(135), row(252)]), "rule 1 200"),
    ("many", "many-second-argument", pic(many, own + [row(70), row(70, 252), row(252)]), "rule 3 255 254 2"),
    ("many", "many-third-argument", pic(many, own + [row(70), row(135), row(124, 188, 251)]), "rule 3 255 254 3"),
    # not live: arities differ. Live, the first would break rule 4 at 3 2 0, since 5 alone has a weight; the second rule 3 at 4 3 1.
    ("arities", "arities-differ", pic(arities, [row(0), row()], [balance(1, {5: 1}, 7)]), "held 7 2 1 0"),
    ("one-of-two", "one-of-two", pic(one_of_two, [row(0), row(1), row()]), "held 7 3 0 0"),
    # not live: the channel rows share no bit. With one in common, rule 4 breaks there: 6 alone has a weight.
    ("apart", "apart-no-bit", pic(apart, [row(0), row(1)], [balance(1, {6: 1}, 8)]), "held 8 2 1 0"),
    ("apart", "apart-receiver-shares", pic(apart, [row(0), row(0, 1)], [balance(1, {6: 1}, 8)]), "rule 4 5 3 0"),
    ("apart", "apart-sender-shares", pic(apart, [row(0, 1), row(1)], [balance(1, {6: 1}, 8)]), "rule 4 5 3 0"),
    # not live by the second balance: 1 + 1 is above its bound 1, not above 2; the first balance breaks rule 4 where the pair is live
    ("either", "either-live", pic(either, [row(0)], [balance(9, {5: 1}, 7)]), "rule 4 4 2 0"),
    ("either", "either-second-balance", pic(either, [row(0)], [balance(9, {5: 1}, 7), balance(1, {2: 1, 4: 1}, 7)]), "held 7 1 2 0"),
    ("either", "either-second-fits", pic(either, [row(0)], [balance(9, {5: 1}, 7), balance(2, {2: 1, 4: 1}, 7)]), "rule 4 4 2 0"),
    # sets: the least weight x (most + 1) against bound 1. Agents 5 and 6 weigh 1, agent 3 nothing.
    ("A", "A-set", of_sets((5, 1, 1), (6, 1, 1)), "held 8 3 1 2"),
    ("A", "A-set-most-0", of_sets((5, 0, 1), (6, 0, 1)), "rule 5 0"),
    ("A", "A-set-weightless", of_five((5, 65535, 0), (5, 65535, 4), (6, 65535, 4)), "rule 5 1"),
    # claims of set 0 stand alone: of one agent with different mosts, and beside a set
    ("A", "A-set-0", of_sets((5, 1, 0), (6, 1, 0), (6, 2, 0)), "held 8 3 1 3"),
    ("A", "A-set-0-reached", of_sets((5, 1, 0), (6, 0, 0), (6, 2, 0)), "rule 5 1"),
    # the set's first claim is named, and of two sets the lower first claim; a claim alone before them
    ("A", "A-sets-side-by-side", of_sets((5, 1, 1), (6, 1, 1), (5, 2, 2), (6, 2, 2)), "held 8 3 1 4"),
    ("A", "A-sets-second-weightless", of_five((5, 1, 5), (5, 1, 7), (6, 1, 7)), "rule 5 1"),
    ("A", "A-sets-both-weightless", of_five((5, 1, 5), (6, 1, 5), (5, 1, 7), (6, 1, 7)), "rule 5 0"),
    ("A", "A-alone-weightless-first", of_five((5, 1, 0), (6, 1, 0), (5, 1, 7), (6, 1, 7)), "rule 5 1"),
    # a set's number is all of its 16 bits: 1 and 2, and 1 with each other bit, are sets with mosts of their own
    ("A", "A-sets-of-each-bit", of_sets((6, 1, 1), (6, 40, 2), *[(6, 1 + k, 1 + 2 ** k) for k in range(1, 16)]), "held 8 3 1 17"),
    ("A", "A-sets-1-257", of_sets((5, 1, 1), (6, 2, 257)), "held 8 3 1 2"),
    ("A", "A-sets-256-512", of_sets((5, 1, 256), (6, 2, 512)), "held 8 3 1 2"),
    ("A", "A-set-256", of_five((5, 1, 256), (6, 1, 256), (5, 1, 512)), "rule 5 0"),
    # each claim of a set of its own
    ("A", "A-256-sets", of_sets(*[(6, 1, 257 * i) for i in range(256)]), "held 8 3 1 256"),
    ("A", "A-256-sets-last", of_sets(*[(6, 1, 1 + i) for i in range(255)], (6, 0, 300)), "rule 5 255"),
    # in the set's balance, bound 70,000, the least weight is 299 and the greatest 300: 299 x 234 = 69,966, 299 x 235 = 70,265
    ("A", "A-set-on-second-reached", pic(a, rows, [bal, balance(70000, {5: 300, 6: 299}, 8)], [claim(i, 233, 1, 3) for i in (5, 6)]), "rule 5 0"),
    ("A", "A-set-on-second", pic(a, rows, [bal, balance(70000, {5: 300, 6: 299}, 8)], [claim(i, 234, 1, 3) for i in (5, 6)]), "held 8 3 2 2"),
    # a claim is weighed in its own balance: 300 x 234 = 70,200 and 299 x 234 = 69,966; in balance 0 it is 1 x 234 against 1
    ("A", "A-claim-on-second", second(300), "held 8 3 2 3"),
    ("A", "A-claim-on-second-reached", second(299), "rule 5 1"),
    # 1 x 2 against bound 2 in balance 0, against bound 1 in balance 1
    ("A", "A-claim-on-first", pic(a, rows, [balance(2, one, 8), bal], [claim(6, 1, 0)]), "rule 5 0"),
    ("A", "A-claim-on-lower", pic(a, rows, [balance(2, one, 8), bal], [claim(6, 1, 1)]), "held 8 3 2 1"),
    # 1 to 12 come first
    ("broken", "array-first", b"", "refused 11 3"),
    ("missing", "array-missing", table, "refused 1 0"),
    # 13: length
    ("A", "missing", None, "refused 13 0"),
    ("A", "empty", b"", "refused 13 0"),
    ("A", "24-bytes", b"\0" * 24, "refused 13 0"),
    ("A", "A-byte-long", b"\0" + table, "refused 13 0"),
    ("A", "59520-bytes", b"\0" * (59520 - len(table)) + table, "refused 13 0"),
    # 14: letters
    ("A", "28-ones", b"\xff" * 28, "refused 14 0"),
    ("A", "59516-ones", b"\xff" * 59516, "refused 14 0"),
    ("A", "A-array-letters", pic(a, rows, [bal], letters=b"PIS1"), "refused 14 0"),
    ("A", "A-next-letters", pic(a, rows, [bal], letters=b"PIC2"), "refused 14 0"),
    # 15: K, Q
    ("A", "A-K-25", pic(a, rows, [bal] * 25), "refused 15 0"),
    ("A", "A-K-24", pic(a, rows, [bal] * 24), "held 8 3 24 0"),
    ("A", "A-Q-257", pic(a, rows, [bal], [claim(6, 1)] * 257), "refused 15 0"),
    ("A", "A-Q-256", pic(a, rows, [bal], [claim(6, 1 + i) for i in range(256)]), "held 8 3 1 256"),
    ("A", "A-K-65535", pic(a, rows, [bal], counts=(65535, 65535)), "refused 15 0"),
    # 16: parts
    ("A", "A-rows-at-4", pic(a, rows, [bal], starts=(4, 96, 116)), "refused 16 0"),
    ("A", "A-balances-late", pic(a, rows, [bal], starts=(0, 100, 116)), "refused 16 0"),
    ("A", "A-claims-early", pic(a, rows, [bal], starts=(0, 96, 112)), "refused 16 0"),
    ("A", "A-claim-missing", pic(a, rows, [bal], counts=(1, 1)), "refused 16 0"),
    ("A", "A-row-missing", pic(a, rows[:2], [bal]), "refused 16 0"),
    ("A", "A-weight-too-many", pic(a, rows, [balance(1, one, 9)]), "refused 16 0"),
    # 17, 18: word sums
    ("A", "A-sum-off", pic(a, rows, [bal], total=1), "refused 17 0"),
    ("A", "A-bit-changed", b"\3" + table[1:], "refused 17 0"),
    ("A", "A-other-array", pic(b, rows, [bal], [claim(6, 1)]), "refused 18 0"),
    ("A", "A-no-array", pic(a, rows, [bal], named=0), "refused 18 0"),
    # 19: rows
    ("A", "A-row-of-parameter", pic(a, [row(0), row(1, 2), row(1)], [bal]), "refused 19 1"),
    ("A", "A-row-past-N", pic(a, [row(0), row(1), row(1, 255)], [bal]), "refused 19 2"),
    ("A", "A-row-lowest", pic(a, [row(0, 3), row(1), row(1, 255)], [bal]), "refused 19 0"),
    # 20: weights and padding
    ("A", "A-weight-of-par", pic(a, rows, [bal, balance(1, {2: 1}, 8)]), "refused 20 1"),
    ("A", "A-weight-of-stop", pic(a, rows, [balance(1, {7: 65535}, 8)]), "refused 20 0"),
    ("B", "B-padding", pic(b, [row(0)], [balance(1, {}, 7), balance(1, {}, 7, pad=1)]), "refused 20 1"),
    ("B", "B-padding-high", pic(b, [row(0)], [balance(1, {}, 7, pad=256)]), "refused 20 0"),
    # 21: claims
    ("A", "A-claim-of-par", pic(a, rows, [bal], [claim(6, 1), claim(2, 1)]), "refused 21 1"),
    ("A", "A-claim-past-M", pic(a, rows, [bal], [claim(8, 1)]), "refused 21 0"),
    ("A", "A-claim-of-65535", pic(a, rows, [bal], [claim(65535, 1)]), "refused 21 0"),
    ("A", "A-claim-balance-K", pic(a, rows, [bal], [claim(6, 1, 1)]), "refused 21 0"),
    ("A", "A-claim-no-balance", pic(a, rows, [], [claim(6, 1)]), "refused 21 0"),
    # a last number other than 0 is a set's: a set of one claim
    ("A", "A-claim-last", pic(a, rows, [bal], [claim(6, 1), claim(6, 2), claim(6, 1, 0, 1)]), "held 8 3 1 3"),
    # and so are the others: 65,535 x 65,536 exceeds the bound by 1; an agent and a balance with a bit too many
    ("A", "A-most-65535", pic(a, rows, [balance(4294901759, {5: 65535, 6: 65535}, 8)], [claim(6, 65535)]), "held 8 3 1 1"),
    ("A", "A-claim-of-1030", pic(a, rows, [bal], [claim(1030, 1)]), "refused 21 0"),
    ("A", "A-claim-of-32774", pic(a, rows, [bal], [claim(32774, 1)]), "refused 21 0"),
    ("A", "A-claim-balance-256", pic(a, rows, [bal], [claim(6, 1, 256)]), "refused 21 0"),
    ("A", "A-claim-balance-32768", pic(a, rows, [bal], [claim(6, 1, 32768)]), "refused 21 0"),
    # 30: claims of a set that differ, in most and in balance; the later claim is named, the lowest such, whatever lies between
    ("A", "A-set-mosts", of_sets((5, 1, 1), (6, 2, 1)), "refused 30 1"),
    ("A", "A-set-mosts-by-256", of_sets((5, 256, 1), (6, 512, 1)), "refused 30 1"),
    ("A", "A-set-balances", pic(a, rows, [bal, bal], [claim(5, 1, 0, 1), claim(6, 1, 1, 1)]), "refused 30 1"),
    ("A", "A-set-mosts-apart", of_sets((5, 1, 7), (6, 1, 0), (6, 1, 8), (6, 2, 7)), "refused 30 3"),
    ("A", "A-set-mosts-nested", of_sets((5, 1, 7), (5, 1, 8), (6, 2, 8), (6, 2, 7)), "refused 30 2"),
    ("A", "A-set-65535", of_sets((5, 1, 65535), (6, 2, 65535)), "refused 30 1"),
    ("A", "A-set-255-agree", of_sets(*[(6, 1, 9)] * 255, (6, 2, 9)), "refused 30 255"),
    # 21 over all claims before 30 over any, and 30 before the rules
    ("A", "A-21-first", of_sets((5, 1, 1), (6, 2, 1), (2, 1, 0)), "refused 21 2"),
    ("A", "A-30-first", of_sets((3, 0, 0), (5, 1, 1), (6, 2, 1)), "refused 30 2"),
    # 31: claims rise by set, then agent, then most, then balance; each number decides, whatever those after it do
    ("A", "A-order-set", of_sets((6, 2, 1), (5, 1, 2)), "held 8 3 1 2"),
    ("A", "A-order-set-falls", of_sets((5, 1, 2), (6, 2, 1)), "refused 31 1"),
    ("A", "A-order-set-0-last", of_sets((5, 1, 1), (6, 2, 0)), "refused 31 1"),
    ("A", "A-order-agent", of_two((5, 2, 1), (6, 1, 0)), "held 8 3 2 2"),
    ("A", "A-order-agent-falls", of_two((6, 1, 0), (5, 2, 1)), "refused 31 1"),
    ("A", "A-order-agent-falls-in-set", of_sets((6, 1, 1), (5, 1, 1)), "refused 31 1"),
    ("A", "A-order-most", of_two((6, 1, 1), (6, 2, 0)), "held 8 3 2 2"),
    ("A", "A-order-most-falls", of_two((6, 2, 0), (6, 1, 1)), "refused 31 1"),
    ("A", "A-order-balance", of_two((6, 1, 0), (6, 1, 1)), "held 8 3 2 2"),
    ("A", "A-order-balance-falls", of_two((6, 1, 1), (6, 1, 0)), "refused 31 1"),
    # and not by a byte of theirs, nor with a sign
    ("A", "A-order-set-255-256", of_sets((6, 1, 255), (6, 1, 256)), "held 8 3 1 2"),
    ("A", "A-order-set-256-255", of_sets((6, 1, 256), (6, 1, 255)), "refused 31 1"),
    ("A", "A-order-set-65535-1", of_sets((6, 1, 65535), (6, 1, 1)), "refused 31 1"),
    ("A", "A-order-most-511-768", of_sets((6, 511, 0), (6, 768, 0)), "held 8 3 1 2"),
    ("A", "A-order-most-768-511", of_sets((6, 768, 0), (6, 511, 0)), "refused 31 1"),
    ("A", "A-order-most-1-32768", of_sets((6, 1, 0), (6, 32768, 0)), "held 8 3 1 2"),
    ("A", "A-order-most-32768-1", of_sets((6, 32768, 0), (6, 1, 0)), "refused 31 1"),
    # repeats: alone, in a set, and in a set that other claims part
    ("A", "A-repeat", of_sets((6, 1, 0), (6, 1, 0)), "refused 31 1"),
    ("A", "A-set-named-twice", of_sets((6, 1, 1), (6, 1, 1)), "refused 31 1"),
    ("A", "A-set-apart", of_sets((5, 1, 1), (6, 1, 2), (6, 1, 1)), "refused 31 2"),
    ("A", "A-set-of-256", of_sets(*[(6, 1, 9)] * 256), "refused 31 1"),
    # the lowest claim that does not come after the one before it, and not where it belongs; the last of many
    ("A", "A-order-lowest", of_sets((5, 1, 0), (6, 2, 0), (6, 1, 0), (6, 3, 0), (6, 3, 0)), "refused 31 2"),
    ("A", "A-order-last", of_sets(*[(6, 2 + i, 0) for i in range(255)], (5, 1, 0)), "refused 31 255"),
    # 21 and 30 over all claims before 31 over any, and 31 before the rules
    ("A", "A-21-before-31", of_sets((6, 1, 0), (6, 1, 0), (2, 1, 0)), "refused 21 2"),
    ("A", "A-30-before-31", of_sets((6, 1, 0), (6, 1, 0), (5, 1, 3), (6, 2, 3)), "refused 30 3"),
    ("A", "A-31-first", pic(a, [row(), row(), row(1)], [balance(0, one, 8)], [claim(6, 0)] * 2), "refused 31 1"),
    # 19 before 20 before 21
    ("A", "A-19-first", pic(a, [row(0), row(1), row(2)], [balance(1, {2: 1}, 8)], [claim(2, 1)]), "refused 19 2"),
    ("A", "A-20-first", pic(a, rows, [balance(1, {2: 1}, 8)], [claim(2, 1)]), "refused 20 0"),
]

# What the table reader says: M, N, K and Q, also of a table that breaks a rule; or the refusal.
SIZES = [
    ("A", "A", table, "read 8 3 1 1"),
    ("A", "A-four-sizes", pic(a, rows, [bal] * 2, [claim(6, 1 + i) for i in range(5)]), "read 8 3 2 5"),
    ("B", "B", pic(b, [row(0)], [balance(1, {2: 1, 5: 1}, 7)]), "read 7 1 1 0"),
    ("stop", "stop", pic(FILES["stop"], []), "read 1 0 0 0"),
    ("A", "A-most-of-both", pic(a, rows, [bal] * 24, [claim(6, 1, i % 24, i) for i in range(256)]), "read 8 3 24 256"),
    ("A", "A-bound-0", pic(a, rows, [balance(0, one, 8)], [claim(6, i) for i in range(3)]), "read 8 3 1 3"),
    ("A", "A-no-rows", pic(a, [row()] * 3, [bal] * 2), "read 8 3 2 0"),
    # the array first
    ("broken", "array-first", b"", "refused 11 3"),
    ("missing", "array-missing", table, "refused 1 0"),
    # 13 to 18
    ("A", "missing", None, "refused 13 0"),
    ("A", "A-byte-long", b"\0" + table, "refused 13 0"),
    ("A", "A-array-letters", pic(a, rows, [bal], letters=b"PIS1"), "refused 14 0"),
    ("A", "A-K-25", pic(a, rows, [bal] * 25), "refused 15 0"),
    ("A", "A-Q-257", pic(a, rows, [bal], [claim(6, 1)] * 257), "refused 15 0"),
    ("A", "A-claims-early", pic(a, rows, [bal], starts=(0, 96, 112)), "refused 16 0"),
    ("A", "A-sum-off", pic(a, rows, [bal], total=1), "refused 17 0"),
    ("A", "A-other-array", pic(b, rows, [bal], [claim(6, 1)]), "refused 18 0"),
    # 19, 20 and 21 at a place
    ("A", "A-row-2", pic(a, [row(0), row(1), row(1, 2)], [bal]), "refused 19 2"),
    ("A", "A-balance-3", pic(a, rows, [bal] * 3 + [balance(1, {2: 1}, 8)]), "refused 20 3"),
    ("B", "B-padding", pic(b, [row(0)], [balance(1, {}, 7), balance(1, {}, 7, pad=1)]), "refused 20 1"),
    ("A", "A-claim-4", pic(a, rows, [bal], [claim(6, 1)] * 4 + [claim(6, 1, 1)]), "refused 21 4"),
    # sets: one that is not met is read; 30 at a place, after 21
    ("A", "A-set-most-0", of_sets((5, 0, 1), (6, 0, 1)), "read 8 3 1 2"),
    ("A", "A-set-mosts", of_sets(*[(6, 1, 0)] * 3, (6, 1, 5), (6, 0, 5)), "refused 30 4"),
    ("A", "A-21-first", of_sets((5, 1, 1), (6, 2, 1), (2, 1, 0)), "refused 21 2"),
    # 31 at a place, after 30
    ("A", "A-order", of_sets((5, 1, 0), (6, 1, 0), (6, 1, 4), (5, 1, 4), (5, 1, 4)), "refused 31 3"),
    ("A", "A-30-before-31", of_sets((6, 1, 0), (6, 1, 0), (5, 1, 3), (6, 2, 3)), "refused 30 3"),
]


def write(folder, files, args, lines):
    data = os.path.join(folder, "data")
    shutil.rmtree(data, ignore_errors=True)
    os.makedirs(data)
    for path, content in files.items():
        if content is not None:
            with open(os.path.join(data, path), "wb") as out:
                out.write(content)
    for path, rows in (("args", args), ("stdout", lines)):
        if rows is not None:
            with open(os.path.join(folder, path), "w") as out:
                out.write("\n".join(rows) + "\n")


def write_pairs(folder, cases):
    """Arrays and tables that the cases name, a pair of arguments and a line for each."""
    files, args, lines = {}, [], []
    for array, name, content, answer in cases:
        assert name + ".pic" not in files, name
        files[array + ".pis"] = FILES.get(array)
        files[name + ".pic"] = content
        args += [array + ".pis", name + ".pic"]
        lines.append(f"{name}.pic {answer}")
    write(os.path.join("crates", folder), files, args, lines)


def main():
    write_pairs("cases", CASES)
    write_pairs("sizes", SIZES)
    write(os.path.join("crates", "judge"), {"array.pis": a, "table.pic": table}, None, ["held 8 3 1 1"])
    write(os.path.join("crates", "mend"), {"array.pis": a, "table.pic": pic(a, [row(0), row(), row()], [bal], [claim(6, 1)])}, None, ["mended 2"])
    print(len(CASES), "cases,", len(SIZES), "readings")


if __name__ == "__main__":
    main()
