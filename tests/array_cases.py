#!/usr/bin/env python3
"""Writes crates/inspect/{data,args,stdout}: array files and what the reader must say of each.

Each line's answer is written here by hand from document 01 ("Refusals, in checking order"): a case is a name, a file and the
words after the name. Run it at the top of the repository after a change; the gate compares what the program prints.
"""
import os
import shutil
import struct

STOP, NEW, PAR, CHOICE, OUT, IN, RESOURCE = range(7)


def rec(kind, left=0, right=0, name=0, args=(), arity=None, zero=0, tail=b""):
    arity = len(args) if arity is None else arity
    body = bytes(args) + tail
    return struct.pack("<BBHHBB", kind, arity, left, right, name, zero) + body.ljust(8, b"\0")


def word_sum(data):
    return sum(struct.unpack(f"<{len(data) // 4}I", data)) % 2**32


def pis(records, names, remark=b"", start=None, nodes=None, total=None, letters=b"PIS1"):
    head = remark + b"".join(records)
    head += struct.pack("<IHH", len(remark) if start is None else start, len(records) if nodes is None else nodes, names)
    return head + struct.pack("<I", word_sum(head) if total is None else total) + letters


def patched(records, **changes):
    """A copy of the records with some of them replaced: n3=rec(..) replaces node 3."""
    copy = list(records)
    for key, value in changes.items():
        copy[int(key[1:])] = value
    return copy


# Arrays A, B and C of document 01.
A = [rec(NEW, 1, name=0), rec(NEW, 2, name=1), rec(PAR, 3, 5), rec(OUT, 4, name=0, args=[1]), rec(STOP),
     rec(IN, 6, name=0, args=[2]), rec(OUT, 7, name=2), rec(STOP)]
B = [rec(NEW, 1, name=0), rec(PAR, 2, 4), rec(OUT, 3, name=0), rec(STOP), rec(RESOURCE, 5, name=0), rec(OUT, 6, name=0), rec(STOP)]
C = [rec(NEW, 1, name=0), rec(CHOICE, 2, 4), rec(OUT, 3, name=0), rec(STOP), rec(IN, 5, name=0), rec(STOP)]


def largest():
    """1,024 nodes, 256 names: a chain of a new, 31 ins of arity 8 and one of arity 7 that bind the other names, then outs of arity 8."""
    nodes, bound = [rec(NEW, 1, name=0)], 1
    while bound < 256:
        take = min(8, 256 - bound)
        nodes.append(rec(IN, len(nodes) + 1, name=0, args=range(bound, bound + take)))
        bound += take
    while len(nodes) < 1023:
        nodes.append(rec(OUT, len(nodes) + 1, name=len(nodes) % 256, args=[(len(nodes) + k) % 256 for k in range(8)]))
    return nodes + [rec(STOP)]


BIG = largest()
without_trailer = word_sum(b"".join(A))

CASES = [
    # read
    ("A", pis(A, 3), "read 8 3 0"),
    ("B", pis(B, 1), "read 7 1 0"),
    ("C", pis(C, 1), "read 6 1 0"),
    ("A-remark", pis(A, 3, remark=b"moored, 2 km"), "read 8 3 12"),
    ("A-longest-remark", pis(A, 3, remark=b"\xff" * 1024), "read 8 3 1024"),
    ("one-stop", pis([rec(STOP)], 0), "read 1 0 0"),
    ("largest", pis(BIG, 256, remark=b"\xff" * 1024), "read 1024 256 1024"),
    # 1: length
    ("missing", None, "refused 1 0"),
    ("empty", b"", "refused 1 0"),
    ("one-byte", b"P", "refused 1 0"),
    ("12-bytes", b"\0" * 12, "refused 1 0"),
    ("A-byte-short", pis(A, 3)[:-1], "refused 1 0"),
    ("A-byte-long", b"\0" + pis(A, 3), "refused 1 0"),
    ("17425-bytes", b"\0" + pis(BIG, 256, remark=b"\xff" * 1024), "refused 1 0"),
    ("17428-bytes", b"\0" * 4 + pis(BIG, 256, remark=b"\xff" * 1024), "refused 1 0"),
    # 2: letters
    ("16-ones", b"\xff" * 16, "refused 2 0"),
    ("17424-ones", b"\xff" * 17424, "refused 2 0"),
    ("A-table-letters", pis(A, 3, letters=b"PIC1"), "refused 2 0"),
    ("A-next-letters", pis(A, 3, letters=b"PIS2"), "refused 2 0"),
    ("A-letters-back", pis(A, 3, letters=b"1SIP"), "refused 2 0"),
    # 3: M, N
    ("no-nodes", pis([], 0), "refused 3 0"),
    ("1025-nodes", pis([], 0, nodes=1025), "refused 3 0"),
    ("65535-nodes", pis([], 65535, nodes=65535), "refused 3 0"),
    ("257-names", pis([rec(STOP)], 257), "refused 3 0"),
    # 4: start and length
    ("start-1028", pis([rec(STOP)], 0, remark=b"\0" * 1028), "refused 4 0"),
    ("start-off", pis(A, 3, start=4), "refused 4 0"),
    ("start-largest", pis(A, 3, start=2**32 - 1), "refused 4 0"),
    ("node-missing", pis(A, 3, nodes=9), "refused 4 0"),
    ("node-too-many", pis(A, 3, nodes=7), "refused 4 0"),
    # 5: word sum
    ("sum-off-by-one", pis(A, 3, total=(word_sum(pis(A, 3)[:-8]) + 1) % 2**32), "refused 5 0"),
    ("sum-without-trailer", pis(A, 3, total=without_trailer), "refused 5 0"),
    ("remark-changed", b"x" + pis(A, 3, remark=b"wire")[1:], "refused 5 0"),
    # 6: kind and arity
    ("kind-7", pis(patched(A, n3=rec(7, 4, name=0, args=[1])), 3), "refused 6 3"),
    ("kind-255", pis(patched(A, n7=rec(255)), 3), "refused 6 7"),
    ("arity-9", pis(patched(A, n5=rec(IN, 6, name=0, arity=9, tail=b"\2")), 3), "refused 6 5"),
    ("arity-of-stop", pis(patched(A, n4=rec(STOP, arity=1)), 3), "refused 6 4"),
    ("arity-of-choice", pis(patched(C, n1=rec(CHOICE, 2, 4, arity=8)), 1), "refused 6 1"),
    ("lowest-of-two", pis(patched(A, n3=rec(9), n6=rec(9)), 3), "refused 6 3"),
    ("6-before-7", pis(patched(A, n0=rec(NEW, 1, name=0, zero=1), n7=rec(7)), 3), "refused 6 7"),
    # 7: unused fields
    ("byte-7", pis(patched(A, n3=rec(OUT, 4, name=0, args=[1], zero=1)), 3), "refused 7 3"),
    ("argument-past-arity", pis(patched(A, n5=rec(IN, 6, name=0, args=[2], tail=b"\0\0\0\0\0\0\1")), 3), "refused 7 5"),
    ("argument-of-arity-0", pis(patched(A, n6=rec(OUT, 7, name=2, tail=b"\1")), 3), "refused 7 6"),
    ("argument-of-new", pis(patched(A, n1=rec(NEW, 2, name=1, tail=b"\1")), 3), "refused 7 1"),
    ("left-of-stop", pis(patched(A, n4=rec(STOP, 5)), 3), "refused 7 4"),
    ("right-of-stop", pis(patched(A, n7=rec(STOP, right=256)), 3), "refused 7 7"),
    ("name-of-stop", pis(patched(A, n7=rec(STOP, name=1)), 3), "refused 7 7"),
    ("right-of-new", pis(patched(A, n0=rec(NEW, 1, 2, name=0)), 3), "refused 7 0"),
    ("right-of-out", pis(patched(A, n3=rec(OUT, 4, 5, name=0, args=[1])), 3), "refused 7 3"),
    ("right-of-resource", pis(patched(B, n4=rec(RESOURCE, 5, 6, name=0)), 1), "refused 7 4"),
    ("name-of-par", pis(patched(A, n2=rec(PAR, 3, 5, name=1)), 3), "refused 7 2"),
    ("name-of-choice", pis(patched(C, n1=rec(CHOICE, 2, 4, name=1)), 1), "refused 7 1"),
    # 8: children
    ("child-is-parent", pis(patched(A, n2=rec(PAR, 2, 5)), 3), "refused 8 2"),
    ("child-is-root", pis(patched(A, n6=rec(OUT, 0, name=2)), 3), "refused 8 6"),
    ("child-below-parent", pis(patched(A, n5=rec(IN, 4, name=0, args=[2])), 3), "refused 8 5"),
    ("child-is-M", pis(patched(A, n6=rec(OUT, 8, name=2)), 3), "refused 8 6"),
    ("right-is-parent", pis(patched(A, n2=rec(PAR, 3, 2)), 3), "refused 8 2"),
    ("right-is-largest", pis(patched(C, n1=rec(CHOICE, 2, 65535)), 1), "refused 8 1"),
    # 9: parents
    ("same-child-twice", pis(patched(A, n2=rec(PAR, 3, 3)), 3), "refused 9 3"),
    ("two-parents", pis(patched(A, n5=rec(IN, 7, name=0, args=[2])), 3), "refused 9 6"),
    ("no-parent", pis(A + [rec(STOP)], 3), "refused 9 8"),
    # 10: names below N
    ("channel-is-N", pis(patched(A, n6=rec(OUT, 7, name=3)), 3), "refused 10 6"),
    ("sent-is-N", pis(patched(A, n3=rec(OUT, 4, name=0, args=[3])), 3), "refused 10 3"),
    ("parameter-is-255", pis(patched(A, n5=rec(IN, 6, name=0, args=[255])), 3), "refused 10 5"),
    ("new-is-N", pis(patched(A, n1=rec(NEW, 2, name=3)), 3), "refused 10 1"),
    ("no-names", pis(C, 0), "refused 10 0"),
    # 11: one binder
    ("never-bound", pis(A, 4), "refused 11 3"),
    ("two-news", pis(patched(A, n1=rec(NEW, 2, name=0)), 3), "refused 11 0"),
    ("new-and-parameter", pis(patched(A, n5=rec(IN, 6, name=0, args=[1])), 3), "refused 11 1"),
    ("parameter-twice", pis(patched(A, n5=rec(IN, 6, name=0, args=[2, 2])), 3), "refused 11 2"),
    ("two-parameters", pis(patched(B, n4=rec(RESOURCE, 5, name=0, args=[1]), n2=rec(IN, 3, name=0, args=[1])), 2), "refused 11 1"),
    # 12: reach
    ("sent-out-of-reach", pis(patched(A, n3=rec(OUT, 4, name=0, args=[2])), 3), "refused 12 3"),
    ("channel-out-of-reach", pis(patched(A, n3=rec(OUT, 4, name=2, args=[1])), 3), "refused 12 3"),
    ("own-parameter", pis(patched(A, n5=rec(IN, 6, name=2, args=[2])), 3), "refused 12 5"),
    ("own-resource-parameter", pis(patched(B, n4=rec(RESOURCE, 5, name=1, args=[1])), 2), "refused 12 4"),
    ("new-below-its-use", pis([rec(OUT, 1, name=0), rec(NEW, 2, name=0), rec(STOP)], 1), "refused 12 0"),
    ("12-lowest", pis(patched(A, n3=rec(OUT, 4, name=2, args=[2]), n5=rec(IN, 6, name=2, args=[2])), 3), "refused 12 3"),
    ("largest-out-of-reach", pis(patched(BIG, n1022=rec(OUT, 1023, name=0, args=[1]), n1=rec(IN, 2, name=255, args=range(1, 9))), 256), "refused 12 1"),
]


def main():
    folder = os.path.join("crates", "inspect")
    data = os.path.join(folder, "data")
    shutil.rmtree(data, ignore_errors=True)
    os.makedirs(data)
    names, lines = [], []
    for name, content, answer in CASES:
        path = name + ".pis"
        assert path not in names, name
        if content is not None:
            with open(os.path.join(data, path), "wb") as out:
                out.write(content)
        names.append(path)
        lines.append(f"{path} {answer}")
    for path, rows in (("args", names), ("stdout", lines)):
        with open(os.path.join(folder, path), "w") as out:
            out.write("\n".join(rows) + "\n")
    print(len(CASES), "cases")


if __name__ == "__main__":
    main()
