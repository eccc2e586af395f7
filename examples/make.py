#!/usr/bin/env python3
"""Writes array.pis, table.pic and labels.txt of every example from its design.txt, and mended.pic of one that is to be mended. Needs nothing but
Python 3.

A design has the scope paper's notation, a line for each thing, with a word for each name; what stands after | is said in the picture:

    remark WORDS
    names     0 hand | handover channel
    nodes     3 out hand [moored] to 4 | hands out the moored clock       (also: new, par 3, 5, choice 3, 5, in, resource, stop)
    rows      tfix {towed}
    mended    tfix {moored, towed}                                        (a row that mend makes larger, as it is in mended.pic)
    balances  bound 1, w5 = w6 = 1, w7 = 2 | the receiver
    claims    6 most 1 in 0                                               (of a set: 6 most 1 in 0 set 3)
"""
import os
import re
import sys

HERE = os.path.dirname(os.path.abspath(__file__))
sys.path.insert(0, os.path.join(HERE, "..", "tests"))
from array_cases import pis, rec  # noqa: E402
from table_cases import balance, claim, pic, row  # noqa: E402

KINDS = ["stop", "new", "par", "choice", "out", "in", "resource"]
NODE = re.compile(r"(\d+) (\w+)(?: (\d+), (\d+))?(?: ([a-z]\w*))?(?: \[(.*)\])?(?: to (\d+))?$")


def sections(path):
    """The remark, and for each section its lines as (text, words)."""
    remark, parts, now = "", {}, None
    with open(path) as lines:
        for line in map(str.strip, lines):
            text, _, words = (piece.strip() for piece in line.partition("|"))
            if text.startswith("remark "):
                remark = text[7:]
            elif text in ("names", "nodes", "rows", "mended", "balances", "claims"):
                now = parts[text] = []
            elif text and not text.startswith("#"):
                now.append((text, words))
    return remark.encode("ascii"), parts


def words_in(text):
    return [word.strip() for word in text.split(",") if word.strip()]


def array_of(remark, parts, number):
    records = []
    for text, _ in parts["nodes"]:
        node, kind, left, right, name, sent, child = NODE.fullmatch(text).groups()
        assert int(node) == len(records), text
        args = [number[word] for word in words_in(sent or "")]
        records.append(rec(KINDS.index(kind), int(child or left or 0), int(right or 0), number.get(name, 0), args))
    return pis(records, len(number), remark + b" " * (-len(remark) % 4))


def balance_of(text, nodes):
    """bound 1, w5 = w6 = 1, w7 = 2"""
    bound, *groups = words_in(text)
    weights = {}
    for group in groups:
        *agents, weight = (piece.strip() for piece in group.split("="))
        weights.update({int(agent[1:]): int(weight) for agent in agents})
    return balance(int(bound.split()[1]), weights, nodes)


def claim_of(text):
    """6 most 1 in 0, or 6 most 1 in 0 set 3"""
    return tuple(map(int, re.fullmatch(r"(\d+) most (\d+) in (\d+)(?: set (\d+))?", text).groups(default=0)))


def claims_of(texts):
    """In the order that a table has, by set, agent, most and balance, each once; a design may list them as it likes."""
    found = {claim_of(text) for text, _ in texts}
    return [claim(*numbers) for numbers in sorted(found, key=lambda x: (x[3], *x[:3]))]


def table_of(array, parts, number, grown=()):
    """With the rows that have grown in place of the first ones."""
    rows = [b""] * len(number)
    for text, _ in [*parts["rows"], *grown]:
        name, openings = re.fullmatch(r"(\w+) \{(.*)\}", text).groups()
        rows[number[name]] = row(*(number[word] for word in words_in(openings)))
    assert all(rows), "a name without a row"
    balances = [balance_of(text, len(parts["nodes"])) for text, _ in parts["balances"]]
    return pic(array, rows, balances, claims_of(parts["claims"]))


def labels_of(parts):
    lines = [f"name {text.split()[0]} {text.split()[1]} {words}".strip() for text, words in parts["names"]]
    lines += [f"node {text.split()[0]} {words}" for text, words in parts["nodes"] if words]
    lines += [f"balance {k} {words}" for k, (_, words) in enumerate(parts["balances"]) if words]
    return "\n".join(lines) + "\n"


def main():
    for folder in sorted(os.listdir(HERE)):
        path = os.path.join(HERE, folder)
        if not os.path.exists(os.path.join(path, "design.txt")):
            continue
        remark, parts = sections(os.path.join(path, "design.txt"))
        number = {text.split()[1]: int(text.split()[0]) for text, _ in parts["names"]}
        array = array_of(remark, parts, number)
        files = {"array.pis": array, "table.pic": table_of(array, parts, number), "labels.txt": labels_of(parts).encode()}
        if "mended" in parts:
            files["mended.pic"] = table_of(array, parts, number, parts["mended"])
        for name, content in files.items():
            with open(os.path.join(path, name), "wb") as out:
                out.write(content)


if __name__ == "__main__":
    main()
