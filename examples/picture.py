#!/usr/bin/env python3
"""Draws an example: picture.py FOLDER .. writes FOLDER/picture.svg from array.pis and table.pic, which judge must not refuse.

On the left the tree, a row for each node: a continuation stands below its node, the children of par and choice stand below it, indented.
On the right what the table says. If there is a file `verdict` with a broken rule, its place is marked; if there is a table mended.pic, what
mend adds to a row stands after a +; if there is a file labels.txt (`name NUMBER WORD ..`, `node NUMBER WORDS`, `balance NUMBER WORDS`), its
words are shown. Needs nothing but Python 3.
"""
import os
import struct
import sys
from html import escape

KINDS = ["stop", "new", "par", "choice", "out", "in", "resource"]
COLOURS = ["#9aa5b1", "#9aa5b1", "#52606d", "#8e44ad", "#d97706", "#2563eb", "#0f766e"]
ROW, INDENT, TREE = 20, 18, 66  # a row's height, a level's width, where the tree begins
MONO, SANS = 7.9, 6.7  # widths of a character, rounded up
WIDTHS = {"code": MONO, "": SANS, "head": 7.6}
STYLE = """text { font: 12px "DejaVu Sans", Verdana, sans-serif; fill: #52606d }
.code { font: 13px "DejaVu Sans Mono", Menlo, Consolas, monospace; fill: #1f2933 }
.head { font-weight: bold; fill: #1f2933 }
.title { font-size: 15px; font-weight: bold; fill: #1f2933 }
.bad { fill: #b91c1c }
.number { text-anchor: end }
path { fill: none; stroke: #9aa5b1 }
.place { fill: #fee2e2 }
.flow { stroke: #b91c1c; stroke-width: 2 }"""


def read(folder, name, default=b""):
    path = os.path.join(folder, name)
    if not os.path.exists(path):
        return default
    with open(path, "rb") as file:
        return file.read()


def read_array(data):
    """The nodes as (kind, children, name, arguments), and N."""
    start, m, n = struct.unpack("<IHH", data[-16:-8])
    nodes = []
    for at in range(start, start + 16 * m, 16):
        kind, arity, left, right, name, _ = struct.unpack_from("<BBHHBB", data, at)
        children = [] if kind == 0 else [left, right] if kind in (2, 3) else [left]
        nodes.append((kind, children, name, list(data[at + 8:at + 8 + arity])))
    return nodes, n


def read_table(data, m, n):
    """Rows as sets of openings, balances as (bound, weights), claims as (agent, most, balance, set)."""
    _, balances, claims, k, q = struct.unpack("<IIIHH", data[-28:-12])
    rows = [{o for o in range(256) if data[32 * v + o // 8] >> o % 8 & 1} for v in range(n)]
    size = 4 + 2 * (m + m % 2)
    found = [struct.unpack_from(f"<I{m}H", data, balances + size * i) for i in range(k)]
    return rows, [(b[0], b[1:]) for b in found], [struct.unpack_from("<HHHH", data, claims + 8 * i) for i in range(q)]


def read_labels(text):
    labels = {"name": {}, "node": {}, "balance": {}}
    for line in text.splitlines():
        what, number, words = line.split(" ", 2)
        labels[what][int(number)] = words.split()[0] if what == "name" else words
    return labels


def text(x, y, words, style=""):
    return f'<text x="{x}" y="{y}" class="{style}" xml:space="preserve">{escape(words)}</text>'


class Picture:
    def __init__(self, folder):
        self.nodes, n = read_array(read(folder, "array.pis"))
        self.rows, self.balances, self.claims = read_table(read(folder, "table.pic"), len(self.nodes), n)
        mended = read(folder, "mended.pic")
        self.mended = read_table(mended, len(self.nodes), n)[0] if mended else self.rows
        self.labels = read_labels(read(folder, "labels.txt").decode())
        self.verdict = read(folder, "verdict").decode().strip()
        self.title = os.path.basename(os.path.abspath(folder))
        word, *figures = self.verdict.split() or [""]
        self.rule, *self.place = map(int, figures) if word == "rule" else [0]
        self.pair = self.place[:2] if self.rule in (3, 4) else []
        self.back, self.front, self.width = [], [], 0  # what lies behind the text, the text, and how far it goes

    def name(self, v):
        return self.labels["name"].get(v, str(v))

    def names(self, listed):
        return ", ".join(self.name(v) for v in listed)

    def form(self, i):
        kind, _, name, args = self.nodes[i]
        if kind in (0, 2, 3):
            return KINDS[kind]
        return f"{KINDS[kind]} {self.name(name)}" + (f" [{self.names(args)}]" if kind > 3 else "")

    def layout(self):
        """The nodes from the top down, each as (node, level, parent)."""
        found, waiting = [], [(0, 0, None)]
        while waiting:
            i, level, parent = waiting.pop()
            found.append((i, level, parent))
            children = self.nodes[i][1]
            waiting += [(c, level + (len(children) == 2), i) for c in reversed(children)]
        return found

    def draw_tree(self, top):
        found = self.layout()
        words = 16 + max(TREE + INDENT * level + 10 + MONO * len(self.form(i)) for i, level, _ in found)
        at = {}
        for line, (i, level, parent) in enumerate(found):
            x, y = at[i] = TREE + INDENT * level, top + ROW * line
            if parent is not None:
                self.back.append(f'<path d="M{at[parent][0]} {at[parent][1]}V{y}H{x}"/>')
            self.front.append(f'<circle cx="{x}" cy="{y}" r="4.5" fill="{COLOURS[self.nodes[i][0]]}"/>')
            label = self.labels["node"].get(i, "")
            self.front += [text(50, y + 4, str(i), "number"), text(x + 10, y + 4, self.form(i), "code"), text(round(words), y + 4, label)]
            self.width = max(self.width, words + SANS * len(label))
        for i in self.pair:
            self.back.insert(0, f'<rect class="place" x="28" y="{at[i][1] - 10}" width="{round(self.width) - 20}" height="{ROW}"/>')
        if self.pair:
            (_, p), (_, q) = (at[i] for i in self.pair)
            self.back.append(f'<path class="flow" d="M28 {q}H14V{p}H26M20 {p - 5}L26 {p}L20 {p + 5}"/>')
        return top + ROW * len(found)

    def table_lines(self):
        """What stands on the right: (words, style, whether it is marked)."""
        yield "flows: what each name may hold" + ", + what mend adds" * (self.mended != self.rows), "head", False
        bad = self.nodes[self.pair[0]][3][self.place[2] - 1] if self.rule == 3 else self.place[0] if self.rule == 1 else None
        words = self.labels["name"]
        wide = max(map(len, words.values()), default=-1) + 1
        for v, row in enumerate(self.rows):
            more = self.names(sorted(self.mended[v] - row))
            yield f"{v:>3} {words.get(v, ''):{wide}}{{{self.names(sorted(row))}}}" + f" + {{{more}}}" * bool(more), "code", v == bad
        worst = self.place[-1] if self.rule in (2, 4) else None
        for k, (bound, weights) in enumerate(self.balances):
            yield f"balance {k}, bound {bound}", "head", k == worst
            if k in self.labels["balance"]:
                yield self.labels["balance"][k], "", k == worst
            for weight in sorted(set(weights) - {0}):
                yield f"  weight {weight}: " + " ".join(str(i) for i, w in enumerate(weights) if w == weight), "code", k == worst
        if self.claims:
            yield "claims", "head", False
        for c, (agent, most, balance, of) in enumerate(self.claims):
            alike = [d for d, other in enumerate(self.claims) if of and other[3] == of] or [c]
            who = ", ".join(map(str, dict.fromkeys(self.claims[d][0] for d in alike)))
            if c == alike[0]:
                yield f"  {who} {'together ' * bool(of)}at most {most}, by balance {balance}", "code", self.rule == 5 and c == self.place[0]

    def draw_table(self, x, top):
        y, end = top, x
        for line, (words, style, marked) in enumerate(self.table_lines()):
            y += ROW // 2 if style == "head" and line else 0
            length = WIDTHS[style] * len(words)
            if marked:
                self.back.append(f'<rect class="place" x="{x - 6}" y="{y - 10}" width="{round(length) + 12}" height="{ROW}"/>')
            self.front.append(text(x, y + 4, words, style))
            y, end = y + ROW, max(end, x + length)
        return y, end

    def reason(self):
        """Why the pair of rule 3 is not accepted, in words."""
        if self.rule != 3:
            return ""
        p, q, n = self.place
        got, sent = self.nodes[p][3][n - 1], self.nodes[q][3][n - 1]
        lacking = self.names(sorted(self.rows[sent] - self.rows[got]))
        return f"{p} may receive from {q}, and argument {n} would put {lacking} into {self.name(got)}, whose row does not allow it"

    def svg(self):
        top = 84 if self.reason() else 62
        bottom = self.draw_tree(top)
        below, right = self.draw_table(round(self.width) + 36, top)
        head = [text(20, 32, self.title, "title"), text(round(44 + 9.9 * len(self.title)), 32, self.verdict, "code bad" if self.rule else "code")]
        head += [text(20, 54, self.reason(), "bad")] if self.reason() else []
        width, height = round(max(right, 20 + SANS * len(self.reason()))) + 20, max(bottom, below) + 8
        frame = f'<rect width="{width}" height="{height}" fill="#ffffff"/>'
        opening = f'<svg xmlns="http://www.w3.org/2000/svg" width="{width}" height="{height}" viewBox="0 0 {width} {height}">'
        return "\n".join([opening, f"<style>{STYLE}</style>", frame, *head, *self.back, *self.front, "</svg>", ""])


def main():
    for folder in sys.argv[1:]:
        drawing = Picture(folder).svg()
        with open(os.path.join(folder, "picture.svg"), "w") as out:
            out.write(drawing)


if __name__ == "__main__":
    main()
