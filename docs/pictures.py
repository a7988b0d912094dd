#!/usr/bin/env python3
"""Draws docs/layers.svg, docs/stored.svg and docs/square.svg; needs python3 alone. Run it again after a change."""
import os

HERE = os.path.dirname(os.path.abspath(__file__))
INK, PALE, LINE = "#1d2733", "#5b6875", "#8a96a3"
MEANING, SHARED, TREE, SEGMENT, OUTER, TRIED = "#f3ead2", "#e7e2f3", "#d9ecdc", "#d8e6f4", "#f6dcd0", "#eceff1"


class Picture:
    def __init__(self, width, height, title):
        self.size, self.title, self.parts = (width, height), title, []

    def box(self, x, y, w, h, fill="white", stroke=LINE, dash=False, round=3):
        self.parts.append('<rect x="%g" y="%g" width="%g" height="%g" rx="%g" fill="%s" stroke="%s"%s/>'
                          % (x, y, w, h, round, fill, stroke, ' stroke-dasharray="4 3"' if dash else ""))

    def text(self, x, y, s, size=13, anchor="middle", bold=False, fill=INK, mono=False):
        s = s.replace("&", "&amp;").replace("<", "&lt;").replace(">", "&gt;")
        self.parts.append('<text x="%g" y="%g" font-size="%g" text-anchor="%s" fill="%s"%s%s>%s</text>'
                          % (x, y, size, anchor, fill, ' font-weight="bold"' if bold else "",
                             ' font-family="monospace"' if mono else "", s))

    def arrow(self, path, stroke=INK, dash=False, head=True):
        self.parts.append('<path d="%s" fill="none" stroke="%s" stroke-width="1.4"%s%s/>'
                          % (path, stroke, ' stroke-dasharray="4 3"' if dash else "",
                             ' marker-end="url(#head)"' if head else ""))

    def save(self, name):
        w, h = self.size
        with open(os.path.join(HERE, name), "w", encoding="utf-8") as file:
            file.write('<svg xmlns="http://www.w3.org/2000/svg" viewBox="0 0 %d %d" width="%d" height="%d" '
                       'font-family="sans-serif">\n<title>%s</title>\n' % (w, h, w, h, self.title))
            file.write('<defs><marker id="head" viewBox="0 0 10 10" refX="9" refY="5" markerWidth="8" markerHeight="8" '
                       'orient="auto-start-reverse"><path d="M0 1 L9 5 L0 9 z" fill="%s"/></marker></defs>\n' % INK)
            file.write('<rect width="%d" height="%d" fill="white"/>\n' % (w, h))
            file.write("\n".join(self.parts) + "\n</svg>\n")


# ---- the layers: a crate uses only crates that lie below it

# columns, as the left and right end of a box
TEXT, LEFT, RIGHT, SIDE, BOTH, ALL = (160, 380), (390, 700), (710, 1020), (1030, 1200), (390, 1020), (390, 1200)

# row from the bottom, rows high, columns, colour, name, what it holds
CRATES = [
    (0, 1, ALL, MEANING, "words", "lists, counted tests, words by place; fill and zero test"),
    (0, 1, TEXT, OUTER, "text", "numbers, fields, lines; bursts"),
    (1, 1, TEXT, OUTER, "word_bytes", "words as bytes"),
    (10, 1, TEXT, OUTER, "session", "its meaning, its bytes, its calls"),
    (1, 1, ALL, MEANING, "ledger", "records, units, validity, lowest fit, free runs"),
    (2, 1, ALL, MEANING, "stored_forms", "what each engine stores of a ledger: tree; control words, index"),
    (3, 1, ALL, MEANING, "calls", "pool memory, numbers, gate, step; the three demands"),
    (4, 1, SIDE, TRIED, "worked_cases", "T1 to T14, sequences"),
    (5, 1, SIDE, TRIED, "testing", "scripts, plain ledger"),
    (4, 1, BOTH, SHARED, "record_table", "records entered and searched"),
    (5, 1, BOTH, SHARED, "call_parts", "answers, named records, lists; old_tables copies older tables"),
    (6, 1, LEFT, TREE, "tree_nodes", "forms; nodes of the free tree in the arena"),
    (7, 1, (390, 540), TREE, "free_tree", "fit, insert, delete"),
    (8, 2, (390, 540), TREE, "free_blocks", "cells taken, given back"),
    (7, 3, (550, 700), TREE, "tree_check", "the head; one check"),
    (10, 1, LEFT, TREE, "tree_requests", "grant, release, trim, lists on a sound pool"),
    (11, 1, LEFT, TREE, "tree_pool", "the seven calls"),
    (6, 1, RIGHT, SEGMENT, "segment_index", "control words, tree of the index"),
    (7, 1, RIGHT, SEGMENT, "segment_blocks", "scans and upkeep"),
    (8, 1, RIGHT, SEGMENT, "segment_cores", "search, grant, release, trim, format of the arena"),
    (9, 1, RIGHT, SEGMENT, "segment_check", "one exact check of blocks and index"),
    (10, 1, RIGHT, SEGMENT, "segment_requests", "grant, release, trim, lists on a sound pool"),
    (11, 1, RIGHT, SEGMENT, "segment_pool", "the seven calls"),
    (12, 1, (160, 485), OUTER, "pool_text", "lines served as far as there is room"),
    (13, 1, (160, 485), OUTER, "pool_bursts", "start, burst, end on a byte buffer"),
    (14, 1, (160, 317), OUTER, "text_session", "between two files"),
    (14, 1, (327, 485), TRIED, "burst_runs", "cuttings"),
    (15, 1, (160, 255), OUTER, "pool", "the program"),
    (15, 1, (265, 370), TRIED, "text_cases", "its cases"),
    (15, 1, (380, 485), TRIED, "burst_cases", "the calls"),
    (12, 1, (495, 635), TRIED, "tree_cases", "and tree_trims"),
    (13, 1, (495, 635), TRIED, "tree_traffic", "random calls"),
    (14, 1, (495, 635), TRIED, "insert_counts", "links stored"),
    (14, 1, (645, 840), OUTER, "pool_c", "all calls for C"),
    (12, 1, (850, 1020), TRIED, "segment_cases", "worked cases"),
    (13, 1, (850, 1020), TRIED, "segment_traffic", "random calls"),
]
BANDS = [(0, 4, "what it means"), (4, 2, "shared code"), (6, 5, "parts of each engine"), (11, 1, "the pools"),
         (12, 4, "for C, as text; tests")]


def layers():
    high, gap, rows = 46, 6, 16
    p = Picture(1220, 30 + rows * (high + gap) + 30, "Crates, bottom to top")

    def top(row, n):
        return 20 + (rows - row - n) * (high + gap)
    for row, n, label in BANDS:
        y, h = top(row, n), n * (high + gap) - gap
        p.arrow("M 140 %g L 146 %g L 146 %g L 140 %g" % (y, y, y + h, y + h), stroke=LINE, head=False)
        words = label.split(" ")
        half = [label] if len(label) < 14 else [" ".join(words[:2]), " ".join(words[2:])]
        for i, line in enumerate(half):
            p.text(132, y + h / 2 + 4 + 17 * (i - (len(half) - 1) / 2), line, 13, "end", fill=PALE)
    for row, n, (left, right), fill, name, what in CRATES:
        y, h = top(row, n), n * (high + gap) - gap
        p.box(left, y, right - left, h, fill)
        p.text((left + right) / 2, y + 19, name, 14, bold=True)
        p.text((left + right) / 2, y + 36, what, 12, fill=PALE)
    p.text(160, p.size[1] - 18, "A crate uses only crates that lie below it. Tree and segment columns know nothing of each other. "
           "Grey: programs and proofs that try the rest.", 12.5, "start", fill=PALE)
    p.save("layers.svg")


# ---- arena and table of the tree pool after T8 of the bench sheet

WORDS, ROOM, NEXT = 24, 4, 5
RECORDS = {0: (4, 16, 7), 1: (2, 6, 4)}     # by slot: ticket, address, words


def free_runs():
    held = {c for _, a, n in RECORDS.values() for c in range(a // 2, a // 2 + (n + 1) // 2)}
    runs = []
    for c in range(WORDS // 2):
        if c not in held:
            if runs and sum(runs[-1]) == c:
                runs[-1] = (runs[-1][0], runs[-1][1] + 1)
            else:
                runs.append((c, 1))
    return runs


def tree(runs):
    """The longest on top, of equal ones the lowest; left and right of it by address."""
    if not runs:
        return None
    top = max(runs, key=lambda r: (r[1], -r[0]))
    i = runs.index(top)
    return tree(runs[:i]), top, tree(runs[i + 1:])


def link(t):
    return t[1][0] + 1 if t else 0


def nodes(t):
    return nodes(t[0]) + [t] + nodes(t[2]) if t else []


def arena():
    """Word by word; None where a holder's words are."""
    a = [0] * WORDS
    for t in nodes(tree(free_runs())):
        c, n = t[1]
        a[2 * c], a[2 * c + 1] = n, link(t[0]) + 65536 * link(t[2])
    for _, at, n in RECORDS.values():
        for i in range(at, at + 2 * ((n + 1) // 2)):
            a[i] = None
    return a


def stored():
    runs, words = free_runs(), arena()
    root = link(tree(runs))
    # what the bench sheet says of T8
    assert runs == [(0, 3), (5, 3)] and root == 1
    assert words[0] == 3 and words[1] == 393216 and words[10] == 3 and words[11] == 0
    wide, left, y = 48, 40, 150
    p = Picture(left * 2 + WORDS * wide, 440, "Tree pool of 24 words and 4 records after T8: arena, head and table")

    def x(word):
        return left + word * wide
    p.text(left, 28, "Tree pool of 24 words and 4 records after T8 of the bench sheet", 15, "start", True)

    # head, and the links, above the cells
    p.box(left, 48, 280, 30)
    p.text(left + 140, 68, "head: root link %d, next ticket %d, form 1" % (root, NEXT), 13)
    p.arrow("M %g 78 L %g %g" % (x(2 * (root - 1) + 1), x(2 * (root - 1) + 1), y - 22))
    for t in nodes(tree(runs)):
        for son, side in (t[0], "left"), (t[2], "right"):
            if son:
                a, b = x(2 * t[1][0] + 1.5), x(2 * son[1][0] + 1)
                p.arrow("M %g %g C %g %g %g %g %g %g" % (a, y - 22, a, y - 75, b, y - 75, b, y - 22))
                p.text((a + b) / 2 + 100, y - 66, "%s link %d: cell %d" % (side, link(son), link(son) - 1), 13)

    # the blocks
    for c, n in runs:
        p.box(x(2 * c), y, 2 * n * wide, 48, TREE)
        p.text(x(2 * c + n), y + 98, "free, %d cells" % n, 13)
    for slot, (ticket, at, n) in RECORDS.items():
        whole = 2 * ((n + 1) // 2)
        p.box(x(at), y, whole * wide, 48, OUTER)
        p.text(x(at + whole / 2), y + 98, "ticket %d, %d words%s" % (ticket, n, "" if whole == n else " and a spare one"), 13)
    for i, w in enumerate(words):
        p.arrow("M %g %g L %g %g" % (x(i), y, x(i), y + 48), stroke=LINE, head=False)
        if w is not None:
            p.text(x(i + 0.5), y + 29, str(w), 13 if w < 100000 else 11, bold=w != 0, fill=INK if w else PALE)
        else:
            p.text(x(i + 0.5), y + 29, "held", 11, fill=PALE)
        p.text(x(i + 0.5), y + 64, str(i), 11, fill=PALE)
    p.box(x(0), y, WORDS * wide, 48, "none", INK)
    for c in range(WORDS // 2):
        p.text(x(2 * c + 1), y - 7, "cell %d" % c, 11, fill=PALE)
    p.text(x(0), y + 80, "word", 11, "start", fill=PALE)

    # the table
    ty, tw = y + 190, 44
    p.text(left + ROOM * (4 * tw + 20), ty + 21, "table: ticket, address, words, party of each record", 13, "start")
    for slot in range(ROOM):
        tx = left + slot * (4 * tw + 20)
        row = RECORDS[slot] + (1,) if slot in RECORDS else (0, 0, 0, 0)
        p.box(tx, ty, 4 * tw, 32, OUTER if slot in RECORDS else "white")
        for i, w in enumerate(row):
            p.text(tx + (i + 0.5) * tw, ty + 21, str(w), 13, bold=w != 0, fill=INK if w else PALE)
            if i:
                p.arrow("M %g %g L %g %g" % (tx + i * tw, ty, tx + i * tw, ty + 32), stroke=LINE, head=False)
        p.text(tx + 2 * tw, ty + 50, "slot %d" % slot + ("" if slot in RECORDS else ", empty"), 12, fill=PALE)
        if slot in RECORDS:
            a, b = tx + 1.5 * tw, x(row[1] + 0.5)
            p.arrow("M %g %g C %g %g %g %g %g %g" % (a, ty, a, ty - 60, b, ty - 40, b, y + 70), dash=True)
    p.text(left, ty + 82, "A free block's first word is its length in cells, the second left link + 65,536 times right link; "
           "393,216 is 65,536 times 6. A link is cell number + 1.", 12.5, "start", fill=PALE)
    p.save("stored.svg")


# ---- the square: what the code does to memory is what the rules do to the ledger

def square():
    p = Picture(1000, 500, "The square: code and step, ledger and stored form")
    wide, high, xs, ys = 270, 78, (40, 690), (40, 240)

    def corner(i, j, fill, lines):
        p.box(xs[i], ys[j], wide, high, fill)
        for k, line in enumerate(lines):
            p.text(xs[i] + wide / 2, ys[j] + 25 + 19 * k, line, 14 if k == 0 else 12, bold=k == 0, fill=INK if k == 0 else PALE)
    corner(0, 0, MEANING, ["ledger L, next ticket n", "records in slots;", "free units follow from them"])
    corner(1, 0, MEANING, ["ledger L′, next ticket n′", "one record more, one less,", "one shorter, or the same"])
    corner(0, 1, SHARED, ["pool p", "= store E L n p: the stored form", "over what holders wrote"])
    corner(1, 1, SHARED, ["pool p′", "= store E L′ n′ ..", "granted words read zero"])
    a, b = xs[0] + wide, xs[1]
    p.arrow("M %d %d L %d %d" % (a + 8, ys[0] + high / 2, b - 8, ys[0] + high / 2))
    p.text(500, ys[0] + 24, "the rules", 14, bold=True)
    p.text(500, ys[0] + 58, "grant: enter at the lowest fit", 12, fill=PALE)
    p.text(500, ys[0] + 75, "release, trim: settle by the plan", 12, fill=PALE)
    p.text(500, ys[0] + 92, "refused: nothing", 12, fill=PALE)
    p.arrow("M %d %d L %d %d" % (a + 8, ys[1] + high / 2, b - 8, ys[1] + high / 2))
    p.text(500, ys[1] + 26, "step E call", 14, bold=True)
    p.text(500, ys[1] + 58, "gate, 11, 8, 1, 12 or 0, then the call's acts", 12, fill=PALE)
    p.text(500, ys[1] + 75, "1: p is the stored form of no ledger", 12, fill=PALE)
    for i, side in (0, 1), (1, -1):
        m = xs[i] + wide / 2
        p.arrow("M %d %d L %d %d" % (m - 12, ys[0] + high + 8, m - 12, ys[1] - 8))
        p.arrow("M %d %d L %d %d" % (m + 12, ys[1] - 8, m + 12, ys[0] + high + 8))
        p.text(m - 20, 184, "store: stored form", 12.5, "end")
        p.text(m + 20, 184, "ledger: by the table", 12.5, "start")

    # the code, which is proved equal to step
    y = 405
    for i, lines in (0, ["lent memory", "head, arena, table, index"]), (1, ["handed back and left", "answer, head, arena, table, index"]):
        p.box(xs[i], y, wide, 58, OUTER)
        p.text(xs[i] + wide / 2, y + 24, lines[0], 14, bold=True)
        p.text(xs[i] + wide / 2, y + 43, lines[1], 12, fill=PALE)
        p.text(xs[i] + wide / 2, (ys[1] + high + y) / 2 + 7, "≡", 22)
    p.arrow("M %d %d L %d %d" % (a + 8, y + 29, b - 8, y + 29))
    p.text(500, y + 18, "the code", 14, bold=True)
    p.text(500, y + 49, "handed r .. ≡ resultOf (step E call ..)", 12, fill=PALE)
    p.text(500, y + 66, "proved on all inputs, refused ones too", 12, fill=PALE)
    p.save("square.svg")


layers()
stored()
square()
