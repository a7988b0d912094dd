#!/usr/bin/env python3
"""Brings must-fail edits of definitions to today's spelling, once, after respell.py: run at the top.

An edit whose old text no longer stands once in its file is respelled, old and new text alike: names in snake case, fields
written tight. It is written back only if the old text then stands once. Prints each, and those that are left.
"""
import glob
import re

CAMEL = re.compile(r"(?<![\w'])[a-z][a-z0-9_]*[A-Z][\w']*")
WORDS = {"getD": "get_or", "negℤ": "neg_ℤ"}


def snake(m):
    w = m.group(0)
    return WORDS.get(w) or re.sub(r"([a-z0-9])([A-Z])", r"\1_\2", w).lower()


def respelled(text):
    text = re.sub("negℤ", "neg_ℤ", CAMEL.sub(snake, text))
    text = re.sub(r"(?<=[\w)]) \.(?=[a-z])", ".", text)
    return re.sub(r"\(([\w'ρ]+(?:\.\w+)+)\)", r"\1", text)


def main():
    for e in sorted(glob.glob("crates/*/must-fail/*.edit")):
        crate = e.split("/")[1]
        with open(e, encoding="utf-8") as h:
            lines = h.read().split("\n")
        name, text, out, fits = None, "", [], True
        for line in lines:
            if line.startswith("file: "):
                name = line[6:].strip()
                with open(f"crates/{crate}/{name}", encoding="utf-8") as h:
                    text = h.read()
            elif line.startswith("old: "):
                old = line[5:]
                if text.count(old) != 1:
                    old = respelled(old)
                    fits = fits and text.count(old) == 1
                    line = "old: " + old
                    again = True
                else:
                    again = False
                kept = old
            elif line.startswith("new: "):
                new = respelled(line[5:]) if again else line[5:]
                text = text.replace(kept, new)
                line = "new: " + new
            out.append(line)
        if not fits:
            print("left:", e)
        elif out != lines:
            with open(e, "w", encoding="utf-8") as h:
                h.write("\n".join(out))
            print(e)


if __name__ == "__main__":
    main()
