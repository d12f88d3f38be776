#!/usr/bin/env python3
"""Brings this repository's own names to today's spelling, after the kit's port.py: words in snake case, a dash only between two names.

usage: tools/respell.py [FOLDER]

The table is respelled.tsv beside this file: old, a tab, new; what port.py itself respelled stands in respelled_by_port.tsv, for pages and edits.
A name of the source (src/), of the kit or behind a dot of a generated record
stays. It turns .antt files, clauses and comments of .rt files, .edit files, and code spans of .md files. Run it once.
"""
import os
import re
import sys

HERE = os.path.dirname(os.path.realpath(__file__))
TOKEN = re.compile(r"--[^\n]*|\"(?:[^\"\\\n]|\\.)*\"|[^\s(){}.;,@\"«»`]+")
PART = re.compile(r"[A-Za-z0-9_'◌-]+")
# A lemma or a local name that would now have the name of a definition in its own file.
LOCAL = {
    "crates/npy/specs/SpelledAccepted.antt": {"rows_end": "rows_end_lem"},
    "crates/trace/proofs/ThreePasses.antt": {"lines_fit": "lines_fit_lem"},
}

# Fields of this repository's own records.
with open(os.path.join(HERE, "respelled_fields.txt"), encoding="utf-8") as it:
    FIELDS = set(it.read().split())


def read_table(name):
    with open(os.path.join(HERE, name), encoding="utf-8") as it:
        return dict(line.rstrip("\n").split("\t") for line in it)


def turned(text, table, own):
    """Each word of the table, but one with a dash right behind the dot of a value, as of `c` in `c.is-near`."""

    def word(m):
        w = m.group(0)
        if w.startswith('"'):
            return w
        if w.startswith("--"):
            return "--" + PART.sub(lambda k: own.get(k.group(0), table.get(k.group(0), k.group(0))), w[2:])
        new = own.get(w, table.get(w))
        if new is None:
            return w
        if "-" in w and m.start() and text[m.start() - 1] == ".":
            head = re.search(r"[^\s(){};,@\"«»]*\.$", text[: m.start()]).group(0)
            if not head[:1].isupper() and w not in FIELDS:
                return w
        return new

    return TOKEN.sub(word, text)


def turned_words(text, table):
    return PART.sub(lambda m: table.get(m.group(0), m.group(0)), text)


def turned_code(text, table):
    """All but the strings of the source."""
    return re.sub(r'"(?:[^"\\\n]|\\.)*"|[^"]+|"', lambda m: m.group(0) if m.group(0)[:1] == '"' else turned_words(m.group(0), table), text)


def turned_spans(text, table):
    """Code spans and fenced blocks alone."""
    return re.sub(r"(?ms)^```.*?^```|`[^`\n]+(?:\n[^`\n]+)?`", lambda m: turned_words(m.group(0), table), text)


def main(root):
    table = read_table("respelled.tsv")
    with_ports = {**read_table("respelled_by_port.tsv"), **table}
    for folder, folders, files in os.walk(root):
        folders[:] = sorted(f for f in folders if f not in (".git", "out", "target", "build", "port-tools"))
        for name in sorted(files):
            path = os.path.join(folder, name)
            short = os.path.relpath(path, root)
            kind = os.path.splitext(name)[1]
            if os.path.islink(path) or short.startswith("tools/"):
                continue
            if kind not in (".antt", ".rt", ".edit", ".md"):
                continue
            with open(path, encoding="utf-8", newline="") as it:
                text = it.read()
            if kind == ".antt":
                new = turned(text, table, LOCAL.get(short, {}))
            elif kind == ".md":
                new = turned_spans(text, with_ports)
            elif kind == ".rt":
                new = turned_code(text, table)
            else:
                new = turned_words(text, with_ports)
            if new != text:
                with open(path, "w", encoding="utf-8", newline="") as it:
                    it.write(new)
                print(short)


if __name__ == "__main__":
    main(os.path.abspath(sys.argv[1] if len(sys.argv) > 1 else os.path.join(HERE, "..")))
