#!/usr/bin/env python3
"""Says of each must-fail edit, edits/CRATE/*.edit and crates/CRATE/must-fail/*.edit, whether it still fits its crate's text: whether each `old:` text
stands exactly once in its file, with the pairs before it applied. Status 1 where one does not, or where an edit changes nothing. Edits of crates that
crates.txt does not list are only counted.

  tools/edits_fit.py [--all] [CRATE...]     --all names those that fit too
"""

import pathlib
import sys

ROOT = pathlib.Path(__file__).resolve().parent.parent


def fault(edit, crate):
    """What keeps an edit from being applied, or None. The form is rt's: lines `file: `, and pairs of `old: ` and `new:`; no other line is read."""
    file, old, pairs, texts, was = None, None, 0, {}, {}
    for line in edit.read_text(encoding="utf-8").split("\n"):
        if line.startswith("file: "):
            file = line[len("file: ") :].strip()
        elif line.startswith("old: "):
            old = line[len("old: ") :]
        elif line.startswith("new:"):
            new = line[len("new:") :].removeprefix(" ")
            if not file or not old:
                return "a `new:` line stands before any `file:` or `old:` line"
            if file not in texts:
                path = crate / file
                if not path.is_file():
                    return f"there is no file {file}"
                texts[file] = was[file] = path.read_text(encoding="utf-8")
            found = texts[file].count(old)
            if found != 1:
                return f"in {file} {found} times, and not once: {old}"
            texts[file] = texts[file].replace(old, new)
            old, pairs = None, pairs + 1
        elif line.strip() and not line.startswith(("#", "--", "//")):
            return f"a line that is not read: {line}"
    if not pairs:
        return "it has no pair of `old:` and `new:`"
    return None if texts != was else "it changes nothing"


def listed():
    lines = (line.partition("#")[0].partition(":")[0].split() for line in (ROOT / "crates.txt").read_text(encoding="utf-8").splitlines())
    return {words[0] for words in lines if words}


def main():
    words = sys.argv[1:]
    shows_all = "--all" in words
    names = [word for word in words if word != "--all"]
    edits = sorted([*ROOT.glob("edits/*/*.edit"), *ROOT.glob("crates/*/must-fail/*.edit")])
    crates, tried, unfit, unlisted = listed(), 0, 0, 0
    for edit in edits:
        crate = edit.parent.name if edit.parent.parent.name == "edits" else edit.parent.parent.name
        if names and crate not in names:
            continue
        if crate not in crates:
            unlisted += 1
            continue
        why = fault(edit, ROOT / "crates" / crate)
        tried, unfit = tried + 1, unfit + bool(why)
        if why or shows_all:
            print(f"{edit.relative_to(ROOT)}: {why or 'fits'}")
    others = f"; {unlisted} are of crates that crates.txt does not list" if unlisted else ""
    print(f"edits_fit: {tried} edits, {unfit} of them do not fit{others}")
    sys.exit(1 if unfit else 0)


main()
