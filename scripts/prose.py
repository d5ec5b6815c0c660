#!/usr/bin/env python3
"""Counts idioms that a reader stumbles over, in pages and in comments.

    scripts/prose.py            a line for each idiom: how often pages, comments of code and
                                comments of specs and proofs have it
    scripts/prose.py IDIOM ..   the lines that have these, by the names of that table

It runs at the top of the repository. Not each line that it lists is wrong: `stand` is also what a
sum does in a column, and `where` may speak of a place. Doc comments, ghost comments and `--` lines
are comments; code, and what stands in backticks or quotation marks, is not looked at.
"""
import re
import subprocess
import sys

IDIOMS = {
    "alone": r"\w alone\b",
    "but for": r"\bbut for\b",
    "want of": r"\bwant of\b",
    "so many": r"\b(so|as) many\b(?! as)",
    "stand": r"\b(stands?|stood|standing)\b",
    "tell": r"\b(tells?|told)\b",
    "answer": r"\banswers\b",
    "where": r"\b(where|Where) (no|none|it|its|the|a|an|there|that|this|one|all|each|nothing)\b",
    "front": r"\b(a|the) front of\b",
}
PLACES = {"pages": (".md",), "code": (".rt",), "specs": (".antt",)}
QUOTED = re.compile(r"`[^`]*`|\"[^\"]*\"|“[^”]*”")
COMMENT = {".rt": re.compile(r"^\s*//[/!]?(.*)|.*\s//(?!/)(.*)"), ".antt": re.compile(r"^\s*--(.*)|.*\s-- (.*)")}


def texts(file, ending):
    """Yields the number and the prose of each line that has some."""
    with open(file, encoding="utf-8") as lines:
        for number, line in enumerate(lines, 1):
            if ending in COMMENT:
                found = COMMENT[ending].match(line)
                line = (found.group(1) or found.group(2) or "") if found else ""
            yield number, QUOTED.sub("", line)


def lines_with(idiom, endings):
    """Yields the places, and the lines, that have an idiom."""
    files = subprocess.run(["git", "ls-files"], capture_output=True, text=True, check=True).stdout
    for file in files.split("\n"):
        ending = next((it for it in endings if file.endswith(it)), None)
        for number, text in texts(file, ending) if ending else ():
            if re.search(IDIOMS[idiom], text):
                yield f"{file}:{number}", text.strip()


def main(asked):
    for idiom in asked:
        for place, text in lines_with(idiom, (".md", ".rt", ".antt")):
            print(f"{place}: {text}")
    if not asked:
        print(f"{'':10}" + "".join(f"{it:>8}" for it in PLACES))
        for idiom in IDIOMS:
            counts = (sum(1 for _ in lines_with(idiom, it)) for it in PLACES.values())
            print(f"{idiom:10}" + "".join(f"{it:8}" for it in counts))


main(sys.argv[1:])
