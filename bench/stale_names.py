#!/usr/bin/env python3
"""Lists the names in backquotes of README.md and docs/ that no source of this repository has.

A name is a word of letters, digits and `_`, with parts after `::` or `.`; of what is called, the part before `(`. Commands, bytes, lines of
captures and names of other projects are no names of a source: what is listed is to be looked at, not an error. Run it in the repository's folder:

    python3 bench/stale_names.py
"""

import re
import subprocess
import sys
from pathlib import Path

NAME = re.compile(r"[A-Za-z_][A-Za-z0-9_]*(?:(?:::|\.)[A-Za-z_][A-Za-z0-9_]*)*")
SOURCES = ("crates", "bench", "examples", "foreign", "crates.txt", "HANDLES", ".ci", ".gitignore")


def tracked():
    """The files that the repository has."""
    said = subprocess.run(["git", "ls-files"], check=True, capture_output=True, text=True)
    return [Path(line) for line in said.stdout.splitlines()]


def words_of_sources(files):
    """Every word of a source, and every part of a source's path."""
    words = set()
    for file in files:
        if not str(file).startswith(SOURCES):
            continue
        for part in file.parts:
            words.update((part, *part.split(".")))
        try:
            words.update(re.findall(r"[A-Za-z_][A-Za-z0-9_]*", file.read_text(encoding="utf-8")))
        except UnicodeDecodeError:
            pass
    return words


def names_of(page):
    """The names in backquotes of a page, with the number of the line of each; blocks between fences are left out."""
    fenced = False
    for number, line in enumerate(page.read_text(encoding="utf-8").splitlines(), 1):
        if line.startswith("```"):
            fenced = not fenced
        elif not fenced:
            for text in re.findall(r"`([^`]+)`", line):
                found = NAME.fullmatch(text.split("(")[0])
                if found:
                    yield number, found.group()


def main():
    files = tracked()
    words = words_of_sources(files)
    pages = [file for file in files if file.name == "README.md" and len(file.parts) == 1 or file.parts[0] == "docs"]
    stale = 0
    for page in pages:
        for number, name in names_of(page):
            lacking = [part for part in re.split(r"::|\.", name) if part not in words]
            if lacking:
                stale += 1
                print(f"{page}:{number}: {name}")
    print(f"{stale} names that no source has")
    return 1 if stale else 0


if __name__ == "__main__":
    sys.exit(main())
