#!/usr/bin/env python3
"""page_words.py

Each text of the crates in CRATES that a definition cites by its name must stand, byte for byte, on a page that a case in cases/study/
expects. A definition that cites a constant of the code says that the page has this text, and not what the text says: these pages,
which a person has read, do. The exit status is 0 only if each text is found. It runs no program."""
import glob
import os
import re
import sys

TOP = os.path.dirname(os.path.dirname(os.path.abspath(__file__)))
CRATES = ("page_text", "page_report")
PAGES = os.path.join(TOP, "cases", "study", "page-*", "stdout")
CONSTANT = re.compile(r'\bconst ([A-Z][A-Z0-9_]*): &(?:\'static )?\[u8\] =\s*b"((?:[^"\\]|\\.)*)"', re.S)
CITED = re.compile(r"\b([A-Z][A-Z0-9_]*)\.now\b")
ESCAPES = {"n": "\n", "t": "\t", "r": "\r", "0": "\0", "\\": "\\", '"': '"', "'": "'"}


def read(path):
    with open(path, encoding="utf-8") as file:
        return file.read()


def bytes_of(literal):
    """What a byte string of the source is."""
    joined = re.sub(r"\\\n\s*", "", literal)
    return re.sub(r"\\(x[0-9a-fA-F]{2}|.)", lambda it: chr(int(it[1][1:], 16)) if it[1][0] == "x" else ESCAPES[it[1]], joined).encode("latin-1")


def files_of(crate, part, ending):
    return glob.glob(os.path.join(TOP, "crates", crate, part, "**", "*" + ending), recursive=True)


def main():
    pages = [open(path, "rb").read() for path in sorted(glob.glob(PAGES))]
    texts = {name: bytes_of(text) for crate in CRATES for path in files_of(crate, "src", ".rt") for name, text in CONSTANT.findall(read(path))}
    cited = sorted({name for crate in CRATES for path in files_of(crate, "specs", ".antt") for name in CITED.findall(read(path))})
    missing = [name for name in cited if name in texts and not any(texts[name] in page for page in pages)]
    unread = [name for name in cited if name not in texts]
    for name in missing:
        print(f"{name}: on no page of a case: {texts[name][:80]!r}")
    for name in unread:
        print(f"{name}: cited by a definition, and no text of these crates")
    print(f"page_words: {len(cited)} texts, {len(missing)} on no page, {len(unread)} not found")
    return 0 if cited and not missing and not unread else 1


if __name__ == "__main__":
    sys.exit(main())
