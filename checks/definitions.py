#!/usr/bin/env python3
"""definitions.py [TOP]

Compares the pages in docs/definitions/ with the specs and sources below TOP, which is this repository if you name none.
It needs no toolchain.

Some page must name, in backticks, each definition that a public contract cites. A public contract is what a caller in
another crate can read: a clause of a function, a method or a member of a trait, or the value of a model. The lines
`ghost use` of a source say which of its names are the repository's definitions. Crates tests_* and bench_* have no such
callers. If several cited definitions share a name, the page writes the crate or the module before it, as `crate::name`.

Each name in backticks on a page must exist: as a definition, a part of one, an item of a source, a crate, a name that
the repository takes from the kit, a case, a file, a card, or one of `OTHER_WORDS`.

Prints each missing and each foreign name with its place. The exit status is 0 only if there is none.
"""
import os
import re
import sys
from collections import Counter, namedtuple

TOP = os.path.dirname(os.path.dirname(os.path.abspath(__file__)))
PAGES = os.path.join("docs", "definitions")
# Crates whose contracts have no readers: tests and workloads.
APART = ("tests_", "bench_")
# What else the pages show in backticks: words of texts and files that are no names in a source.
OTHER_WORDS = frozenset("abc abcd bit clap d end good hear match named notheld on Pass review revoke say".split())
# Cards and suits of a hand, letters of suits and seats.
CARDS = re.compile(r"[SHDC]?[2-9TJQKA]+|[SHDCNEW]")
NAME = r"[A-Za-z_][A-Za-z0-9_]*(?:-[A-Za-z0-9_]+)*"

Definition = namedtuple("Definition", "crate module name")


def files_of(top, crate, folder, ending):
    """The crate's files in one of its folders, named from the top."""
    found = []
    for place, _, names in os.walk(os.path.join(top, "crates", crate, folder)):
        found += [os.path.relpath(os.path.join(place, name), top) for name in names if name.endswith(ending)]
    return sorted(found)


def text_of(top, path):
    with open(os.path.join(top, path), encoding="utf-8") as file:
        return file.read()


def place_of(path, text, at):
    return f"{path}:{text.count(chr(10), 0, at) + 1}"


# ---- specs

SPEC_HEAD = re.compile(rf" *(?:(?:abbrev|unfoldable|opaque) +)?(?:pub +)(?:record +|data +)?({NAME})")
BLOCK_HEAD = re.compile(r" *(?:pub +)?(record|data)\b.*\bwhere$")
PART = re.compile(rf" *(?:pub +)?((?:{NAME} +)+):")


def read_spec(text):
    """The names that a spec defines, including constructors, with their lines; and the names of fields."""
    defined, fields = [], set()
    block, block_indent = None, 0
    for number, line in enumerate(text.split("\n"), 1):
        line = line.split("--")[0].rstrip()
        if not line:
            continue
        indent = len(line) - len(line.lstrip())
        if block and indent > block_indent:
            part = PART.match(line)
            if part and block == "data":
                defined += [(name, number) for name in part.group(1).split()]
            elif part:
                fields.update(part.group(1).split())
            continue
        opens = BLOCK_HEAD.match(line)
        block, block_indent = (opens.group(1), indent) if opens else (None, 0)
        head = SPEC_HEAD.match(line)
        if head and head.group(1) not in ("mod", "open", "use"):
            defined.append((head.group(1), number))
    return defined, fields


def read_specs(top):
    """The place of each definition, the names of all fields, and the names from the kit."""
    places, fields, kit = {}, set(), set()
    crates = sorted(os.listdir(os.path.join(top, "crates")))
    for crate, path in [(crate, path) for crate in crates for path in files_of(top, crate, "specs", ".antt")]:
        text = text_of(top, path)
        module = path.split(os.sep + "specs" + os.sep)[1][:-len(".antt")].replace(os.sep, ".")
        defined, more = read_spec(text)
        fields |= more
        places.update({Definition(crate, module, name): f"{path}:{line}" for name, line in defined})
        kit.update(there for _, origin, _, there in uses_of(text) if origin not in crates)
    return places, fields, kit


# ---- sources

USE = re.compile(r"\buse Rattle\.([a-z0-9_]+)\.([A-Za-z0-9_.]+?)\.\{([^}]*)\}")
UNREAD = re.compile(r"""//[^\n]*|/\*.*?\*/|"(?:\\.|[^"\\])*"|b?'(?:\\[^'\n]+|[^'\\\n])'""", re.DOTALL)
CLAUSE = re.compile(r"\b(?:requires|ensures)(?:\s+\w+)?\s*$")
ITEM = re.compile(
    r"(?:(pub)(\([^)]*\))?\s+)?(?:(?:unsafe|async)\s+)?"
    rf"(const fn|fn|impl|trait|mod|struct|enum|const|static|type|ghost|use)\b\s*({NAME})?")
MEMBER = re.compile(rf"(?:^|[,{{])\s*(?:pub\s+)?({NAME})\s*(?=[,:({{]|$)", re.MULTILINE)
ATTRIBUTE = re.compile(r"#!?\[(?:[^\[\]]|\[[^\]]*\])*\]")

Item = namedtuple("Item", "public kind name head clauses body")


def uses_of(text):
    """The names that `ghost use` lines import: the name here, its crate and module, and its name there."""
    for crate, module, names in USE.findall(text):
        for one in names.split(","):
            there, _, here = (part.strip() for part in one.strip().partition(" as "))
            if there:
                yield here or there, crate, module, there


def blank(match):
    return re.sub(r"[^\n]", " ", match.group())


def closing(text, at):
    """The place of the bracket that closes the one at this place."""
    depth = 0
    for place in range(at, len(text)):
        depth += (text[place] in "([{") - (text[place] in ")]}")
        if depth == 0:
            return place
    raise ValueError("nothing closes a bracket")


def item_of(head, clauses, body):
    found = ITEM.match(ATTRIBUTE.sub(" ", head).strip())
    if not found or "cfg(test)" in head:
        return None
    public, only_here, kind, name = found.groups()
    return Item(bool(public) and not only_here, kind, name, head, clauses, body)


def items_of(text, start, end):
    """The items of a part of a source, each with the places of its clauses and of its body, if it has one."""
    at = head = piece = start
    clauses = []
    while at < end:
        if text[at] in "([":
            at = closing(text, at)
        elif text[at] == "{":
            close = closing(text, at)
            if CLAUSE.search(text[piece:at]):
                clauses.append((at + 1, close))
            elif not re.search(r"\buse\s[^;]*$", text[piece:at]):
                yield item_of(text[head:at], clauses, (at + 1, close))
                clauses, head = [], close + 1
            at = close
            piece = at + 1
        elif text[at] == ";":
            yield item_of(text[head:at], clauses, None)
            clauses, head, piece = [], at + 1, at + 1
        at += 1


def members_of(text, start, end, outer=None):
    """The items of a part of a source and those inside them, each with the item around it."""
    for item in filter(None, items_of(text, start, end)):
        yield item, outer
        if item.kind in ("impl", "trait", "mod") and item.body:
            yield from members_of(text, *item.body, None if item.kind == "mod" else item)


def names_of(text, item):
    """The names that an item defines, including its fields and variants."""
    own = [item.name] if item.name and item.kind not in ("impl", "use") else []
    if item.kind in ("struct", "enum") and item.body:
        own += MEMBER.findall(ATTRIBUTE.sub(" ", text[slice(*item.body)]))
    return own


def type_of(head):
    """The name of the type that an impl is for."""
    while "<" in head.replace("->", ""):
        head = re.sub(r"<[^<>]*>", "", head.replace("->", ""))
    return re.search(rf"\bimpl\s+(?:.*\bfor\s+)?(?:[&\s]|mut\b|\w+::)*({NAME})", head, re.DOTALL).group(1)


class Crate:
    """A crate's sources: its files as texts and items, and which of them are public."""

    def __init__(self, top, paths):
        self.texts = {path: UNREAD.sub(blank, text_of(top, path)) for path in paths}
        self.items = {path: list(members_of(text, 0, len(text))) for path, text in self.texts.items()}
        self.open = {path for path in paths if self.is_open(path)}
        self.passed_on = {word for path in paths for item, _ in self.items[path] if item.public and item.kind == "use"
                          for word in re.findall(rf"\b{NAME}\b(?!\s*::)", item.head)}
        types = [(path, item) for path in paths for item, _ in self.items[path] if item.kind in ("struct", "enum")]
        self.types = {item.name for _, item in types}
        self.seen_types = {item.name for path, item in types if self.is_seen(path, item)}

    def is_open(self, path):
        """Whether each module from the crate's root to this file is public."""
        folder, module = os.path.split(path[:-len(".rt")])
        if os.path.basename(folder) == "src" and module in ("lib", "main"):
            return True
        above = [folder + ".rt", os.path.join(folder, "lib.rt"), os.path.join(folder, "main.rt")]
        return any(self.is_open(it) and re.search(rf"\bpub mod {module};", self.texts[it])
                   for it in above if it in self.texts)

    def is_seen(self, path, item):
        return item.public and (path in self.open or item.name in self.passed_on)

    def contracts_in(self, path):
        """The places in a file that a caller in another crate can read."""
        for item, outer in self.items[path]:
            if outer is None:
                seen = item.kind.endswith("fn") and self.is_seen(path, item)
            elif outer.kind == "trait":
                seen = self.is_seen(path, outer)
            else:
                of_trait = re.search(r"\bfor\b", outer.head)
                own = type_of(outer.head)
                seen = (own in self.seen_types or own not in self.types) and (item.public or of_trait)
            if seen and item.kind.endswith("fn"):
                yield from item.clauses
            elif seen and item.kind == "ghost" and item.body and (item.name == "Value" or outer.kind == "trait"):
                yield item.body


def definition_of(crate, module, name, places):
    """The definition that a use imports. A crate may pass on the specs of a lower crate under its own name."""
    wanted = Definition(crate, module, name)
    if wanted in places:
        return wanted
    return next((it for it in places if it.name == name and (it.module == module or it.crate == crate)), wanted)


def read_sources(top, places):
    """The first citation of each definition, the names of all items, and the names from the kit."""
    cited, names, kit = {}, set(), set()
    crates = sorted(os.listdir(os.path.join(top, "crates")))
    for crate in crates:
        paths = [path for path in files_of(top, crate, "src", ".rt") if os.path.basename(path) != "tests.rt"]
        source = Crate(top, paths) if not crate.startswith(APART) else None
        for path in paths if source else []:
            text, own = source.texts[path], {}
            names.update(name for item, _ in source.items[path] for name in names_of(text, item))
            for here, origin, module, there in uses_of(text):
                if origin not in crates:
                    kit.add(there)
                elif module.startswith("specs") and not module.startswith("specs.declared"):
                    own[here] = definition_of(origin, module[len("specs."):], there, places)
            for start, end in source.contracts_in(path):
                for word in re.finditer(NAME, text[start:end]):
                    if word.group() in own:
                        cited.setdefault(own[word.group()], place_of(path, text, start + word.start()))
    return cited, names, kit


# ---- pages

def spans_of(text):
    """The spans in backticks on a page, outside its blocks, with their places."""
    text = re.sub(r"^```.*?^```", blank, text, flags=re.DOTALL | re.MULTILINE)
    return [(found.start(), found.group(1)) for found in re.finditer(r"`([^`\n]+)`", text)]


def named_in(span):
    """The names in a span: its first word, and each other word that can't be the name of a parameter."""
    words = re.finditer(rf"(?:{NAME}::)*{NAME}", span)
    return [word.group() for word in words
            if word.start() == 0 or re.search("_|::|[a-z][A-Z]|^[A-Z][a-z]", word.group())]


def read_pages(top):
    """The names on the pages: (name, place, span)."""
    named = []
    for page in sorted(os.listdir(os.path.join(top, PAGES))):
        path = os.path.join(PAGES, page)
        text = text_of(top, path)
        for at, span in spans_of(text):
            names = [span] if "/" in span else named_in(span)
            named += [(name, place_of(path, text, at), span) for name in names]
    return named


# ---- the comparison

def missing_lines(cited, places, named):
    """A line for each cited definition that no page names."""
    homes = Counter(definition.name for definition in cited)
    words = {name for name, _, _ in named}
    for definition in sorted(cited):
        crate, module, name = definition
        with_home = {f"{crate}::{name}", f"{module}::{name}"}
        if not words & (with_home | ({name} if homes[name] == 1 else set())):
            how = "" if homes[name] == 1 else f" as `{crate}::{name}`"
            yield f"{places.get(definition, crate)}: `{name}`, which {cited[definition]} cites, stands on no page{how}"


def is_there(name, places, others, top):
    """Whether a page may name this."""
    if "/" in name:
        return os.path.exists(os.path.join(top, name))
    *homes, last = name.split("::")
    if homes:
        return any(last == it.name and homes[-1] in (it.crate, it.module) for it in places)
    return last in others or bool(CARDS.fullmatch(last))


def main():
    top = os.path.abspath(sys.argv[1]) if len(sys.argv) > 1 else TOP
    places, fields, kit = read_specs(top)
    cited, items, more = read_sources(top, places)
    named = read_pages(top)
    others = fields | kit | items | more | OTHER_WORDS | {definition.name for definition in places}
    others |= set(os.listdir(os.path.join(top, "crates"))) | set(os.listdir(os.path.join(top, "cases")))
    missing = list(missing_lines(cited, places, named))
    foreign = [f"{place}: `{span}` names `{name}`, which isn't there"
               for name, place, span in named if not is_there(name, places, others, top)]
    for line in missing + foreign:
        print(line)
    if missing or foreign or not cited or not named:
        print(f"definitions: {len(missing)} missing, {len(foreign)} foreign")
        return 1
    pages = {name for name, _, _ in named}
    print(f"definitions: {len(cited)} definitions are cited, and the pages name them all, with {len(pages)} names")
    return 0


if __name__ == "__main__":
    sys.exit(main())
