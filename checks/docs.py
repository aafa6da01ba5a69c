#!/usr/bin/env python3
"""docs.py [TOP]

Compares the pages below TOP with what is there. TOP is this repository if you name none. It needs no toolchain.

Pages are README.md, CHANGELOG.md and CONTRIBUTING.md, all of docs/, and the README.md of each example, of each crate, of
cases/ and of bindings/. The check fails in these cases:

- A page names in backticks a file that isn't there, or a name such as `root_front` or `CardLine` that no source has.
  Names in docs/definitions/ are left to definitions.py, and CHANGELOG may have names that are gone.
- A page says "`name` of `crate`", and the crate has no such name. On a crate's own page each name is one of the crate.
- A page names an option that neither the program nor a script has, or an exit status that nothing ends with.
- A link, or the heading that it points to, isn't there.
- A crate of crates.txt has no README.md, or one with another heading; or a README.md belongs to no crate.
- ARCHITECTURE's storeys or PROVED's table lack a crate, have one twice, or have one that isn't there. A crate is above
  one that it uses, or to its left, except in PROVED.
- ARCHITECTURE's table of the ten crates whose change proves the most crates again has other rows than crates.txt says.
- A line of a walk in ARCHITECTURE has a function that its crate doesn't have, or to which the function above it doesn't
  lead: by a call, or through functions of the same crate. A function on that way that puts the question into another
  container is a step of its own.
- An option, a job, an exit status or the name of a fault is on neither of the pages for users, USING and REFUSALS.

Prints each finding with its place. The exit status is 0 only if there is none.
"""
import functools
import os
import pathlib
import re
import sys
from collections import Counter

TOP = pathlib.Path(__file__).resolve().parent.parent
PAGES = ("README.md", "CHANGELOG.md", "CONTRIBUTING.md", "docs/**/*.md", "examples/**/README.md", "crates/*/README.md",
         "cases/README.md", "bindings/**/README.md")
FOR_USERS = ("docs/USING.md", "docs/REFUSALS.md")
SCRIPTS = ("alphamu", "build", "alphamu_desk/*.py", "package/*", ".ci/run", "bench/*.py", "checks/*", "checks/library/*", "bindings/**/*.h", "bindings/**/*.py",
           "bindings/**/*.rs", "examples/library/*.c", "examples/library/*.rs", "examples/**/*.py", "examples/**/*.sbatch")
SOURCES = ("crates/*/src/**/*.rt", "crates/*/specs/**/*.antt", "crates/*/proofs/**/*.antt")
# Options of other programs that the pages name: of rt, GNU parallel, Slurm, git and valgrind.
OTHER_OPTIONS = frozenset("""--help --version --only --test --jobs --start --allow-holes --fail-alloc --anew --resume
    --resume-failed --retries --sshloginfile --workdir --array --format --eta --joblog --keep-order --colsep --time
    --cpus-per-task --mem --output --error --tool""".split())
# Exit statuses that `run` doesn't have: no list of words, no answer from the launcher, signals, `timeout` and `ssh`.
OTHER_STATUSES = frozenset((64, 70, 124, 129, 130, 131, 137, 143, 255))
# Names of other programs: of Slurm, ssh and rt.
OTHER_NAMES = frozenset("JobID ExitCode ServerAliveInterval ServerAliveCountMax start_lib".split())
# A file that FIRST-CHANGE has its reader write and remove again; the packages, and what lies in them; where programs are kept.
OTHER_FILES = frozenset("""crates/card_letters/must-fail/jack_read_as_ten.edit out/alphamu-VERSION-linux-x86_64.tar.gz
    out/alphamu_VERSION_amd64.deb out/alphamu-VERSION-py3-none-linux_x86_64.whl lib/alphamu/alphamu share/doc/alphamu
    share/doc/alphamu/BUILD share/doc/alphamu/copyright share/alphamu/python share/alphamu/rust out/unproved""".split())
ENDINGS = (".md", ".py", ".rt", ".antt", ".cpp", ".edit", ".sbatch")
# What takes a question further, from the words to a node: a walk has each function that makes one.
CONTAINERS = ("Rounds", "Round", "Task", "RoundWork", "TreeSearch")
NAME = re.compile(r"(?:[A-Za-z]\w*::)*[A-Za-z]\w*")


def blank(found):
    """As many lines as there were, with nothing on them."""
    return "\n" * found.group().count("\n")


class Page:
    """A page: its text, and the text outside of its fenced blocks."""

    def __init__(self, top, path):
        self.path, self.name = path, path.relative_to(top).as_posix()
        self.text = path.read_text(encoding="utf-8")
        self.prose = re.sub(r"^```.*?^```", blank, self.text, flags=re.DOTALL | re.MULTILINE)

    def spans(self):
        """What is in backticks, with its line."""
        for number, line in enumerate(self.prose.split("\n"), 1):
            for span in re.findall(r"`([^`]+)`", line):
                yield number, span

    def links(self):
        """What links point to, with the line."""
        for number, line in enumerate(self.prose.split("\n"), 1):
            line = re.sub(r"`[^`]*`", "", line)
            for target in re.findall(r"\]\(([^)\s]+)[^)]*\)|(?:src|href)=\"([^\"]+)\"", line):
                yield number, target[0] or target[1]

    def anchors(self):
        """The anchors of the headings, as GitHub makes them."""
        found, seen = set(), Counter()
        for heading in re.findall(r"^#+ +(.*?) *$", self.prose, flags=re.MULTILINE):
            text = re.sub(r"\[([^\]]*)\]\([^)]*\)", r"\1", heading).lower()
            slug = re.sub(r"[^\w\- ]", "", text).replace(" ", "-")
            found.add(f"{slug}-{seen[slug]}" if seen[slug] else slug)
            seen[slug] += 1
        return found | set(re.findall(r"(?:id|name)=\"([^\"]+)\"", self.prose))

    def section(self, heading):
        """The lines below a heading, up to the next one of its level."""
        lines, inside = [], False
        for number, line in enumerate(self.text.split("\n"), 1):
            if line.startswith("## "):
                inside = line == f"## {heading}"
            elif inside:
                lines.append((number, line))
        return lines


class Repository:
    """What there is below the top."""

    def __init__(self, top):
        self.top = top
        self.crates = read_crates((top / "crates.txt").read_text(encoding="utf-8"))
        self.files = set(self.found_files()) | OTHER_FILES
        self.folders = {parent.as_posix() for name in self.files for parent in pathlib.PurePosixPath(name).parents}
        self.scripts = "\n".join(self.text(name) for name in self.named(SCRIPTS) if name != "checks/docs.py")
        self.words = {part for name in self.files for part in re.split(r"[/.]", name)} | OTHER_NAMES
        for name in self.named(SOURCES):
            self.words |= set(re.findall(r"\w+", re.sub(r"(?://|--).*", "", self.text(name))))
        self.words |= set(re.findall(r"\w+", self.scripts + self.text("crates.txt")))

    def found_files(self):
        """All files from the top, without those that are built."""
        for place, folders, names in os.walk(self.top):
            folders[:] = [it for it in folders if it not in (".git", "__pycache__", "out")]
            for name in names:
                yield (pathlib.Path(place) / name).relative_to(self.top).as_posix()

    def sources_of(self, crate):
        """A crate's sources and definitions, without comments."""
        names = self.named((f"crates/{crate}/src/**/*.rt", f"crates/{crate}/specs/**/*.antt"))
        return re.sub(r"(?://|--).*", "", "\n".join(map(self.text, names)))

    def named(self, patterns):
        """The files that some of the patterns name."""
        found = {path.relative_to(self.top).as_posix() for pattern in patterns for path in self.top.glob(pattern)}
        return sorted(found & self.files)

    def text(self, name):
        return (self.top / name).read_text(encoding="utf-8", errors="replace")

    def options(self):
        """The options of the program."""
        text = self.text("crates/job_words/src/options.rt")
        blocks = re.findall(r"\[\s*((?:\"[a-z-]+\",?\s*)+)\]", text)
        return {f"--{name}" for block in blocks for name in re.findall(r"\"([a-z-]+)\"", block)}

    def jobs(self):
        return set(re.findall(r"\"(\w+)\" => Some\(Job::", self.text("crates/job_words/src/values.rt")))

    def statuses(self):
        """The numbers that `run` ends with."""
        return {int(number) for number in re.findall(r"^code_of .* = (\d+)$", self.text("crates/am_answer/specs/Codes.antt"), re.MULTILINE)}

    def faults(self):
        """The names of faults that lines to standard error have."""
        names = re.findall(r"_name .*codes \"([A-Z]\w+) ?\"", self.text("crates/am_answer/specs/Names.antt"))
        return set(names) | set(re.findall(r"codes \"[^\"\n]*: ([A-Z]\w+)", self.text("crates/am_answer/specs/Lines.antt")))

    def has_file(self, page, word):
        """Whether a word of a page names a file or a folder: from the top, from the page's folder, or from a crate's.
        A part in capitals stands for any name. What is built is never looked for."""
        word = re.sub(r"/out(/.*)?$", "", word.rstrip("/").removeprefix("./"))
        parts = ["[^/]+" if re.fullmatch(r"[A-Z]+|\*", part) else re.escape(part).replace(r"\*", "[^/]*")
                 for part in word.split("/")]
        pattern = re.compile("(?:.*/)?" + re.sub(r"(?<![a-z])[A-Z]{3,}", "[^/]+", "/".join(parts)))
        home = pathlib.PurePosixPath(page.name).parent
        return (self.top / home / word).exists() or any(pattern.fullmatch(name) for name in self.files | self.folders)


def read_crates(text):
    """The crates, each with those that it uses."""
    sides = [line.split("#")[0].partition(":") for line in text.split("\n") if ":" in line.split("#")[0]]
    names = [left.split()[0] for left, _, _ in sides]
    return {name: [it for it in right.split() if it in names] for name, (_, _, right) in zip(names, sides)}


def is_file_name(word):
    """Whether a word in backticks is to be a file's name."""
    return bool(re.fullmatch(r"(?:\./)?[\w.*-]+(?:/[\w.*-]*)+|\.?[\w*-]+(?:\.\w+)+", word)) and \
        (("/" in word and re.search(r"[a-z]", word)) or word.endswith(ENDINGS))


def is_code_name(word):
    """Whether a word in backticks is to be a name in a source."""
    return bool(NAME.fullmatch(word) and re.search(r"[a-z0-9]_[a-z0-9]|::|[a-z][A-Z]", word))


def wrong_names(repository, page):
    for number, span in page.spans():
        for word in span.split():
            if is_file_name(word):
                if not repository.has_file(page, word):
                    yield number, f"`{span}` names the file {word}, which isn't there"
            elif is_code_name(word) and not page.name.startswith(("docs/definitions/", "CHANGELOG")):
                if not set(word.split("::")) <= repository.words:
                    yield number, f"`{span}` names {word}, which isn't there"


def wrong_homes(repository, page):
    for number, line in enumerate(page.prose.split("\n"), 1):
        for name, crate in re.findall(r"`(\w+)` of `(\w+)`", line):
            if page.name != "CHANGELOG.md" and crate in repository.crates and not re.search(rf"\b{name}\b", repository.sources_of(crate)):
                yield number, f"`{name}` isn't in the crate {crate}"
    own = re.fullmatch(r"crates/(\w+)/README\.md", page.name)
    words = set(re.findall(r"\w+", repository.sources_of(own[1]))) if own else set()
    for number, span in page.spans() if own else ():
        for name in filter(is_code_name, span.split()):
            if name not in repository.crates and not set(name.split("::")) <= words:
                yield number, f"`{span}` names {name}, which isn't in this crate"


def wrong_options(repository, page, known):
    for number, line in enumerate(page.text.split("\n"), 1):
        for option in re.findall(r"(?<![\w-])--[a-z][a-z-]*", line):
            if option not in known and not re.search(rf"{option}(?![a-z-])", repository.scripts):
                yield number, f"{option} is no option of the program or of a script"


def wrong_statuses(page, known):
    in_table = False
    for number, line in enumerate(page.prose.split("\n"), 1):
        in_table = line.startswith("| Status |") or (in_table and line.startswith("|"))
        row = re.match(r"\| `?(\d+)`? \|", line) if in_table else None
        for status in ([row[1]] if row else []) + re.findall(r"\b(?:exit )?status `?(\d+)`?\b", line):
            if int(status) not in known:
                yield number, f"nothing ends with status {status}"


def wrong_links(top, page, anchors):
    for number, target in page.links():
        if re.match(r"[a-z]+:", target):
            continue
        path, _, anchor = target.partition("#")
        there = (page.path.parent / path).resolve() if path else page.path.resolve()
        if not there.exists():
            yield number, f"the link {target} leads nowhere"
        elif anchor and anchor not in anchors.get(there, ()):
            yield number, f"the link {target} has no such heading"


def rows_of(lines):
    """The crates that a table links, row by row."""
    rows = [(number, re.findall(r"\]\(\.\./crates/(\w+)/README\.md\)", line)) for number, line in lines if line.startswith("|")]
    return [(number, names) for number, names in rows if names]


def wrong_tables(repository, page, heading, in_order):
    rows = rows_of(page.section(heading))
    drawn = Counter(name for _, names in rows for name in names)
    line = rows[0][0] if rows else 1
    for name in sorted(repository.crates.keys() | drawn.keys()):
        if drawn[name] != (name in repository.crates):
            yield line, f"the table of '{heading}' has the crate {name} {drawn[name]} times"
    places = {name: (number, place) for number, names in rows for place, name in enumerate(names)}
    for name, uses in repository.crates.items() if in_order else ():
        for used in uses:
            if name in places and used in places and places[used] < places[name]:
                yield places[name][0], f"{name} comes after {used}, which it uses"


def proved_again(crates):
    """How many crates are proved again if one changes, for each: itself, and those that use it, also through others."""
    @functools.cache
    def below(name):
        return {name}.union(*map(below, crates[name]))
    return Counter(used for name in crates for used in below(name))


def wrong_counts(repository, page, heading):
    counts = proved_again(repository.crates)
    largest = sorted(counts, key=lambda name: (-counts[name], name))[:10]
    wanted = [f"| [{name}](../crates/{name}/README.md) | {counts[name]} |" for name in largest]
    section = page.section(heading)
    if [line for _, line in section if line.startswith("| [")] != wanted:
        yield section[0][0] if section else 1, "\n".join([f"by crates.txt the rows of '{heading}' are", *wanted])


def steps_of(page, crates):
    """The steps of the walks: line, function, crate, and the function that calls it with its crate, if one does."""
    above, inside = [], False
    for number, line in enumerate(page.text.split("\n"), 1):
        found = re.fullmatch(r"( *)(\w+) +(\w+)(?: {2,}.*| +\w.*)?", line) if inside else None
        if found and found[3] in crates:
            indent, step = len(found[1]), (found[2], found[3])
            above = [it for it in above if it[0] < indent]
            yield number, *step, above[-1][1] if above else None
            above.append((indent, step))
        else:
            inside, above = inside != line.startswith("```"), []


class Calls:
    """Which functions of a crate lead to which, by their names alone."""

    def __init__(self, repository, crate):
        text = repository.sources_of(crate)
        starts = [*re.finditer(r"\bfn (\w+)", text)]
        self.bodies = {}
        for start, end in zip(starts, [it.start() for it in starts[1:]] + [len(text)]):
            self.bodies[start[1]] = self.bodies.get(start[1], "") + text[start.end():end]

    def ways(self, function):
        """The functions of the crate that a function leads to, each with the ones on a way to it."""
        ways, left = {function: (function,)}, [function]
        while left:
            name = left.pop(0)
            for word in re.findall(r"\w+", self.bodies.get(name, "")):
                if word in self.bodies and word not in ways:
                    ways[word] = (*ways[name], word)
                    left.append(word)
        return ways

    def way(self, function, called):
        """The functions on the way from one to a call of another; none if no way leads there."""
        ways = self.ways(function)
        return next((way for name, way in ways.items() if name != called and re.search(rf"\b{called}\b", self.bodies.get(name, ""))), ())

    def puts_in(self, function):
        """The containers that a function puts the question in."""
        return {name for name in CONTAINERS if re.search(rf"\b{name} \{{", self.bodies.get(function, ""))}


def wrong_walks(repository, page):
    calls, steps = {}, [*steps_of(page, repository.crates)]
    known = {(function, crate) for _, function, crate, _ in steps}
    for number, function, crate, caller in steps:
        if not re.search(rf"\bfn {function}\b", repository.sources_of(crate)):
            yield number, f"{crate} has no function {function}"
        elif caller:
            above, home = caller
            inside = calls.setdefault(home, Calls(repository, home))
            way = inside.way(above, function)
            if not way:
                yield number, f"{above} of {home} doesn't lead to {function}"
            for left_out in way[1:]:
                if (left_out, home) not in known and inside.puts_in(left_out):
                    yield number, f"{left_out} of {home}, on the way from {above} to {function}, is no step, but makes a {' and a '.join(sorted(inside.puts_in(left_out)))}"


def wrong_readmes(repository):
    found = {name.split("/")[1]: name for name in repository.named(("crates/*/README.md",))}
    for name in sorted(repository.crates.keys() - found.keys()):
        yield f"crates/{name}", 1, "the crate has no README.md"
    for name, path in sorted(found.items()):
        if name not in repository.crates:
            yield path, 1, "crates.txt has no such crate"
        elif repository.text(path).split("\n")[0] != f"# {name}":
            yield path, 1, f"its first line isn't '# {name}'"


def missing_words(repository, pages, known):
    """What the pages for users don't have."""
    pages = [page for page in pages if page.name in FOR_USERS]
    words = {part for page in pages for _, span in page.spans() for part in re.split(r"[ =]", span)}
    rows = {int(status) for page in pages for status in re.findall(r"^\| `?(\d+)`? \|", page.prose, flags=re.MULTILINE)}
    for kind, names in (("option", known), ("job", repository.jobs()), ("fault", repository.faults())):
        for name in sorted(names - words):
            yield FOR_USERS[-1], 1, f"the {kind} {name} is on neither of the pages for users"
    for status in sorted(repository.statuses() - rows):
        yield FOR_USERS[-1], 1, f"the status {status} has a row on neither of the pages for users"


def main():
    top = pathlib.Path(sys.argv[1]).resolve() if len(sys.argv) > 1 else TOP
    repository = Repository(top)
    pages = [Page(top, top / name) for name in repository.named(PAGES)]
    anchors = {page.path.resolve(): page.anchors() for page in pages}
    options, statuses = repository.options(), repository.statuses() | OTHER_STATUSES
    findings = [*wrong_readmes(repository), *missing_words(repository, pages, options)]
    for page in pages:
        found = [*wrong_names(repository, page), *wrong_homes(repository, page), *wrong_options(repository, page, options | OTHER_OPTIONS),
                 *wrong_statuses(page, statuses), *wrong_links(top, page, anchors)]
        if page.name == "docs/ARCHITECTURE.md":
            found += [*wrong_tables(repository, page, "The storeys", True), *wrong_walks(repository, page),
                      *wrong_counts(repository, page, "What a change proves again")]
        if page.name == "docs/PROVED.md":
            found += wrong_tables(repository, page, "Crate by crate", False)
        findings += [(page.name, number, what) for number, what in found]
    for name, number, what in findings:
        print(f"{name}:{number}: {what}")
    links = sum(1 for page in pages for _ in page.links())
    spans = sum(1 for page in pages for _ in page.spans())
    print(f"docs: {len(pages)} pages with {links} links and {spans} names, {len(findings)} findings")
    return 1 if findings or not links or not repository.jobs() or not repository.faults() else 0


if __name__ == "__main__":
    sys.exit(main())
