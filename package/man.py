"""The man pages of alphamu and alphamu_study, made from the pages for users: what alphamu is and its jobs from README.md, options,
refusals and statuses from docs/REFUSALS.md, the layout file and the jobs of alphamu_study from docs/USING.md. So each thing is
said in one place. The page of alphamu_study leaves what both programs share to that of alphamu."""
import re

TITLE, SECTION, PICTURE = re.compile(r"^# "), re.compile(r"^## (.*)$"), re.compile(r"^!\[")
# How the source's launchers are called, and the installed programs.
CALLED = re.compile(r"(?<![\w./])\./(alphamu|study|desk)(?![\w./])")
INSTALLED = {"alphamu": "alphamu", "study": "alphamu_study", "desk": "alphamu_desk"}
BULLET = "\\(bu"
# The headings of a table that its rows repeat, since a man page has no columns.
REPEATED = ("Required", "Allowed", "Default", "How to mend it")
# The jobs of alphamu_study, each with a job of alphamu whose words it reads.
STUDY_JOBS = [*((job, read) for job in ("page", "words", "lines") for read in ("solve", "check")), ("cards", "card"), ("review", "card")]
# Those that may draw their layouts instead, and what a draw takes in addition.
DRAWN_JOBS = ("page", "words", "lines", "cards")
DRAW, DRAW_OPTIONS = "\\fB\\-\\-draw\\fR \\fIN\\fR", "[\\fIDRAW OPTIONS\\fR]"
SEATS = ("north", "east", "south", "west")
# What such a job takes in addition.
FORM = "[\\fB\\-\\-form\\fR \\fBtext\\fR|\\fBcsv\\fR|\\fBjson\\fR]"
OWN_OPTIONS = {"cards": [FORM], "review": ["[\\fB\\-\\-from\\fR \\fIN\\fR]", "[\\fB\\-\\-games\\fR]", FORM]}


def as_installed(text):
    """A page in which the commands call the installed programs."""
    return CALLED.sub(lambda it: INSTALLED[it[1]], text)


def escaped(text):
    """Plain text for the page's language."""
    return text.replace("\\", "\\e").replace("-", "\\-").replace("'", "\\(aq").replace("`", "\\(ga")


def inline(text):
    """A line of a page: code and stressed words in bold, links as their text."""
    text = re.sub(r"\[([^]]*)\]\([^)]*\)", r"\1", text)
    out = []
    for part in re.split(r"(`[^`]*`|\*\*.*?\*\*|(?<!\w)\*[^*]+\*)", text):
        if part[:1] == "`":
            out.append(f"\\fB{escaped(part[1:-1])}\\fR")
        elif part[:2] == "**":
            out.append(f"\\fB{escaped(part[2:-2].replace('`', ''))}\\fR")
        elif part[:1] == "*" and part[-1:] == "*" and len(part) > 2:
            out.append(f"\\fI{escaped(part[1:-1])}\\fR")
        else:
            out.append(escaped(part))
    line = "".join(out)
    return "\\&" + line if line[:1] in ".'" else line


def cells(line):
    """The cells of a line of a table."""
    return [it.strip() for it in line.strip().strip("|").split("|")]


def row(cells_of, names):
    """One row of a table: its first cell as the label, and each other one on a line of its own."""
    label, *rest = cells_of
    rest = [inline(f"{name}: {it}" if name in REPEATED else it) for it, name in zip(rest, names[1:]) if it]
    return [".TP", inline(label), *"\n.br\n".join(rest or ["\\&"]).split("\n")]


def table(lines):
    names = cells(lines[0])
    return [it for line in lines[2:] for it in row(cells(line), names)]


def block(lines):
    """Lines as they are."""
    return [".PP", ".RS", ".nf", *(inline_code(it) for it in lines), ".fi", ".RE"]


def inline_code(line):
    line = escaped(line)
    return "\\&" + line if line[:1] in ".'" else line


def groups(text):
    """The parts of a page between empty lines, each as its lines; a block between fences is one part."""
    part, fenced = [], False
    for line in text.splitlines():
        if line.startswith("```"):
            if part:
                yield part
            part, fenced = ([] if fenced else ["```"]), not fenced
        elif fenced or line.strip():
            part.append(line)
        elif part:
            yield part
            part = []
    if part:
        yield part


def converted(text):
    """A page without its title, in the language of man pages."""
    out = []
    for part in groups(text):
        first = part[0]
        if TITLE.match(first) or PICTURE.match(first):
            continue
        if match := SECTION.match(first):
            out += [f".SH {inline(match[1].upper() if '`' not in match[1] else match[1])}"]
        elif first == "```":
            out += block(part[1:])
        elif first.startswith("|"):
            out += table(part)
        elif first.startswith("    "):
            out += block([it[4:] for it in part])
        elif re.match(r"(-|\d+\.) ", first):
            for line in part:
                mark, words = line.split(" ", 1)
                out += [f".IP {mark.replace('-', BULLET)} 4", inline(words)]
        else:
            out += [".PP", *(inline(it) for it in part)]
    return out


def section(text, title):
    """The part of a page below one of its headings."""
    found = re.search(rf"^## {re.escape(title)}\n(.*?)(?=^## |\Z)", text, re.M | re.S)
    if found is None:
        raise ValueError(f"no heading: {title}")
    return found[1]


def usage(jobs, program, job, read):
    """A job's line, with the options that it must have and may have: those of the job of alphamu whose words it reads."""
    needed, allowed = jobs.JOBS[read]
    words = [f"\\fB{program} \\-\\-job {job}\\fR"]
    words += [f"\\fB\\-\\-{it}\\fR \\fI{'FILE' if it in jobs.FILES else 'N'}\\fR" for it in needed]
    words = [f"[{it}]" if job == "cards" and "\\-moves" in it else it for it in words]
    words += [f"[\\fB\\-\\-{it}\\fR \\fIN\\fR]" for it in allowed if it not in jobs.SEARCH or set(jobs.SEARCH) - set(allowed)]
    if set(jobs.SEARCH) <= set(allowed):
        words.append("[\\fISEARCH OPTIONS\\fR]")
    return " ".join(words + OWN_OPTIONS.get(job, []))


def usage_of_drawn(jobs, job):
    """The line of a job that draws its layouts in place of reading them."""
    read = dict((name, read) for name, read in reversed(STUDY_JOBS))[job]
    line = usage(jobs, "alphamu_study", job, read)
    return line.replace("\\fB\\-\\-layouts\\fR \\fIFILE\\fR", f"{DRAW} {DRAW_OPTIONS}")


def draw_options():
    """What a draw takes in addition."""
    conditions = [f"[\\fB\\-\\-{seat}\\fR \\fICONDITION\\fR] .." for seat in SEATS]
    return [".PP", "The draw options are [\\fB\\-\\-seed\\fR \\fIN\\fR] " + " ".join(conditions)]


def synopsis(jobs, lines):
    """A line for each job, and the options of the search."""
    flags = [f"[\\fB\\-\\-{escaped(it)}\\fR" + ("]" if it in jobs.FLAGS else " \\fIN\\fR]") for it in jobs.SEARCH]
    program = lines[0].split(" ", 1)[0]
    lines = [*lines, f"{program} \\-\\-help\\fR [\\fIJOB\\fR]", f"{program} \\-\\-version\\fR"]
    return [*"\n.br\n".join(lines).split("\n"), ".PP", "The search options are", " ".join(flags)]


def see_also(other):
    return [".SH SEE ALSO", f"\\fB{other}\\fR(1)", *converted(
        "The pages that are named in capitals, such as USING and IDEA, and the files of the examples are in `share/doc/alphamu` in the "
        "folder that has `share/man`: begin with `docs/USING.md`. Run the commands of the pages in that folder.")]


def page(readme, refusals, using, jobs, version):
    """The man page of alphamu as text."""
    readme, refusals, using = map(as_installed, (readme, refusals, using))
    out = [
        f'.TH ALPHAMU 1 "" "alphamu {version}" "alphamu"',
        ".SH NAME", "alphamu \\- names the card that declarer should play at bridge, with a proof behind its answers",
        ".SH SYNOPSIS", *synopsis(jobs, [usage(jobs, "alphamu", job, job) for job in jobs.JOBS]),
        ".SH DESCRIPTION", *converted(readme[:readme.index("## ")]),
        ".SH JOBS", *converted(section(readme, "What it does")),
        *converted(refusals[refusals.index("\n## "):]),
        ".SH THE LAYOUT FILE", *converted(section(using, "The layout file")),
        *see_also("alphamu_study"),
    ]
    return "\n".join(out) + "\n"


# The sections of the second page, with the parts of docs/USING.md that they are made of.
STUDY_PARTS = {
    "AN ANSWER ON YOUR OWN BOARD": "An answer on your own board",
    "DRAWN LAYOUTS AND CONDITIONS": "Drawn layouts and conditions: `draw`",
    "A PAGE TO LOOK AT": "A page to look at: `page`",
    "EVERY CARD SIDE BY SIDE": "Every card side by side: `cards`",
    "WHAT EACH CARD COST": "What each card cost: `review`",
    "A WHOLE EVENING REVIEWED": "A whole evening reviewed: `review --games`",
    "THE STRATEGIES IN WORDS": "The strategies in words",
    "THE STRATEGIES AS GAMES": "The strategies as games",
}


def study_page(using, jobs, version):
    """The man page of alphamu_study as text."""
    using = as_installed(using)
    lines = [usage(jobs, "alphamu_study", job, read) for job, read in STUDY_JOBS]
    lines += [*(usage_of_drawn(jobs, job) for job in DRAWN_JOBS), f"\\fBalphamu_study \\-\\-job draw\\fR \\fB\\-\\-deal\\fR \\fIFILE\\fR {DRAW} {DRAW_OPTIONS}"]
    out = [
        f'.TH ALPHAMU_STUDY 1 "" "alphamu {version}" "alphamu"',
        ".SH NAME", "alphamu_study \\- draws layouts, shows lines of play at bridge and every card side by side, and what each card of a board cost",
        ".SH SYNOPSIS", *synopsis(jobs, lines), *draw_options(),
        ".SH DESCRIPTION", *converted("The files, the options and their limits, the refusals and the statuses are those of `alphamu`(1)."),
        *(line for title, part in STUDY_PARTS.items() for line in (f".SH {title}", *converted(section(using, part)))),
        *see_also("alphamu"),
    ]
    return "\n".join(out) + "\n"
