"""The one list of alphamu's jobs and options, and what is right about words. The launcher judges words by it, and checks/words.py
compares it with the cases and with the program. A new job is a new row of JOBS; the launcher needs nothing else.
"""

# The line by which the program refuses words, and its status.
USAGE, REFUSED = "usage: --job JOB [OPTIONS]", 2
# The options that name a file, in the order in which the program reads the files, with the most bytes that it takes.
FILES = {"deal": 1_048_576, "layouts": 1_048_576, "report": 16_777_216, "log": 16_777_216}
# The options that have a number, with the least and the greatest.
NUMBERS = {
    "moves": (1, 26),
    "number": (0, 2 ** 64 - 1),
    "layout": (1, 256),
    "switch": (1, 52),
    "nodes": (1, 2 ** 64 - 1),
    "workers": (1, 64),
    "shards": (1, 64),
    "room": (1, 65_536),
}
FLAGS = ("no-table", "no-cuts")
OPTIONS = ("job", *FILES, *NUMBERS, *FLAGS)
SEARCH = ("nodes", "workers", "shards", "room", *FLAGS)
# The options that each job must have, and those that it may have.
JOBS = {
    "solve": (("deal", "layouts", "moves"), SEARCH),
    "card": (("deal", "layouts", "moves"), SEARCH),
    "boards": (("deal", "layouts", "moves"), SEARCH),
    "match": (("deal", "layouts", "moves", "layout"), ("switch", *SEARCH)),
    "fusion": (("deal", "layouts"), ()),
    "list": (("deal",), ()),
    "check": (("deal", "layouts", "report"), ()),
    "made": (("number",), SEARCH),
    "prove": (("deal", "layouts", "moves"), ("nodes",)),
    "audit": (("deal", "layouts", "report", "log"), ()),
}
# The jobs that read a layout file for each game, and how many games they take.
JOBS_BY_GAME, MOST_GAMES = ("boards",), 64
# The greatest number of nodes of a job that writes them all to a log.
MOST_LOGGED = {"prove": 268_435_456}
# The shards and the room of each unless the words say otherwise, and the most entries in all shards together.
SHARDS, ROOM, MOST_ENTRIES = "16", "16384", 262_144


def split(words):
    """The options in the words with their values, in order. None if the words are no list of options, each once."""
    found, words = {}, iter(words)
    for word in words:
        name, equals, value = word[2:].partition("=")
        if word[:2] != "--" or name not in OPTIONS or name in found or (name in FLAGS and equals):
            return None
        found[name] = value if equals or name in FLAGS else next(words, "")
    return found


def limits_of(job, name):
    """The least and the greatest number that a job takes for an option."""
    least, most = NUMBERS[name]
    return least, MOST_LOGGED.get(job, most) if name == "nodes" else most


def is_value(job, name, value):
    """Whether the job takes the value for the option."""
    if name in FILES:
        return value != "" and value[0] != "-"
    if name in NUMBERS:
        least, most = limits_of(job, name)
        digits = value.lstrip("0") or value[:1]
        return value.isascii() and value.isdigit() and len(digits) <= 20 and least <= int(digits) <= most
    return True


def options_in(words):
    """The options in the words with their values, in order. None if the program refuses the words."""
    found = split(words)
    if found is None or found.get("job") not in JOBS:
        return None
    job = found["job"]
    needed, allowed = map(set, JOBS[job])
    if not needed | {"job"} <= set(found) <= needed | allowed | {"job"}:
        return None
    if not all(is_value(job, name, value) for name, value in found.items()):
        return None
    entries = int(found.get("shards", SHARDS)) * int(found.get("room", ROOM))
    return found if entries <= MOST_ENTRIES else None
