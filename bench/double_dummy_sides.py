"""The two sides of bench/double_dummy.py: alphamu, by the processor time of a run less that of an idle one, and DDS, by its own clock."""
import os
import pathlib
import subprocess

from timing import processor_seconds

HERE = pathlib.Path(__file__).resolve().parent
BASELINE = HERE / "build" / "double_dummy_baseline"
RUNS = 7
ENOUGH = 0.3
NOISE = 2e-4


def least(timed):
    """The least seconds of some runs, and the last answer. It stops after RUNS runs, or when they have taken ENOUGH seconds together."""
    times = []
    while len(times) < RUNS and sum(times) < ENOUGH:
        seconds, answer = timed()
        times.append(seconds)
    return min(times), answer


def less_idle(words, idle_words):
    """The least seconds of a program without those of an idle run, though not less than NOISE, and what it prints."""
    idle = least(lambda: processor_seconds(idle_words))[0]
    seconds, told = least(lambda: processor_seconds(words))
    return max(seconds - idle, NOISE), told


def build_baseline():
    """Builds the program in C++, and says whether DDS is there. Another run may be using the one that is there."""
    BASELINE.parent.mkdir(exist_ok=True)
    built = BASELINE.with_suffix(f".{os.getpid()}")
    words = ["g++", "-O2", "-march=x86-64-v2", "-o", built, HERE / "double_dummy_baseline.cpp"]
    has_dds = subprocess.run(words + ["-DWITH_DDS", "-ldds"], stderr=subprocess.DEVNULL).returncode == 0
    if not has_dds:
        subprocess.run(words, check=True)
    built.replace(BASELINE)
    return has_dds


def as_number(cards):
    return sum(1 << card for card in cards)


class Dds:
    """A process that puts one question after another to DDS. It clears DDS's memory before each, and times nothing but DDS's calls."""

    def __init__(self):
        self.process = subprocess.Popen([BASELINE, "lines"], stdin=subprocess.PIPE, stdout=subprocess.PIPE, text=True)

    def ask(self, question, deal, layouts, need=0):
        hands = [as_number(hand) for hand in (deal.declarer, deal.dummy, *(hand for layout in layouts for hand in layout))]
        print(question, deal.trump, need, len(layouts), *hands, file=self.process.stdin, flush=True)
        seconds, *answers = self.process.stdout.readline().split()
        return float(seconds), [int(answer) for answer in answers]

    def tricks(self, deal):
        """The tricks of declarer's side in the first layout."""
        return self.ask("tricks", deal, deal.layouts()[:1])[1][0]

    def needs(self, deal):
        """The least seconds, and the tricks of declarer's side in the first layout, found by asking for 1, 2 and so on."""
        seconds, answers = least(lambda: self.ask("needs", deal, deal.layouts()[:1]))
        return seconds, answers[0]

    def cards(self, deal, need):
        """The least seconds, and each of declarer's cards with a bit a layout: 1 if it reaches the need there."""
        seconds, made = least(lambda: self.ask("cards", deal, deal.layouts(), need))
        return seconds, {card: "".join(str(cards >> card & 1) for cards in made) for card in deal.declarer}


class Alphamu:
    """The program alphamu and the program of workloads."""

    def __init__(self, program, workloads, folder):
        self.program, self.workloads, self.folder = program, workloads, folder

    def fusion(self, ending, name):
        """Writes an ending to files, and returns the words of a run on them."""
        files = []
        for kind, text in (("pbn", ending.deal), ("lay", ending.layouts)):
            files.append(self.folder / f"{name}.{kind}")
            files[-1].write_text(text)
        return [self.program, "--job", "fusion", "--deal", files[0], "--layouts", files[1]]

    def cards(self, deal, need):
        """As `Dds.cards`, by the job `fusion`."""
        seconds, report = less_idle(self.fusion(deal.ending(need), "asked"), self.fusion(deal.ending(0), "idle"))
        lines = [line.split() for line in report.splitlines()]
        return seconds, {card_of(line[1]): line[3] for line in lines if line[0] == "card"}

    def tricks(self, number, tricks, strain):
        """As `Dds.needs`, of the deal with this number, by the program of workloads."""
        asked, idle = ([self.workloads, "double_dummy", tricks, number, deals, "tricks", strain] for deals in (1, 0))
        seconds, told = less_idle(asked, idle)
        return seconds, int(told)


def card_of(word):
    """The number of a card that a report names."""
    return 13 * "SHDC".index(word[0]) + "23456789TJQKA".index(word[1])
