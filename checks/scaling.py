#!/usr/bin/env python3
"""Runs what docs/SCALING.md shows, with the evening of examples/evening: all boards in one run, with one worker and with four; each
board by the job `solve`; parts of three boards, four parts at a time; the same with too few nodes, and then the failed parts again;
parts over two hosts; and parts over two hosts, one of which is lost in the middle. Each time the gathered answers must be the bytes
of the first run.

Usage: checks/scaling.py [MOVES [PROGRAM]], with the moves for each board (default 4). If you name no program it is the proved one,
which ./build makes. It needs GNU parallel, and for the hosts root, iproute2, rsync and openssh-server; without those it says so and
leaves the hosts out."""
import os
import pathlib
import re
import shutil
import subprocess
import sys
import tempfile
import time

TOP = pathlib.Path(__file__).resolve().parent.parent
PROVED = TOP / "crates" / "alphamu" / "out" / "alphamu"
EVENING = TOP / "examples" / "evening"
SIZE = 3
# The status of a run of parallel if a host is lost, and of alphamu if nodes are spent.
LOST, SPENT = 255, 17
# Too few nodes for some card of each part, if neither table nor cuts save any.
FEW_NODES = ["--nodes", "50", "--no-table", "--no-cuts"]


def run(words, folder, **more):
    return subprocess.run([str(word) for word in words], cwd=folder, stdin=subprocess.DEVNULL, capture_output=True, text=True, **more)


def timed(words, folder):
    began = time.monotonic()
    done = run(words, folder)
    return done, time.monotonic() - began


class Evening:
    """The evening in a folder of its own, cut into parts, and the question about it."""

    def __init__(self, parent, name, program, moves):
        self.folder, self.program, self.moves = parent / name, program, moves
        self.folder.mkdir()
        run([EVENING / "make.py", self.folder], TOP, check=True)
        self.cut(SIZE)

    def cut(self, size):
        run([EVENING / "parts.py", "cut", self.folder, size], TOP, check=True)
        self.parts = sorted((it.name for it in self.folder.glob("part.*")), key=lambda name: int(name.split(".")[1]))

    def words(self, job, folder, layouts="evening.lay"):
        return [self.program, "--job", job, "--deal", f"{folder}/evening.pbn", "--layouts", f"{folder}/{layouts}", "--moves", self.moves]

    def ask(self, *more):
        """The output of one run over all boards, and its seconds."""
        done, took = timed([*self.words("boards", "."), *more], self.folder)
        if done.returncode:
            sys.exit(f"scaling: status {done.returncode}, {done.stderr}")
        return done.stdout, took

    def parallel(self, *more, words=()):
        """The seconds that all parts take, with these further words for parallel and for the program."""
        command = " ".join(map(str, [*self.words("boards", "{}"), *words]))
        command += " > {}/evening.boards.part 2> {}/evening.line && mv {}/evening.boards.part {}/evening.boards"
        _, took = timed(["parallel", "--will-cite", "--joblog", "log", *more, command, ":::", *self.parts], self.folder)
        return took

    def failed(self, status):
        """The parts whose last status in the job log is this."""
        rows = (line.split("\t") for line in (self.folder / "log").read_text().splitlines()[1:])
        last = {int(row[0]): int(row[6]) for row in rows}
        return [self.parts[number - 1] for number in sorted(last) if last[number] == status]

    def gathered(self):
        done = run([EVENING / "parts.py", "gather", self.folder], TOP)
        return done.stdout or done.stderr


def by_solve(evening):
    """What the job `solve` says about each board alone, in the lines of `boards`."""
    evening.cut(1)
    answers = []
    for number, part in enumerate(evening.parts, 1):
        done = run(evening.words("solve", part, "evening.lay.1"), evening.folder)
        answers.append("game %d\n%s" % (number, re.sub("^alphamu:", "refused", done.stderr) if done.returncode else done.stdout))
    return "alphamu boards 1\n" + "".join(answers) + "end boards\n"


def over_hosts(evening, folder, hosts, *more, there="..."):
    """The same over hosts, two parts per host at a time. Each host gets the folder of a part and sends back its answer."""
    words = ["--ssh", f"ssh -F {folder / 'ssh_config'}", *hosts, "--jobs", "2", "--workdir", there, "--transferfile", "{}"]
    return evening.parallel(*words, "--return", "{}/evening.boards", "--return", "{}/evening.line", "--cleanup", *more)


def lose_one(evening, folder):
    """The same, but host two is cut off in the middle. Then the parts that failed are run again on host one."""
    slow = subprocess.Popen(["bash", "-c", "sleep 0.5; exec %s lose two" % (EVENING / "hosts")], stdout=subprocess.DEVNULL,
                            stderr=subprocess.DEVNULL)
    # What a lost host has left is removed with the evening.
    over_hosts(evening, folder, ["--sshloginfile", folder / "hosts"], there=evening.folder / "there")
    slow.wait()
    lost = evening.failed(LOST)
    over_hosts(evening, folder, ["--sshlogin", "one"], "--resume-failed", there=evening.folder / "there")
    return lost


class Trials:
    """What each trial needs, and whether one has given other bytes than one run with one worker."""

    def __init__(self, parent, program, moves):
        self.parent, self.program, self.moves, self.is_wrong = parent, program, moves, False
        self.wanted, self.alone = self.start("first").ask("--workers", 1)
        refused = re.findall(r"(?m)^game (\d+)\nrefused (.*)$", self.wanted)
        print("all boards in one run with one worker: %.2f s; %d answered, refused: %s" % (
            self.alone, self.wanted.count("\nend\n"), ", ".join("%s by %s" % it for it in refused)), flush=True)

    def start(self, name):
        return Evening(self.parent, name, self.program, self.moves)

    def report(self, name, found, took=None):
        same = found == self.wanted
        self.is_wrong |= not same
        times = "" if took is None else ": %.2f s, %.2f times as fast" % (took, self.alone / took)
        print("%s%s; %s" % (name, times, "the same bytes" if same else "OTHER BYTES"), flush=True)

    def on_this_machine(self):
        found, took = self.start("workers").ask("--workers", 4)
        self.report("with four workers", found, took)
        self.report("each board by itself", by_solve(self.start("by-solve")))
        four = self.start("four")
        took = four.parallel("--jobs", "4")
        self.report("parts of three boards, four at a time", four.gathered(), took)
        spent = self.start("spent")
        spent.parallel("--jobs", "4", words=FEW_NODES)
        failed = spent.failed(SPENT)
        spent.parallel("--jobs", "4", "--resume-failed")
        self.report("with few nodes, and then %s again" % " ".join(failed), spent.gathered())

    def on_hosts(self):
        """The evening over two hosts, and over two hosts one of which is lost."""
        folder = self.parent / "hosts"
        run([EVENING / "hosts", "up", folder], TOP, check=True)
        try:
            two = self.start("two-hosts")
            took = over_hosts(two, folder, ["--sshloginfile", folder / "hosts"])
            self.report("two hosts, two parts each", two.gathered(), took)
            lost = self.start("one-lost")
            again = lose_one(lost, folder)
            self.report("host two cut off in the middle, and %s run again" % " ".join(again), lost.gathered())
        finally:
            run([EVENING / "hosts", "down", folder], TOP)


def main():
    moves = sys.argv[1] if len(sys.argv) > 1 else "4"
    program = pathlib.Path(sys.argv[2]).resolve() if len(sys.argv) > 2 else PROVED
    if program == PROVED and subprocess.run([TOP / "checks" / "program_state"]).returncode != 0:
        sys.exit("scaling: there is no current proved program: run ./build")
    if not shutil.which("parallel"):
        sys.exit("scaling: GNU parallel isn't installed")
    with tempfile.TemporaryDirectory() as name:
        trials = Trials(pathlib.Path(name), program, moves)
        trials.on_this_machine()
        if os.geteuid() or not all(map(shutil.which, ("ip", "rsync", "ssh"))) or not pathlib.Path("/usr/sbin/sshd").exists():
            print("the hosts are left out")
        else:
            trials.on_hosts()
    sys.exit(1 if trials.is_wrong else 0)


if __name__ == "__main__":
    main()
