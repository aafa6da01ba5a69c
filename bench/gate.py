#!/usr/bin/env python3
"""gate.py [--anew | --pid N] [--log FILE] [--rows FILE] [--table FILE]

Shows where the time of `rt ci` goes: for each crate, the seconds of the processor that its proof, the proof of its tests and its
must-fail edits take, as the table of docs/SPEED.md. Then it says how many times as much the whole run took as the proof of the crate
UNIT in the same run. Machines differ by a factor of three, and other work on one slows all of it down, so this number says more of
the gate than its seconds do. It needs a run from nothing: --anew, or a machine that keeps nothing.

It runs `rt ci` at the top of the repository, and what the toolchain prints goes to the log. With --anew the toolchain proves all again;
otherwise it passes over what an earlier run proved on this machine. The rows of such crates come from the file of --rows, which keeps
what each run took. With --pid it starts nothing, and follows a run of `rt ci` that has begun, in whatever copy of the repository. Ctrl-C
ends it then, and the table has what was proved so far.

Run nothing else at the same time. The processor's time of the whole run is exact. A row is read twice a second, so it may miss half a
second of each check, and it leaves out clang. The exit status is that of `rt ci`, or 0 with --pid.
"""
import argparse
import glob
import json
import os
import resource
import subprocess
import sys
import threading
import time

TOP = os.path.dirname(os.path.dirname(os.path.abspath(__file__)))
KINDS = ("proof", "tests", "edits")
# The crate whose proof is the unit: of middling size, and seldom changed.
UNIT = "am_report"
TICKS = os.sysconf("SC_CLK_TCK")


class Process:
    """A process as it is now. OSError or IndexError if it isn't there any more."""

    def __init__(self, pid):
        with open(f"/proc/{pid}/stat", "rb") as file:
            fields = file.read().rpartition(b")")[2].split()
        self.pid, self.parent, self.begun = int(pid), int(fields[1]), int(fields[19])
        own, waited = [(int(fields[at]) + int(fields[at + 1])) / TICKS for at in (11, 13)]
        self.seconds, self.seconds_of_all = own, own + waited

    def work(self):
        """The crate that a process of the prover works on, and what it does. None for any other process."""
        with open(f"/proc/{self.pid}/cmdline", "rb") as file:
            words = [os.fsdecode(word) for word in file.read().split(b"\0")]
        if os.path.basename(words[0]) != "rattle" or "--crate-name" not in words:
            return None
        in_edit = "/rt-edit" in os.readlink(f"/proc/{self.pid}/cwd")
        return words[words.index("--crate-name") + 1], "edits" if in_edit else "tests" if "--test" in words else "proof"


def processes():
    """All processes, by number."""
    found = {}
    for pid in filter(str.isdigit, os.listdir("/proc")):
        try:
            found[int(pid)] = Process(pid)
        except (OSError, IndexError):
            pass
    return found


class Watch(threading.Thread):
    """Reads the seconds of each process of the prover below the process `root`, until it is stopped."""

    def __init__(self, root):
        super().__init__(daemon=True)
        self.root, self.whole, self.seen = root, 0.0, {}
        self.ends = threading.Event()

    def is_below(self, process, all_of_them):
        while process and process.pid != self.root:
            process = all_of_them.get(process.parent)
        return process is not None

    def run(self):
        while not self.ends.wait(0.5):
            now = processes()
            if self.root in now:
                self.whole = now[self.root].seconds_of_all
            for process in now.values():
                try:
                    work = process.work() if self.is_below(process, now) else None
                except (OSError, IndexError, ValueError):
                    continue
                if work:
                    self.seen[process.pid, process.begun] = *work, process.seconds

    def rows(self):
        """The seconds of each kind, by crate."""
        rows = {}
        for crate, kind, seconds in list(self.seen.values()):
            row = rows.setdefault(crate, dict.fromkeys(KINDS, 0.0))
            row[kind] += seconds
        return rows


def joined(earlier, rows):
    """The rows of this run, and for what it passed over those of earlier runs."""
    whole = dict(earlier)
    for crate, row in rows.items():
        before = dict.fromkeys(KINDS, 0.0) if row["proof"] else earlier.get(crate, {})
        whole[crate] = {kind: max(row[kind], before.get(kind, 0.0)) for kind in KINDS}
    return whole


def table(rows):
    """The table in Markdown: the crates in the order of crates.txt, and a row of sums."""
    with open(f"{TOP}/crates.txt", encoding="utf-8") as file:
        names = [line.split(":")[0].split()[0] for line in file if line.strip() and not line.startswith("#")]
    lines = ["| Crate | Proof | Tests | Edits | Number of edits |", "|---|---|---|---|---|"]
    sums, edits = dict.fromkeys(KINDS, 0.0), 0
    for name in names:
        row = rows.get(name, {})
        number = len(glob.glob(f"{TOP}/crates/{name}/must-fail/*.edit"))
        edits += number
        for kind in KINDS:
            sums[kind] += row.get(kind, 0.0)
        lines.append(f"| `{name}` | {cells(row)} | {number or ''} |")
    return "\n".join([*lines, f"| all | {cells(sums)} | {edits} |"]) + "\n"


def cells(row):
    return " | ".join(f"{row[kind]:.0f}" if row.get(kind) else "" for kind in KINDS)


def minutes(rows):
    return sum(sum(row.values()) for row in rows.values()) / 60


def multiple(whole, rows):
    """A line: how many times as much the whole run took as the proof of one crate in it."""
    unit = rows.get(UNIT, {}).get("proof")
    if not unit:
        return f"This run didn't prove {UNIT}, so there is no unit."
    return f"{whole / unit:.1f} times the proof of {UNIT}, which took {unit:.0f} seconds of a processor in this run."


def about(wall, whole, rows, rows_of_all, log):
    """Three lines: what the run took, in two units, and what the toolchain says of it."""
    text = multiple(whole, rows) + "\n" + (f"{wall / 60:.1f} minutes on {os.cpu_count()} processors, {whole / 60:.1f} minutes of a processor, of which the table "
            f"has {minutes(rows):.1f}, and {minutes(rows_of_all) - minutes(rows):.1f} of earlier runs.")
    try:
        with open(log, encoding="utf-8", errors="replace") as file:
            return "\n".join([text, *[line for line in file.read().split("\n") if line.startswith("rt: ok;")][-1:]])
    except OSError:
        return text


def begun_at(pid):
    """When a process began, in ticks since the machine started. None if it isn't there."""
    try:
        return Process(pid).begun
    except (OSError, IndexError):
        return None


def follow(pid):
    """Follows a run that has begun until it ends. Its watch, what it took, and the status to end with."""
    begun = begun_at(pid)
    if begun is None:
        sys.exit(f"there is no process {pid}")
    watch = Watch(pid)
    watch.start()
    try:
        while begun_at(pid) == begun:
            time.sleep(0.5)
    except KeyboardInterrupt:
        pass
    with open("/proc/uptime", encoding="utf-8") as file:
        return watch, float(file.read().split()[0]) - begun / TICKS, watch.whole, 0


def run(words, log):
    """Runs `rt ci` to its end. Its watch, what it took, and its status."""
    begun = time.time()
    with open(log, "wb") as out:
        gate = subprocess.Popen(["rt", "ci", *words], cwd=TOP, stdin=subprocess.DEVNULL, stdout=out, stderr=out)
    watch = Watch(gate.pid)
    watch.start()
    status = gate.wait()
    used = resource.getrusage(resource.RUSAGE_CHILDREN)
    return watch, time.time() - begun, used.ru_utime + used.ru_stime, status


def main():
    parser = argparse.ArgumentParser(description="Where the time of rt ci goes.", allow_abbrev=False)
    how = parser.add_mutually_exclusive_group()
    how.add_argument("--anew", action="store_true")
    how.add_argument("--pid", type=int)
    parser.add_argument("--log", default="/tmp/rt-ci.log")
    parser.add_argument("--rows", default="/tmp/rt-ci-rows.json")
    parser.add_argument("--table", default="/dev/stdout")
    given = parser.parse_args()
    watch, wall, whole, status = follow(given.pid) if given.pid else run(["--anew"] * given.anew, given.log)
    watch.ends.set()
    watch.join()
    rows, earlier = watch.rows(), {}
    if os.path.exists(given.rows):
        with open(given.rows, encoding="utf-8") as file:
            earlier = json.load(file)
    rows_of_all = joined(earlier, rows)
    with open(given.rows, "w", encoding="utf-8") as file:
        json.dump(rows_of_all, file, indent=1)
    with open(given.table, "w", encoding="utf-8") as file:
        file.write(f"{table(rows_of_all)}\n{about(wall, whole, rows, rows_of_all, given.log)}\n")
    return status


if __name__ == "__main__":
    sys.exit(main())
