"""What the benchmarks share: both programs, and the processor time that they take."""
import pathlib
import resource
import subprocess
import sys

CRATES = pathlib.Path(__file__).resolve().parent.parent / "crates"
PROGRAM = CRATES / "alphamu" / "out" / "alphamu"
WORKLOADS = CRATES / "bench_work" / "out" / "bench_work"


def build_workloads():
    """Proves and builds the program with the workloads, whose first word is the name of one. Only a run builds it, so it runs a short one."""
    words = ["rt", "run", "--", "fronts"]
    subprocess.run(words, cwd=WORKLOADS.parent.parent, check=True, stdout=subprocess.DEVNULL, stderr=subprocess.DEVNULL)


def processor_seconds(words):
    """Seconds of the processor that a program takes, which other work on the machine changes little, and what it prints."""
    before = resource.getrusage(resource.RUSAGE_CHILDREN)
    done = subprocess.run([str(word) for word in words], capture_output=True, text=True)
    after = resource.getrusage(resource.RUSAGE_CHILDREN)
    if done.returncode != 0:
        sys.exit(f"{words}: status {done.returncode}, {done.stderr}")
    return after.ru_utime + after.ru_stime - before.ru_utime - before.ru_stime, done.stdout


def seconds_of_runs(words, idle_words, runs, times):
    """Seconds of the processor that a run takes more than an idle one: the least of some sums over this many runs each."""
    def least(asked):
        sums = []
        for _ in range(times):
            before = resource.getrusage(resource.RUSAGE_CHILDREN)
            for _ in range(runs):
                subprocess.run(asked, stdout=subprocess.DEVNULL, stderr=subprocess.DEVNULL)
            after = resource.getrusage(resource.RUSAGE_CHILDREN)
            sums.append(after.ru_utime + after.ru_stime - before.ru_utime - before.ru_stime)
        return min(sums)
    return max(least(words) - least(idle_words), 1e-6) / runs
