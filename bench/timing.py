"""Runs a program and says how long it took and how much memory it used, for the scripts here."""
import os
import re
import resource
import subprocess
import tempfile
import time

TOP = os.path.dirname(os.path.dirname(os.path.abspath(__file__)))
PROGRAM = os.path.join(TOP, "crates", "ksplice_cli", "out", "ksplice_cli")
PARTS = os.path.join(TOP, "crates", "bench_parts", "out", "bench_parts")
LIMIT, LONG = 60, 10


def prove():
    """Makes the proved program, where it isn't there or older than its sources: what is timed has no checks."""
    subprocess.run([os.path.join(TOP, "prove")], check=True)


def prove_parts():
    """Proves and builds the program that carries out parts by themselves, where it isn't there."""
    if not os.path.exists(PARTS):
        subprocess.run(["rt", "run", "--", "place", "64", "100"], cwd=os.path.join(TOP, "crates", "bench_parts"),
                       stdout=subprocess.DEVNULL, check=True)


def processor_time():
    """How many seconds of a processor the programs took that ran here and have ended: other work on the machine hardly
    changes them."""
    used = resource.getrusage(resource.RUSAGE_CHILDREN)
    return used.ru_utime + used.ru_stime


def timed(command, folder, out, clock=time.perf_counter):
    """The shortest of three runs and what the last wrote, or None where a run took longer than the limit."""
    best = None
    for _ in range(3):
        start = clock()
        try:
            done = subprocess.run(command, cwd=folder, stdout=out, stderr=subprocess.DEVNULL, check=False,
                                  timeout=LIMIT)
        except subprocess.TimeoutExpired:
            return None
        took = clock() - start
        best = took if best is None else min(best, took)
        if took > LONG:
            break
    return best, done


def counted(command, folder):
    """How many instructions a run has, by valgrind, and what it wrote."""
    done = subprocess.run(["valgrind", "--tool=callgrind", "--callgrind-out-file=callgrind.out"] + command, cwd=folder,
                          stdout=subprocess.PIPE, stderr=subprocess.PIPE, text=True, check=False)
    return int(re.search(r"Collected : (\d+)", done.stderr).group(1)), done.stdout


def peak(command, folder):
    """The most memory in use, in bytes, by GNU time: what Python starts counts as much memory as Python has itself."""
    with tempfile.NamedTemporaryFile("r") as report:
        subprocess.run(["/usr/bin/time", "--format=%M", f"--output={report.name}", "--quiet"] + command, cwd=folder,
                       stdout=subprocess.DEVNULL, stderr=subprocess.DEVNULL, check=False)
        return int(report.read()) * 1024
