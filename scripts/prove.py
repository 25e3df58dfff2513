#!/usr/bin/env python3
"""Proves and builds the program, with a line on standard error for each crate.

`rt all check` takes crates that don't stand on each other side by side, with one job each. So the crate at the bottom is
proved before, and those at the top, which stand on all others, are proved behind: alone, so that rt gives them more.
What the prover says is kept in crates/vale/out/prove.log, which is named where a crate fails.
"""
import os
import re
import signal
import subprocess
import sys
import time
from pathlib import Path

CRATES = Path(__file__).resolve().parent.parent / "crates"
BOTTOM, DRIVER, PROGRAM = "x64_syntax", "vale_driver", "vale"
LOG = CRATES / PROGRAM / "out/prove.log"


def below(crate, rows):
    """The crate and those of the repository that it stands on."""
    found, left = set(), [crate]
    while left:
        name = left.pop()
        if name in rows and name not in found:
            found.add(name)
            left += rows[name]
    return found


class Progress:
    """Which crates are proved, and how long it took so far."""

    def __init__(self, crates):
        self.left, self.all, self.begun = set(crates), len(crates), time.monotonic()

    def proved(self, crate):
        if crate not in self.left:
            return
        self.left.remove(crate)
        so_far = int(time.monotonic() - self.begun)
        done = self.all - len(self.left)
        say(f"{done} of {self.all} crates: {crate} is proved, {so_far // 60} min {so_far % 60:02} s so far")


def say(text):
    print(f"vale: {text}", file=sys.stderr, flush=True)


def lines_of(command, crate, log):
    """Runs a command in a crate's folder, and gives each line of what it says, and then its status."""
    run = subprocess.Popen(
        command, cwd=CRATES / crate, stdin=subprocess.DEVNULL, stdout=subprocess.PIPE, stderr=subprocess.STDOUT,
        text=True, errors="replace", start_new_session=True)
    try:
        for line in run.stdout:
            log.write(line)
            yield line
    finally:
        if run.poll() is None:
            try:
                os.killpg(run.pid, signal.SIGTERM)
            except ProcessLookupError:
                pass
        run.wait()
    return run.returncode


def alone(command, crate, log):
    """Whether a command of one crate ends well."""
    lines = lines_of(command, crate, log)
    while True:
        try:
            next(lines)
        except StopIteration as end:
            return end.value == 0


def side_by_side(progress, tops, log):
    """Proves all crates but those at the top; gives the one that fails, if one does."""
    jobs, crate = str(os.cpu_count() or 1), None
    for line in lines_of(["rt", "all", "check", "--jobs", jobs], PROGRAM, log):
        # What is said of a crate comes once it ended; of one that was proved before, only the summary says so.
        section, ended = re.match(r"== (\w+)$", line), re.match(r"(\w+): (ok|failed)", line)
        if section:
            crate = section.group(1)
        elif ended and ended.group(2) == "failed":
            return ended.group(1)
        elif ended or line.startswith("logic=proved"):
            progress.proved(ended.group(1) if ended else crate)
        if progress.left <= tops:
            return None
    return min(progress.left - tops, default=None)


def prove(log):
    """Proves and builds all crates; gives the one that fails, if one does."""
    table = (CRATES.parent / "crates.txt").read_text()
    rows = {name.strip(): low.split() for name, _, low in (line.partition(":") for line in table.splitlines())}
    progress, tops = Progress(below(PROGRAM, rows)), {DRIVER, PROGRAM}
    if not alone(["rt", "lib"], BOTTOM, log):
        return BOTTOM
    progress.proved(BOTTOM)
    failed = side_by_side(progress, tops, log)
    if failed:
        return failed
    if not alone(["rt", "lib"], DRIVER, log):
        return DRIVER
    progress.proved(DRIVER)
    # Without words the program only answers with its usage.
    alone(["rt", "run"], PROGRAM, log)
    if not (CRATES / PROGRAM / "out" / PROGRAM).exists():
        return PROGRAM
    progress.proved(PROGRAM)
    return None


def main():
    LOG.parent.mkdir(exist_ok=True)
    with open(LOG, "w", encoding="utf-8") as log:
        failed = prove(log)
    if failed:
        say(f"{failed} could not be proved: see {LOG}")
    return int(failed is not None)


sys.exit(main())
