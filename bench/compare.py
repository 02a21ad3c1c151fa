"""Counts and times the workloads of bench/workloads.txt in two built checkouts: bench/run OLD NEW [SEED]."""

import os
import subprocess
import sys
import time
from concurrent.futures import ThreadPoolExecutor
from statistics import median

from commands import instructions

# How often each side runs a workload, and the rounds of the short run of which the instructions are counted.
TURNS, SHORT = 9, {"requests": "60", "negotiation": "25", "log": "20", "writing": "25", "awkward": "3"}


def workloads(top):
    """Each workload's name, and its program and words."""
    with open(f"{top}/bench/workloads.txt", encoding="ascii") as file:
        for line in filter(str.strip, file):
            name, crate, *words = line.split()
            yield name, crate, words


def once(top, crate, words):
    """The seconds that a run takes, and what it prints."""
    given = words[-1][1:] if words[-1].startswith("<") else os.devnull
    with open(f"{top}/bench/{given}" if given != os.devnull else given, "rb") as file:
        began = time.perf_counter()
        ended = subprocess.run(
            [f"{top}/crates/{crate}/out/{crate}", *(word for word in words if word[0] != "<")],
            stdin=file,
            stdout=subprocess.PIPE,
            cwd=f"{top}/bench",
            check=True,
        )
        return time.perf_counter() - began, ended.stdout


def counted(sides, seed):
    """The millions of instructions that a short run of each workload takes in each checkout."""
    runs = [[f"{top}/crates/mime_jobs/out/mime_jobs", name, seed, rounds] for name, rounds in SHORT.items() for top in sides]
    with ThreadPoolExecutor(os.cpu_count()) as pool:
        counts = [count / 1e6 for count in pool.map(lambda words: instructions(words, b""), runs)]
    return dict(zip(SHORT, zip(counts[::2], counts[1::2])))


def compare(old, new, seed):
    """Counts and runs each workload by turns, and prints the counts, both medians and their ratio. The first turn isn't counted."""
    counts = counted((old, new), seed)
    os.sched_setaffinity(0, {max(os.sched_getaffinity(0))})
    print(f"seed {seed}, {TURNS} turns, millions of instructions of a short run")
    print(f"{'workload':<14}{'old, s':>8}{'new, s':>8}{'old/new':>9}{'old, M':>9}{'new, M':>9}   digest", flush=True)
    for name, crate, words in workloads(new):
        words = [seed if word == "SEED" else word for word in words]
        times = {old: [], new: []}
        for _ in range(TURNS + 1):
            said = {side: once(side, crate, words) for side in (old, new)}
            if said[old][1] != said[new][1]:
                sys.exit(f"{name}: the outputs differ: {said[old][1]!r} and {said[new][1]!r}")
            for side, found in times.items():
                found.append(said[side][0])
        before, after = (median(times[side][1:]) for side in (old, new))
        millions = "".join(f"{count:9.1f}" for count in counts[name])
        print(f"{name:<14}{before:8.3f}{after:8.3f}{before / after:9.2f}{millions}   {said[new][1].decode().strip()}", flush=True)
