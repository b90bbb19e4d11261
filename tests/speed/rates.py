#!/usr/bin/env python3
"""Measures libpazdrig_pthread.so next to the C library, in turn in one run: rates.py [TURNS [MILLISECONDS [CASE..]]].

A case is KIND:PROCESSES, with the kinds of rates.c. Prints medians of all turns: operations a second, CPU time of each,
and both as ratios to the C library's, then what was missed. Wants an idle machine; lmdb and tdb need their libraries.
LIBRARY names another library than out/libpazdrig_pthread.so.
"""
import os
import shutil
import statistics
import subprocess
import sys
import tempfile

TOP = os.path.dirname(os.path.dirname(os.path.dirname(os.path.abspath(__file__))))
OUT = os.path.join(TOP, "out/speed")
# case: the least ratio of rates, the most of CPU times, the most nanoseconds of CPU time more
GOALS = {
    "lmdb:1": (0.95, 1.2, None),
    "lmdb:4": (0.95, 1.2, None),
    "lmdb:8": (0.95, 1.2, None),
    "lmdb:16": (0.95, 1.2, None),
    "lmdb:64": (0.95, 1.2, None),
    "tdb:1": (0.97, None, None),
    "tdb:4": (1.5, None, None),
    "robust:1": (None, 1.0, None),
    "private:1": (None, None, 3.0),
}


def has(header):
    """Whether the compiler finds a header."""
    test = subprocess.run([os.environ.get("CC", "cc"), "-E", "-"], input=f"#include <{header}>\n", text=True,
                          capture_output=True)
    return test.returncode == 0


def build():
    """Builds rates.c with the libraries that are there, and returns the program's path and its kinds."""
    program, kinds, words = os.path.join(OUT, "rates"), ["private", "robust"], []
    for kind in ("lmdb", "tdb"):
        if has(f"{kind}.h"):
            kinds.append(kind)
            words += [f"-DHAS_{kind.upper()}", f"-l{kind}"]
    os.makedirs(OUT, exist_ok=True)
    subprocess.run([os.environ.get("CC", "cc"), "-std=c11", "-D_GNU_SOURCE", "-O2", "-Wall", "-Wextra", "-pthread",
                    os.path.join(TOP, "tests/speed/rates.c"), "-o", program, *words], check=True)
    return program, kinds


def once(program, library, case, milliseconds, place):
    """Runs a case, and returns its rate and the CPU time of an operation."""
    kind, processes = case.split(":")
    environment = {name: value for name, value in os.environ.items() if name != "LD_PRELOAD"}
    if library:
        environment["LD_PRELOAD"] = library
    path = os.path.join(place, "file")
    run = subprocess.run([program, kind, path, processes, str(milliseconds)], env=environment, text=True,
                         capture_output=True, check=False)
    for name in (path, path + "-lock"):
        if os.path.exists(name):
            os.unlink(name)
    if run.returncode:
        sys.exit(f"rates.py: {case}: {run.stderr}")
    rate, cpu = run.stdout.split()
    return float(rate), float(cpu)


def compare(program, library, case, turns, milliseconds, place):
    """Prints a case's line, and returns which of its goals were missed."""
    runs = {None: [], library: []}
    for turn in range(turns):
        for it in (None, library) if turn % 2 == 0 else (library, None):
            runs[it].append(once(program, it, case, milliseconds, place))
    (rate, cpu), (their_rate, their_cpu) = (
        [statistics.median(run[i] for run in runs[it]) for i in (0, 1)] for it in (library, None))
    ratios = [statistics.median(a[i] / b[i] for a, b in zip(runs[library], runs[None])) for i in (0, 1)]
    more = cpu - their_cpu
    print(f"{case:10} {their_rate:12.0f} {rate:12.0f} {ratios[0]:6.2f} {their_cpu:10.1f} {cpu:10.1f} {ratios[1]:6.2f}",
          flush=True)
    least, most, most_more = GOALS.get(case, (None, None, None))
    missed = []
    if least and ratios[0] < least:
        missed.append(f"{case}: {ratios[0]:.2f} of the rate, not {least}")
    if most and ratios[1] > most:
        missed.append(f"{case}: {ratios[1]:.2f} times the CPU time, not {most}")
    if most_more and more > most_more:
        missed.append(f"{case}: {more:.1f} ns more, not {most_more}")
    return missed


def main():
    """Measures the cases, or all that have goals."""
    words = sys.argv[1:]
    turns, milliseconds = int(words[0]) if words else 9, int(words[1]) if words[1:] else 250
    library = os.environ.get("LIBRARY", os.path.join(TOP, "out/libpazdrig_pthread.so"))
    program, kinds = build()
    place = tempfile.mkdtemp(prefix="rates.", dir="/dev/shm")
    print(f"medians of {turns} turns of {milliseconds} ms, load average {os.getloadavg()[0]:.1f}")
    print(f"{'':10} {'C library':>12} {'preloaded':>12} {'ratio':>6} {'CPU ns':>10} {'preloaded':>10} {'ratio':>6}")
    missed = []
    try:
        for case in words[2:] or GOALS:
            if case.split(":")[0] in kinds:
                missed += compare(program, library, case, turns, milliseconds, place)
            else:
                print(f"{case}: not tried: no library")
    finally:
        shutil.rmtree(place)
    print("\n".join(missed) if missed else "all goals are met")
    return 1 if missed else 0


sys.exit(main())
