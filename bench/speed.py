#!/usr/bin/env python3
"""Times two programs side by side on families of circuits of growing size, and writes a table in Markdown.

usage: speed.py PROGRAM PLAIN [--data FOLDER] [--limit SECONDS] [--times N] [--only FAMILY,..]
       speed.py --write FOLDER

PROGRAM is a built pathsum, PLAIN one that answers as it does. Without --data the families are this folder's own
(make_circuits.py and make_plain.py), as --write writes them. With it they are those of FOLDER/manifest.json, a list of
records with `family`, `size`, `words` (the command: same or prove) and `file`. A run that takes longer than the limit
(60 seconds) is ended.

Seconds are those of the processor, user and system, the least of N runs (3, or 1 where a run takes over two
seconds). Growth is the power of the size with which the time grows from at most half of the greatest size to it, where
both take PROGRAM (or PLAIN) a hundredth of a second or more. The peak is what the system tells of the ended process;
this script's own size, which is told where a program takes less, stands as `<`. The exit status is 1 where two answers
differ.
"""
import argparse
import json
import math
import os
import subprocess
import sys
import tempfile
import time
from collections import defaultdict
from pathlib import Path


def write_inputs(folder):
    """Writes this folder's families and their manifest."""
    import make_circuits as known
    import make_plain as plain

    made = []

    def put(family, size, pair):
        name = f"{family}_{size}.in"
        (folder / name).write_text(pair)
        made.append({"family": family, "size": size, "words": "same", "file": name})

    def two(qubits, first, second):
        return known.text(qubits, first) + "====\n" + known.text(qubits, second)

    for k in (4, 8, 16, 32):
        put("ladder", k, two(2 * k - 1, known.ladder(k, False), known.ladder(k, True)))
    for bits in (2, 4, 8, 16, 31):
        put("adder", bits, two(2 * bits + 2, known.adder(bits, False), known.adder(bits, True)))
    for bits in (2, 4, 8, 16, 28):
        put("draper", bits, two(2 * bits, known.draper(bits, False), known.draper(bits, True)))
    for qubits in (4, 8, 16, 30):
        put("fourier", qubits, two(qubits, known.fourier(qubits, False), known.fourier(qubits, True)))
    for bits in (4, 8, 16, 21):
        put("multiplier", bits, two(3 * bits, known.multiplier(bits, False), known.multiplier(bits, True)))
    for qubits in (4, 8, 16, 40):
        put("shift", qubits, two(qubits, known.hidden_shift(qubits, False), known.hidden_shift(qubits, True)))
    for qubits in (3, 4, 6, 10, 16):
        put("grover", qubits, two(2 * qubits - 2, known.grover(qubits, False), known.grover(qubits, True)))
    for gates in (500, 1000, 2000, 4000):
        put("clifford", gates, two(32, known.clifford(32, gates, False), known.clifford(32, gates, True)))
    for gates in (250, 500, 1000, 2000):
        put("mirror", gates, two(20, known.mirror(20, gates, 1), []))
    for lines in (7_500, 15_000, 30_000, 60_000):
        for name, first, second in plain.pairs(60, lines):
            if name in ("triples", "wide", "single", "undone"):
                put(name, lines, first.text() + "====\n" + second.text())
    (folder / "manifest.json").write_text(json.dumps(made))


def listed_inputs(folder):
    """The families that a manifest lists."""
    records = json.loads((folder / "manifest.json").read_text())
    return [(r["family"], r["size"], r["words"], folder / r["file"]) for r in records if r["words"] in ("same", "prove")]


def run(program, words, given, limit):
    """Seconds of the processor, MB at the peak, and the answer; or None where it took too long."""
    with open(given, "rb") as text, tempfile.TemporaryFile() as printed:
        child = subprocess.Popen([program] + words.split(), stdin=text, stdout=printed)
        start = time.monotonic()
        pause = 0.0005
        while True:
            ended, status, used = os.wait4(child.pid, os.WNOHANG)
            if ended:
                break
            if time.monotonic() - start > limit:
                child.kill()
                os.wait4(child.pid, 0)
                child.returncode = 1
                return None
            time.sleep(pause)
            pause = min(0.05, pause * 1.3)
        child.returncode = 0
        printed.seek(0)
        return used.ru_utime + used.ru_stime, used.ru_maxrss / 1024, (status, printed.read())


def best(program, words, given, limit, times):
    """The quickest of some runs."""
    least = run(program, words, given, limit)
    for _ in range(times - 1):
        if least is None or least[0] > 2:
            break
        again = run(program, words, given, limit)
        if again is not None and again[0] < least[0]:
            least = again
    return least


def growth(sizes, seconds):
    """The power with which the time grows from at most half of the greatest size to it, where both take long enough."""
    known = [(n, s) for n, s in zip(sizes, seconds) if s is not None and s >= 0.01]
    less = [(n, s) for n, s in known if 2 * n <= known[-1][0]]
    if not less:
        return "-"
    (n, s), (m, t) = less[-1], known[-1]
    return f"{math.log(t / s) / math.log(m / n):.1f}"


def told(seconds):
    return "over" if seconds is None else f"{seconds:.3f}"


def row(family, runs, floor):
    """A line of the table, and the ratio at the largest size that either answers."""
    runs.sort(key=lambda r: r[0])
    sizes = [size for size, _, _ in runs]
    ours = [None if r is None else r[0] for _, r, _ in runs]
    plain = [None if r is None else r[0] for _, _, r in runs]
    done = [r for r in runs if r[1] is not None or r[2] is not None]
    if not done:
        return f"| {family} | {sizes[-1]} | no run ended | | | | | |", None
    size, mine, theirs = done[-1]
    ratio = mine[0] / theirs[0] if mine and theirs else None
    peaks = "/".join("over" if r is None else f"{r[1]:.0f}" if r[1] > floor else f"<{floor:.0f}" for r in (mine, theirs))
    answer = (theirs or mine)[2][1].split(b"\n")[0].decode(errors="replace")
    answer = " ".join(answer.split()[:2])[:18] if answer.startswith("unknown") else answer.split(" ")[0][:18]
    steps = f"{sizes[0]} to {sizes[-1]}"
    rise = f"{growth(sizes, ours)}/{growth(sizes, plain)}"
    cell = "-" if ratio is None else f"{ratio:.2f}"
    return f"| {family} | {steps} | {answer} | {told(mine and mine[0])} | {told(theirs and theirs[0])} | {cell} | {rise} | {peaks} |", ratio


def main():
    words = argparse.ArgumentParser(description=__doc__, formatter_class=argparse.RawDescriptionHelpFormatter)
    words.add_argument("program", nargs="?")
    words.add_argument("plain", nargs="?")
    words.add_argument("--write", type=Path)
    words.add_argument("--data", type=Path)
    words.add_argument("--limit", type=float, default=60)
    words.add_argument("--times", type=int, default=3)
    words.add_argument("--only")
    given = words.parse_args()
    if given.write:
        given.write.mkdir(parents=True, exist_ok=True)
        return write_inputs(given.write)
    if not given.plain:
        words.error("two programs are wanted")
    with tempfile.TemporaryDirectory() as made:
        if not given.data:
            # in a process of its own, so that this one stays small
            subprocess.run([sys.executable, __file__, "--write", made], check=True)
        inputs = listed_inputs(given.data or Path(made))
        floor = run("true", "", os.devnull, 60)[1] * 1.02
        families = defaultdict(list)
        wrong = []
        for family, size, command, path in inputs:
            if given.only and family not in given.only.split(","):
                continue
            mine = best(given.program, command, path, given.limit, given.times)
            theirs = best(given.plain, command, path, given.limit, given.times)
            if mine and theirs and mine[2] != theirs[2]:
                wrong.append(f"{family} {size}")
            families[family].append((size, mine, theirs))
    print("| Family | Sizes | Answer | Seconds | Plain | Ratio | Growth | Peak MB |")
    print("|---|---|---|---|---|---|---|---|")
    ratios = []
    for family, runs in families.items():
        line, ratio = row(family, runs, floor)
        print(line)
        if ratio:
            ratios.append(ratio)
    if ratios:
        mean = math.exp(sum(map(math.log, ratios)) / len(ratios))
        print(f"\nOver {len(ratios)} families the geometric mean of the ratios is {mean:.2f}, and the greatest {max(ratios):.1f}.")
    if wrong:
        print("\nAnswers differ: " + ", ".join(wrong))
        sys.exit(1)


if __name__ == "__main__":
    main()
