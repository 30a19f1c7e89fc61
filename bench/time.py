#!/usr/bin/env python3
"""Times a built `pathsum` on the pairs that make_plain.py wrote, and compares its answers.

usage: time.py FOLDER PROGRAM [OTHER]      with OTHER, a second program beside the first

A row has, for each program, the seconds by the clock, those of the processor, and the most memory that it held, in
MiB. What stands there last is `ok`, or the answer that isn't the one wanted. The status is 1 where any is wrong.
"""
import os
import subprocess
import sys
import tempfile
import time
from pathlib import Path

SECONDS = 120


def peak_memory(pid):
    """The most memory that a running process held so far, in MiB."""
    try:
        for line in Path(f"/proc/{pid}/status").read_text().splitlines():
            if line.startswith("VmHWM:"):
                return int(line.split()[1]) / 1024
    except OSError:
        pass
    return 0.0


def run(program, given):
    """Seconds by the clock and of the processor, MiB, and what was printed."""
    with open(given, "rb") as pair, tempfile.TemporaryFile() as printed:
        start = time.perf_counter()
        child = subprocess.Popen([program, "same"], stdin=pair, stdout=printed)
        peak = 0.0
        while True:
            peak = max(peak, peak_memory(child.pid))
            ended, _, used = os.wait4(child.pid, os.WNOHANG)
            wall = time.perf_counter() - start
            if ended:
                break
            if wall > SECONDS:
                child.kill()
            time.sleep(0.002)
        child.returncode = 0
        printed.seek(0)
        return wall, used.ru_utime + used.ru_stime, peak, printed.read().decode(errors="replace").strip()


def main():
    if len(sys.argv) not in (3, 4):
        sys.exit(__doc__)
    folder, programs = Path(sys.argv[1]), sys.argv[2:]
    wrong = 0
    head = "".join(f"{'seconds':>10}{'processor':>10}{'MiB':>8}  " for _ in programs)
    print(f"{'pair':16}{head}answer")
    for given in sorted(folder.glob("*.pair")):
        wanted = given.with_suffix(".answer").read_text().strip().split("|")
        row, notes = "", []
        for program in programs:
            wall, cpu, peak, printed = run(program, given)
            row += f"{wall:10.3f}{cpu:10.3f}{peak:8.1f}  "
            right = any(printed == answer or answer.endswith("*") and printed.startswith(answer[:-1]) for answer in wanted)
            notes.append("ok" if right else f"WRONG: {printed[:60]!r}, not {wanted[0][:60]!r}")
            wrong += not right
        print(f"{given.stem:16}{row}{', '.join(notes)}", flush=True)
    sys.exit(1 if wrong else 0)


if __name__ == "__main__":
    main()
