#!/usr/bin/env python3
"""What one more gate costs behind sums of growing size, in instructions, as valgrind's callgrind counts them.

usage: gate_cost.py PROGRAM

The sum is that of a turn by an eighth on the parity of k qubits, which has k + k(k-1)/2 + k(k-1)(k-2)/6 terms. Behind it
come many gates of one kind that no step of rewriting follows, in both texts of a question. A row has the terms, and the
instructions of a gate of each kind, its statement read:

  turn      u1(pi/4) on qubits that are inputs: a term waits
  flip      x on such qubits: an output is 1 where it was 0
  control   cx on such qubits: an output is added to another
  path      cx and then h on one of two qubits: a path variable comes in, and the one before it stays in the other output
"""
import random
import subprocess
import sys
import tempfile
from pathlib import Path

HEAD = 'OPENQASM 2.0;\ninclude "qelib1.inc";\nqreg q[64];\n'
GATES = 2_000
# So many path variables on both sides are too many to compare the two sums, which would cost more than the gates.
PATHS = (200, 240)


def parity(k):
    return "".join(f"cx q[{i}],q[0];\n" for i in range(1, k)) + "t q[0];\n"


def kinds():
    """Of each kind fewer and more gates, and by how many they differ."""
    draw = random.Random(1)
    single = [draw.randrange(1, 60) for _ in range(GATES)]
    pairs = [draw.sample(range(61, 64), 2) for _ in range(GATES)]
    path = "cx q[62],q[63];\nh q[62];\n"
    return {
        "turn": ("", "".join(f"u1(pi/4) q[{q}];\n" for q in single), GATES),
        "flip": ("", "".join(f"x q[{q}];\n" for q in single), GATES),
        "control": ("", "".join(f"cx q[{c}],q[{t}];\n" for c, t in pairs), GATES),
        "path": (path * PATHS[0], path * PATHS[1], 2 * (PATHS[1] - PATHS[0])),
    }


def instructions(program, text):
    """How many instructions the question takes whether the text is itself."""
    with tempfile.TemporaryDirectory() as folder:
        counts = Path(folder) / "counts"
        command = ["valgrind", "--tool=callgrind", f"--callgrind-out-file={counts}", program, "same"]
        subprocess.run(command, input=(text + "====\n" + text).encode(), capture_output=True, check=False)
        totals = [line for line in counts.read_text().splitlines() if line.startswith("totals:")]
    return int(totals[0].split()[1])


def main():
    program = sys.argv[1]
    gates = kinds()
    print("| Terms | " + " | ".join(gates) + " |")
    print("|---|" + "---|" * len(gates))
    for k in (10, 20, 30, 40, 50, 60):
        start = HEAD + parity(k)
        each = []
        for fewer, more, count in gates.values():
            spent = instructions(program, start + more) - instructions(program, start + fewer)
            each.append(f"{spent // (2 * count):,}")
        terms = k + k * (k - 1) // 2 + k * (k - 1) * (k - 2) // 6
        print(f"| {terms:,} | " + " | ".join(each) + " |", flush=True)


if __name__ == "__main__":
    main()
