#!/usr/bin/env python3
"""Writes a job to standard output. Put your own circuit, vectors and classes here, then

    python3 examples/make_job.py > my.job && examples/judge.sh my.job

A job that breaks a rule is made all the same, and the report tells which rule and where. Only what no field of the
image can hold ends this script with an error: a number below 0 or too large, a class of another letter.
The bytes are those of docs/SCOPE.md, section 5.
"""
import struct
import sys

# A full adder: line 0 and line 1 are added, line 2 is the carry in, and line 3, where 0 goes in, is the carry out.
LINES = 4

# Each gate: its control lines, then its target line. Gate 1 comes first.
GATES = [
    ([0, 1], 3),
    ([0], 1),
    ([1, 2], 3),
    ([1], 2),
]

# Each vector is a number whose bit j is line j, so that line 0 is the last digit.
VECTORS = [0b0000, 0b0111, 0b0101]

# S stuck-at, M missing gate, C missing control, X extra control
CLASSES = "SMCX"


def image(lines, gates, vectors, classes):
    """The bytes of a job: a header of 28 bytes, 12 for each gate, 4 for each vector."""
    wanted = sum(1 << "SMCX".index(letter) for letter in set(classes))
    vectors_at = 28 + 12 * len(gates)
    length = vectors_at + 4 * len(vectors)
    words = []
    for controls, target in gates:
        words += [sum(1 << line for line in set(controls)), 0, target]
    words += vectors
    header = struct.pack("<4H5I", 1, lines, wanted, 0, len(gates), len(vectors), 28, vectors_at, length)
    return header + struct.pack(f"<{len(words)}I", *words)


if __name__ == "__main__":
    sys.stdout.buffer.write(image(LINES, GATES, VECTORS, CLASSES))
