#!/usr/bin/env python3
"""Nanoseconds a byte of the proved reader, of wild's module and of a bare pass: measure.py TIMING WILDTREE BARE [SHAPE ..]

Each reads the same script again and again. All are measured in turn, and that several times over; the best of each counts, less the best run
that reads the script not at all.
"""
import subprocess
import sys
import time

sys.dont_write_bytecode = True
from shapes import SHAPES

LENGTHS = (1024, 8192, 65536)
ENOUGH, LONG, ROUNDS, RUNS = 0.02, 2, 5, 3  # seconds of one run, at least; of one that is not made again; rounds over all; runs in each


def run(command, times, script):
    """Seconds, and the number printed."""
    began = time.perf_counter()
    said = subprocess.run(command, input=b"0 %d\n%s" % (times, script), stdout=subprocess.PIPE, check=True).stdout
    return time.perf_counter() - began, int(said)


class Cell:
    """A program and a script: how often it is read in one run, its count, and the best times so far."""

    def __init__(self, command, script):
        self.command, self.script, self.times = command, script, 1
        self.idle = min(run(command, 0, script)[0] for _ in range(RUNS))
        self.best, self.count = self.sure()
        while self.best - self.idle < ENOUGH:
            self.times *= 4
            self.best, sum_ = self.sure()
            self.count = sum_ // self.times

    def sure(self):
        """One run, and where it seems long enough others, since a run may have been disturbed."""
        best, sum_ = run(self.command, self.times, self.script)
        for _ in range(RUNS if ENOUGH < best < LONG else 0):
            best = min(best, run(self.command, self.times, self.script)[0])
        return best, sum_

    def again(self):
        for _ in range(RUNS if self.best < LONG / 10 else 0):
            self.idle = min(self.idle, run(self.command, 0, self.script)[0])
            self.best = min(self.best, run(self.command, self.times, self.script)[0])

    def __str__(self):
        return f"{(self.best - self.idle) / self.times / len(self.script) * 1e9:.1f}"


def cells(script, timing, wild, bare):
    ours = Cell([timing], script)
    return [ours, Cell([wild, "repeated"], script), Cell([bare, str(ours.count)], script)]


if __name__ == "__main__":
    table = {shape: [cells(SHAPES[shape](n), *sys.argv[1:4]) for n in LENGTHS] for shape in sys.argv[4:] or SHAPES}
    for _ in range(ROUNDS):
        for row in table.values():
            for three in row:
                for cell in three:
                    cell.again()
    print("| shape: ns a byte, ours / wild's / bare | 1 KB | 8 KB | 64 KB |\n|---|---|---|---|")
    for shape, row in table.items():
        print("| " + " | ".join([shape.replace("|", "\\|")] + [" / ".join(map(str, three)) for three in row]) + " |")
