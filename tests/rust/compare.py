#!/usr/bin/env python3
"""Compares the proved reader with wild's parser: compare.py WILDTREE LISTINGS NUMBER SEED

All groups of scripts.py are compared, with NUMBER scripts by chance. A table says how many were read alike, refused by both,
differ as is known, and differ; each difference is printed, and the smallest scripts that show one. Ends with 1 if there is any.
"""
import collections
import pathlib
import subprocess
import sys

sys.dont_write_bytecode = True

import check
import scripts
from scripts import script_cases

# the most scripts and bytes of one run of the programs
BATCH, BYTES = 5000, 4000000
TOO_LONG = "malformed header: not so many bytes\n"
WORDS = [
    "read alike", "refused by both", "too deep, read by wild", "too deep, refused by wild", "too long, read by wild",
    "too long, refused by wild", "DIFFERENT",
]


def run(program, texts, mode=0):
    """What the program prints for the scripts."""
    given = b"".join(b"%d %d\n%s" % (mode, len(script), script) for script in texts)
    return subprocess.run([program], input=given, stdout=subprocess.PIPE, check=True).stdout.decode()


def listed(texts, mode=0):
    """The listing of each script; a longer one than there may be ends the run of listings, so it has one for itself."""
    if any(len(script) > scripts.LIMIT for script in texts):
        return [run(PROGRAMS[1], [script], mode).removesuffix("\n\n") for script in texts]
    said = run(PROGRAMS[1], texts, mode).split("\n\n")
    assert said.pop() == "", "a listing is cut"
    return said


def batches(texts):
    batch, size = [], 0
    for script in texts:
        if len(batch) == BATCH or size + len(script) > BYTES:
            yield batch
            batch, size = [], 0
        batch.append(script)
        size += len(script)
    if batch:
        yield batch


def judged(texts):
    """For each script a word for the count, and what each side made of it."""
    wild, listings = run(PROGRAMS[0], texts).split("\n"), listed(texts)
    assert wild.pop() == "" and len(wild) == len(listings) == len(texts), "an answer is missing"
    for script, listing, line in zip(texts, listings, wild):
        if len(script) > scripts.LIMIT:
            word = "refused by wild" if line == "refused" else "read by wild"
            yield script, f"too long, {word}" if listing == TOO_LONG else "DIFFERENT", listing, line
            continue
        word, ours = check.verdict(script, listing, line)
        # a limit that wild has not: the reading in Python knows it
        if word.startswith("too deep") and script_cases.listing(0, script) != listing + "\n":
            word = "DIFFERENT"
        yield script, word, ours, line


def smallest(script):
    """The script with pieces left out as long as the two still differ."""
    while True:
        n = len(script)
        sizes = range(1, n + 1) if n < 200 else (n // 2, n // 4, n // 8, n // 16, 1)
        shorter = {script[:i] + script[i + k :] for k in sizes for i in range(0, n - k + 1, 1 if n < 200 else max(1, k))}
        ordered = sorted(shorter, key=lambda s: (len(s), s))
        found = [s for batch in batches(ordered) for s, word, _, _ in judged(batch) if word == "DIFFERENT"]
        if not found:
            return script
        script = found[0]


def compare(title, texts):
    tally, bad = collections.Counter(), []
    for batch in batches(texts):
        for script, word, ours, wild in judged(batch):
            tally[word] += 1
            if word == "DIFFERENT":
                bad.append((script, ours, wild))
    show(title, len(texts), tally)
    for script, ours, wild in bad:
        print(f"DIFFERENT {script!r}\n  listings: {ours}\n  wildtree: {wild}")
    for script in {smallest(script): None for script, _, _ in bad[:20]}:
        [(_, _, ours, wild)] = judged([script])
        print(f"SMALLEST {script!r}\n  listings: {ours}\n  wildtree: {wild}")
    return tally


def reread(title, texts):
    """Places, records and book mode, which wild has not: all of the listing against the reading in Python, in both modes."""
    tally = collections.Counter()
    for mode in (0, 1):
        for batch in batches(texts):
            for script, listing in zip(batch, listed(batch, mode)):
                same = script_cases.listing(mode, script) == listing + "\n"
                tally["read alike" if same and listing.startswith("ok") else "refused by both" if same else "DIFFERENT"] += 1
                if not same:
                    print(f"DIFFERENT in mode {mode} {script!r}\n  listings: {listing!r}")
    show(title, 2 * len(texts), tally)
    return tally


def show(title, number, tally):
    print(f"| {title} | {number:,} | " + " | ".join(f"{tally[word]:,}" for word in WORDS) + " |", flush=True)


def main(number, seed):
    print("| scripts | number | " + " | ".join(WORDS) + " |\n|" + (len(WORDS) + 2) * "---|")
    total, sample = collections.Counter(), []
    for groups in (scripts.fixed(), scripts.by_chance(seed, number), scripts.large(seed)):
        for title, texts in groups:
            total += compare(title, texts)
            sample += [script for script in texts[::40] if len(script) <= scripts.LIMIT]
    show(f"all, seed {seed}", sum(total.values()), total)
    total += reread("each 40th in both modes, against the reading in Python", sample)
    return total["DIFFERENT"]


if __name__ == "__main__":
    PROGRAMS = [str(pathlib.Path(p).resolve()) for p in sys.argv[1:3]]
    sys.exit(main(int(sys.argv[3]), int(sys.argv[4])) > 0)
