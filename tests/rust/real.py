#!/usr/bin/env python3
"""The tables of docs/DIFFERENCES.md over real scripts: real.py WILDTREE LISTINGS FOLDER

FOLDER holds the scripts of GNU binutils (`ldscripts`); what `ld --verbose` prints is taken too. Each is read as it is by the proved
reader in both modes and by wild's module, and again with the words exchanged that 000 does not know (../script_cases.py, MENDED).
Scripts of one ending stand in one row, if their answers are the same. The second table tells of each such word how many scripts
hold it, and how many of them are refused if it alone is left in place.
"""
import collections
import pathlib
import re
import subprocess
import sys

sys.dont_write_bytecode = True

import check
import compare
from scripts import script_cases


def found(folder):
    """Family, ending and script of each."""
    said = subprocess.run(["ld", "--verbose"], stdout=subprocess.PIPE, check=True).stdout
    yield "ld", "--verbose", re.split(rb"^=+\n", said, flags=re.M)[1]
    for file in sorted(pathlib.Path(folder).iterdir()):
        yield *file.name.split("."), file.read_bytes()


def answers(script):
    """What the proved reader answers in both modes, and wild, which must agree with wild mode."""
    listings = [compare.listed([script], mode)[0] for mode in (0, 1)]
    wild = compare.run(compare.PROGRAMS[0], [script]).rstrip("\n")
    word, _ = check.verdict(script, listings[0], wild)
    assert word in ("read alike", "refused by both"), word
    return listings, wild


def word_of(m):
    return re.match(rb"\w+(\(\*\))?", m[0])[0].decode()


def unknown(script):
    """The words of the script that 000 does not know, by their first places."""
    places = {}
    for pattern, _ in script_cases.MENDED:
        for m in re.finditer(pattern, script):
            places[word_of(m)] = min(places.get(word_of(m), len(script)), m.start())
    return sorted(places, key=places.get)


def but_for(script, word):
    """The script with all such words exchanged but this one."""
    for pattern, other in script_cases.MENDED:
        script = re.sub(pattern, lambda m: m[0] if word_of(m) == word else m.expand(other), script)
    return script


def example(script, word):
    """Such a word as it stands, and what is put in its place."""
    for pattern, other in script_cases.MENDED:
        for m in re.finditer(pattern, script):
            if word_of(m) == word:
                put = m.expand(other).decode()
                text = re.sub(r'"[^"]*"', '".."', m[0].decode())
                return f"`{text}`: " + (f"`{put}`" if put else "nothing")


def stop(script, place):
    """The word at the place of a refusal, and the first word that is unknown."""
    here = re.match(rb"\w+|.", script[place:])[0].decode()
    return f"`{here}` {'behind' if here == '(' else 'for'} `{unknown(script)[0]}`"


def main(folder):
    rows, examples, same = collections.defaultdict(list), {}, 0
    holders, stopped = collections.Counter(), collections.Counter()
    for family, ending, script in found(folder):
        listings, wild = answers(script)
        first, second = (listing.split("\n")[0].split(" ") for listing in listings)
        assert first == second and first[0] == "refused", "a script that is read"
        then, tree = answers(script_cases.exchanged(script))
        assert tree != "refused", "a script that is not mended"
        same += then[0] == then[1]
        for word in unknown(script):
            holders[word] += 1
            examples.setdefault(word, example(script, word))
            stopped[word] += answers(but_for(script, word))[1] == "refused"
        kind = next((k for k in ("elf", "pe") if k in family), family)
        answer = f"{first[1]} | {second[1]} | {wild} | {stop(script, int(first[2]))}"
        rows[kind, ending, answer].append((family, len(script), int(first[2]), then[0].split(" ")[1]))
    before = None
    for (_, ending, answer), scripts in rows.items():
        families = [family for family, *_ in scripts]
        if families != before:
            heads = " | ".join(f"`{family}`" for family in families)
            print(f"\n| | {heads} | mode 0 | mode 1 | wild | word there | then |\n|" + (len(families) + 6) * "---|")
            before = families
        cells = " | ".join(f"{size:,} at {place}" for _, size, place, _ in scripts)
        print(f"| `{ending}` | {cells} | {answer} | {' '.join(records for *_, records in scripts)} |")
    print("\n| word | held by | refused for it | exchanged, for example |\n|---|---|---|---|")
    for word, n in holders.most_common():
        print(f"| `{word}` | {n} | {stopped[word]} | {examples[word]} |")
    print(f"\n{sum(map(len, rows.values()))} scripts; with the words exchanged, {same} have the same listing in both modes")


if __name__ == "__main__":
    compare.PROGRAMS = [str(pathlib.Path(p).resolve()) for p in sys.argv[1:3]]
    main(sys.argv[3])
