#!/usr/bin/env python3
"""Chooses the stored list of the program listings, and writes its stdin and stdout: choose.py LISTINGS FOLDER

LISTINGS is the program, FOLDER a place to build in. A copy of wild's module is built that tells by which places of it a reading
comes, and with what outcome: each `?` (read or failed), each skipping (nothing, blanks, a comment, one without end), each branch,
each try of `alt`, `opt`, `not` and `repeat_till` (which was read; for one given up, the line where it failed). To these come the
outcomes that a listing shows: each kind of record under each kind that can hold it, its words, each refusal and the command it
stands at. What a place of wild's module shows counts apart for scripts that are read and for scripts that are refused.

The scripts of scripts.py are gone through from the shortest on, and one is taken if it has an outcome that too few of those before
it have: three for each, one in book mode and for an expression's kind under another. Chosen by hand: the sheet of ../script_cases.py,
what is easily read otherwise, the rows of docs/DIFFERENCES.md, levels 100 and 101, and long ones.

The answers are written by the reading in ../script_cases.py; in wild mode wild's own module must make the same tree of each, and
LISTINGS must print them all. The same SEED and NUMBER give the same files.
"""
import collections
import pathlib
import re
import shutil
import subprocess
import sys

sys.dont_write_bytecode = True

import check
import compare
import scripts
from scripts import script_cases

HERE = pathlib.Path(__file__).resolve().parent
CRATE = HERE.parent.parent / "crates" / "listings"
SEED, NUMBER = 20261115, 120000
# scripts for each outcome; the longest that is chosen for one
WANTED, LONGEST = 3, 400

# ---- a copy of linker_script.rs that tells where a reading comes by; its lines are those of the file


def traced(text):
    """Every `?`, every skipping and every branch of the parsing functions with a call of the stand-in's module trace."""
    lines = text.split("\n")
    first = next(i for i, line in enumerate(lines) if line.startswith("fn parse_token"))
    last = next(i for i, line in enumerate(lines) if line.startswith("fn foreach_input"))
    for i in range(first, last):
        n, line = i + 1, lines[i]
        line = line.replace("skip_comments_and_whitespace(input)?", f"winnow::trace::skip({n}, input, skip_comments_and_whitespace)@?")
        line = re.sub(r"multispace0(\.parse_next)?\(input\)\?", f"winnow::trace::blanks({n}, input)@?", line)
        line = re.sub(r"\)\?", f").noted({n})?", line).replace("@?", "?")
        if re.search(r"\b(if|while|loop|else)\b.*\{$|^ +\{$| => \{$", line):
            line += f" winnow::trace::arm({n});"
        elif m := re.fullmatch(r"( +)(.* => )(.*),", line):
            line = f"{m[1]}{m[2]}{{ winnow::trace::arm({n}); {m[3]} }},"
        lines[i] = line
    return "\n".join(lines).replace("use winnow::BStr;", "use winnow::BStr; use winnow::trace::Noted as _;", 1)


def build(folder):
    """Two programs: the one that prints trees, and one that prints behind each tree what was come by."""
    copy = folder / "traced"
    shutil.rmtree(copy, ignore_errors=True)
    shutil.copytree(HERE, copy, ignore=shutil.ignore_patterns("target", "*.py"))
    module = copy / "src" / "linker_script.rs"
    module.write_text(traced(module.read_text()))
    cargo = ["cargo", "build", "--offline", "--release", "-j1", "--quiet"]
    for source, name, more in ((HERE, "plain", []), (copy, "with-trace", ["--features", "trace"])):
        where = ["--manifest-path", str(source / "Cargo.toml"), "--target-dir", str(folder / name)]
        subprocess.run([*cargo, *where, *more], check=True)
        yield str(folder / name / "release" / "wildtree")


# ---- outcomes that a listing shows

CHILDREN = {n: 0 for n in (1, 2, 3, *range(30, 37), 38, 40, 43, 45, 46, 56, 59, 60, 62, 64, 66)}
CHILDREN |= {n: 2 for n in (*range(4, 24), 52)} | {n: 1 for n in (*range(24, 28), 37, 39, 47, 48, 49, 50, 57, 58, 61, 67)} | {28: 3}
# words that count something or choose something
COUNTS = {29: "a", 41: "a", 42: "a", 44: "a", 49: "c", 51: "a", 53: "a", 54: "cd", 55: "c", 62: "abcd", 63: "c", 64: "c", 65: "cd"}
CHOICES = {(54, "c"), (55, "c"), (62, "b"), (65, "c")}
EXPRESSIONS, OPERATORS = range(1, 40), range(4, 24)
NAMED = {2, *range(30, 38), 39, 40, 45, 46, 47, 49, 50, 52, 54, 55, 56, 59, 60, 63, 64, 65}


def children(kind, words, below):
    """How many of the texts before it a record takes."""
    if kind in CHILDREN:
        return CHILDREN[kind]
    a, _, c, d = words
    if kind == 63:
        parts = below[-1][1]
        return 1 + parts[0] + parts[2] + parts[3] + c
    return {54: 1 + d, 55: c, 65: d}.get(kind, a)


def shown(script, listing):
    """The outcomes of a listing."""
    first, *lines = listing.split("\n")
    words = first.split(" ")
    if words[0] == "refused":
        command = re.match(rb'"?(\w*)', script[int(words[2]) :])[1].decode("latin-1")
        return {("refused", words[1], command if command in script_cases.KEYWORDS else "")}
    found, stack = set(), []
    for line in lines:
        kind, *words = map(int, line.split(" "))
        for letter in COUNTS.get(kind, ""):
            word = words["abcd".index(letter)]
            found.add((kind, letter, word if (kind, letter) in CHOICES else min(word, 2)))
        if kind in NAMED and words[1] == 0 and (kind, words[2] & 2) != (65, 2):
            found.add((kind, "no name"))
        n = children(kind, words, stack)
        for i, (child, its) in enumerate(stack[len(stack) - n :]):
            # two operators by their kinds; elsewhere an operator is one like another
            pair = child in OPERATORS and kind in OPERATORS
            held, holder = (child, kind) if pair else ("operator" if k in OPERATORS else k for k in (child, kind))
            found.add((held, "under", holder, i if kind < 30 else 0))
            if kind == 54 and child == 1 and (its[0] < 8 or its[0] >> 8 == 0x6474E5):
                found.add(("segment", its[0]))
        del stack[len(stack) - n :]
        stack.append((kind, words))
    return found | {(kind, "at the top") for kind, _ in stack}


def wanted(outcome, mode):
    """How many scripts an outcome is to have; in book mode, which shares all but the operators' rows, one."""
    expression = len(outcome) == 4 and outcome[0] in ("operator", *EXPRESSIONS)
    return 1 if mode or expression else WANTED


# ---- chosen by hand

# what is easily read otherwise, and the rows of docs/DIFFERENCES.md
NOTED = [
    f"SECTIONS {{ a : {{ PROVIDE(x = {101 * '('}1) }} }}", f"SECTIONS {{ a : {{ ASSERT({101 * '-'}1, m) }} }}",
    "SECTIONS { a : { PROVIDE(x = 1 + 2 y) } }", "SECTIONS { a : { KEEP(*(.a .b) c) } }", "SECTIONS { a 1 2 (COPY) 3 + 4 : {} }",
    "OUTPUT_ARCH(a x = 1 GROUP(b)) c", "x = 0x", "x = 0x0123456789abcdef0", "SECTIONS { a : {} =0x0123456789abcdef0 }", "x = 10H",
    "x = $10", '"GROUP"(a)', 'SECTIONS { "ASSERT"(1, m) }',
    'SECTIONS { a ("NOLOAD") : {} }', 'SECTIONS { a : "AT"(1) {} }', 'PHDRS { a "PT_LOAD" }',
    'SECTIONS { a : { "KEEP"(*(b)) } }', 'x = "a"', "a\rb", "x = 1\f",
    *(f"x = a {x} b {y} c" for x, y in zip("& ^ | == == == ==".split(), "== == == & ^ | <".split())), "x = a ^ b", "x = 1/2",
    "x = 1/*c*/;", "x = 1 /*c*/ + 2",
    "x = (/*c*/ 1)", "x = /*c*/ 1", 'ASSERT(a /*c*/, "m")', 'ASSERT(/*c*/ a, "m")', 'ASSERT(a #c\n, "m")', "x = a/b", "x = a-b", "x = +1",
    "x = a (b)", "x = 1 (b)", "x = LOG2CEIL(4)", 'x = SIZEOF("a")', 'x = SEGMENT_START("", 1)',
    "SECTIONS { .a : {} > R AT> F .b : {} }", "a", "x =/*c*/ 1", "PROVIDE(x =/*c*/ 1)", "SECTIONS { a : {} =/*c*/ 1 }",
    "PHDRS { a 1 FLAGS(/*c*/ 1) }", ";", "x = 1;;", "OUTPUT_FORMAT(a);", "SECTIONS { x = 1 }", "SECTIONS { a : { x = 1 } }", "x = 1",
    "GROUP()", "AS_NEEDED(a)", 'SEARCH_DIR("a")', "INCLUDE a", "HIDDEN(x = 1)", "VERSION { a /*}*/ }",
    "MEMORY { R (rx) : ORIGIN = 0, LENGTH = 1 }",
    "PHDRS { a PT_LOAD }", "PHDRS { a 1 AT(2); }", "PHDRS { a 1 PHDRSFILEHDR }", "SECTIONS { ENTRY(m) }", "SECTIONS { a 1 2 : {} }",
    "SECTIONS { a : {} =1 =2 }", "SECTIONS { a : SUBALIGN(1) {} }", "SECTIONS { a : { BYTE(1) } }", "SECTIONS { a : { b.o } }",
    "SECTIONS { a : { *(b, c) } }", 'SECTIONS { a : { *("b c") } }', "SECTIONS { a : { KEEP( *(b)) } }", "SECTIONS { a : { KEEP(*(b) } }",
    "SECTIONS { a : { *(SORT(SORT(b))) } }", "SECTIONS { a : { *(SORT( SORT(b)) } }", "SECTIONS { a : { .=ALIGN(4); } }",
    # a try in another order, and a gap before `;`
    "SECTIONS { a : { CONSTRUCTORS(b) } }", "SECTIONS { a : { KEEP(*(b)) ; } }", "SECTIONS { a : { KEEP(*(b)) /*c*/ ; } }",
]


def by_hand():
    """Pairs of a mode and a script that are stored whatever they show."""
    both = [text.encode() for text in [*(text for text, _, _ in script_cases.SHEET), *NOTED, *levels()]]
    for script in both:
        yield from ((0, script), (1, script))
    maker = scripts.Maker(SEED)
    pool = scripts.commands_alone(maker, 100)
    yield 0, scripts.long_of(maker, pool, scripts.LIMIT).encode("latin-1")
    yield 1, scripts.filled("SECTIONS { a : {", scripts.LIMIT - 4, "PROVIDE(a b)").encode() + b"} }("
    for mode, file in ((0, "elf_x86_64.xr"), (1, "i386pe.xr")):
        yield mode, script_cases.exchanged((script_cases.FOLDER / file).read_bytes())
    yield from ((2, b"a"), (12345678901, b""))


def levels():
    """Level 100 and 101 by each thing that opens one."""
    for n in (100, 101):
        yield from (scripts.opened(n * [way], "a") for way in scripts.GROUPS.values())
        yield from ("x = " + scripts.opened(n * [way], "1") for way in scripts.WAYS.values())


# ---- the choice


def candidates():
    """The scripts of all groups that are not too long, of the short ones each fourth; the shortest first."""
    found = {}
    for groups in (scripts.fixed(), scripts.by_chance(SEED, NUMBER), scripts.large(SEED)):
        for title, texts in groups:
            found.update((script, None) for script in texts[:: 4 if title.startswith("short") else 1] if len(script) <= LONGEST)
    return sorted(found, key=lambda script: (len(script), script))


def choose(program):
    """The scripts taken in each mode, how often each outcome was met, and how many of the scripts taken have it."""
    reached, covered = ({0: collections.Counter(), 1: collections.Counter()} for _ in range(2))
    taken = {0: [], 1: []}
    for batch in compare.batches(candidates()):
        lines = compare.run(program, batch).split("\n")
        said = [compare.listed(batch, mode) for mode in (0, 1)]
        for i, script in enumerate(batch):
            come_by = lines[2 * i + 1].split(" ")
            for mode in (0, 1):
                # for book mode too the places count that wild's module came by, where the script is read
                read = said[mode][i].startswith("ok")
                places = [("read " if read else "refused ") + word for word in come_by if read or not mode]
                outcomes = {o: wanted(o, mode) for o in [*shown(script, said[mode][i]), *places]}
                reached[mode].update(outcomes)
                if any(covered[mode][o] < least for o, least in outcomes.items()):
                    covered[mode].update(outcomes)
                    taken[mode].append(script)
    return taken, reached, covered


def confirm(chosen):
    """All answers by LISTINGS, and those of wild mode by wild's module too."""
    given, wanted_text = ((CRATE / name).read_bytes() for name in ("stdin", "stdout"))
    said = subprocess.run([compare.PROGRAMS[1]], input=given, stdout=subprocess.PIPE, check=True).stdout
    assert said == wanted_text, "listings prints something else"
    tally = collections.Counter()
    for batch in compare.batches([script for mode, script in chosen if mode == 0]):
        for script, word, _, _ in compare.judged(batch):
            assert word != "DIFFERENT", script
            tally[word] += 1
    return tally


def report(title, reached, covered):
    full = sum(covered[o] >= WANTED for o in reached)
    print(f"{title}: {len(reached)} outcomes met, {sum(covered[o] > 0 for o in reached)} covered, {full} by {WANTED} scripts or more")


def main(program):
    taken, reached, covered = choose(program)
    chosen = list(dict.fromkeys([*by_hand(), *((mode, script) for mode in (0, 1) for script in taken[mode])]))
    (CRATE / "stdin").write_bytes(b"".join(b"%d %d\n%s" % (mode, len(script), script) for mode, script in chosen) + b"0 1 \na")
    script_cases.streams()
    tally = confirm(chosen)
    print(", ".join(f"{sum(m == mode for m, _ in chosen)} in mode {mode}" for mode in (0, 1)) + "; wild: " + str(dict(tally)))
    for mode in (0, 1):
        places = {o: n for o, n in reached[mode].items() if isinstance(o, str)}
        report(f"mode {mode}, places of wild's module", places, covered[mode])
        report(f"mode {mode}, tries given up", {o: n for o, n in places.items() if not o.endswith("<0")}, covered[mode])
        report(f"mode {mode}, listings", {o: n for o, n in reached[mode].items() if o not in places}, covered[mode])
        kinds = {int(line.split()[0]) for m, script in chosen if m == mode for line in script_cases.listing(m, script).split("\n")[1:-1]}
        print(f"mode {mode}, kinds of records without a script: {sorted({*range(1, 68)} - kinds)}")
    lines = {re.search(r" (\d+)", o)[1] for o in reached[0] if isinstance(o, str)}
    print(len(lines), "lines of linker_script.rs")


if __name__ == "__main__":
    plain, with_trace = build(pathlib.Path(sys.argv[2]).resolve())
    compare.PROGRAMS = [plain, str(pathlib.Path(sys.argv[1]).resolve())]
    main(with_trace)
