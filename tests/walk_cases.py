#!/usr/bin/env python3
"""The scripts of the program walking, and what it must print.

Run it anywhere: it writes crates/walking/stdin and crates/walking/stdout. With a program and a number as arguments it compares that program
with the reading below over so many scripts by chance instead, and ends with 1 if there is a difference.

The reading is by searches where the Rattle code has loops: a second reading of the rules for blanks, comments and tokens, and no outside oracle.
"""
import pathlib
import random
import re
import subprocess
import sys

SIGNS = b"(){};,"
SCRIPTS = [
    b'OUTPUT_FORMAT("elf64-x86-64", "",\'x\')\nENTRY(_start);\n',
    b'SECTIONS {\n  # to the end of the line\n  .text : { *(.text .text.*) } > RAM /* a block */ AT> ROM\n  "a b"=. ; /*/ x /**/ y/*/z\n}\n',
    b'',
    b' \t\r\n/* only * / blanks **/# and comments\n',
    b'a\rb c\r\n\r\td\x0ce\x0c f',
    b'""""a"b"c""',
    b'(){};,( ){ };,\n)',
    b'x = 1; /* not ended',
    b'one two # no line end',
    b'p "not closed ; q',
    b'k\xff\x80\x01 \x7f',
    b'#',
    b'#\n',
    b'/*',
    b'a/*b*/c d#e f\n',
    b',"x y",z',
]


def skipped(s, p):
    """The place after blanks and comments, or None where a comment does not end."""
    while True:
        p = re.compile(rb"[ \t\r\n]*").match(s, p).end()
        comment = re.compile(rb"#|/\*").match(s, p)
        if not comment:
            return p
        ended = re.compile(rb"#[^\n]*(?=\n)|/\*/|/\*.*?\*/", re.S).match(s, p)
        if not ended:
            return None
        p = ended.end()


def token(s, p):
    """Start, length and the place after it, or None."""
    m = re.compile(rb'"([^"]*)"').match(s, p) or re.compile(rb'((?!")[^ (){};,\n\t]+)').match(s, p)
    return m and (m.start(1), len(m[1]), m.end())


def walked(s):
    """The lines of one script."""
    p, lines = 0, []
    while True:
        q = skipped(s, p)
        found = token(s, q) if q is not None else None
        if found:
            lines.append(f"{found[0]} {found[1]}")
            p = found[2]
        elif q == len(s):
            return lines + [f"whole {len(lines)}"]
        elif q is not None and s[q] in SIGNS:
            p = q + 1
        else:
            return lines + [f"stopped {len(lines)} {p if q is None else q}"]


def given(scripts):
    return b"".join(s + b"\0" for s in scripts)


def expected(scripts):
    return "".join(line + "\n" for s in scripts for line in walked(s)).encode()


def by_chance():
    """Scripts of at most 4,096 bytes together."""
    scripts = []
    while True:
        pieces = random.choice([b'ab"#/*\n\t\r (){};,\x0c', b'a"/*#\n ', bytes(range(1, 256))])
        s = bytes(random.choice(pieces) for _ in range(random.randint(0, 40)))
        if len(given(scripts + [s])) > 4096:
            return scripts
        scripts.append(s)


def compared(program, number):
    """How many of the runs differ."""
    random.seed(1)
    done = different = 0
    while done < number:
        scripts = by_chance()
        said = subprocess.run([program], input=given(scripts), stdout=subprocess.PIPE, check=True).stdout
        done, different = done + len(scripts), different + (said != expected(scripts))
    print(f"{done} scripts, {different} runs that differ")
    return different


if __name__ == "__main__":
    if len(sys.argv) > 1:
        sys.exit(compared(sys.argv[1], int(sys.argv[2])) > 0)
    crate = pathlib.Path(__file__).resolve().parent.parent / "crates" / "walking"
    (crate / "stdin").write_bytes(given(SCRIPTS))
    (crate / "stdout").write_bytes(expected(SCRIPTS))
