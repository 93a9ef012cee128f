#!/usr/bin/env python3
"""Looks for shapes that grow: growth.py TIMING NUMBER SEED [comments] makes scripts of repeated pieces and prints those whose time a byte grows.

A script has one or two pieces, each so often that it is 64,000 bytes long; the same shape of 8,000 bytes, read eight times, is held against it. With
`comments`, marks of comments are put into the pieces.
"""
import random
import subprocess
import sys
import time

LONG, SHORT, TIMES = 64000, 8000, 8
SUSPECT, GROWN, AGAIN = 0.015, 2.2, 5  # seconds of a run that is looked at; how much longer is grown; runs, of which the best counts

VALUES = (
    "+1 *a -(1) <<2 &&b ||c ?1:2 +MAX(1,2) +ALIGN(4) +SIZEOF(.a) +~1 +!a +ABSOLUTE(1) +SEGMENT_START(\"a\",1) +ASSERT(1,\"m\") ==1 +. "
    "+(1+(2)) +0x10K +DEFINED(a) +SIZEOF_HEADERS +ALIGN(1,2) +LOADADDR(.a)"
).split()
PATTERNS = ["a ", "*(b) ", "SORT(a)", "SORT(a) ", "SORT_BY_NAME(b)", "SORT_BY_ALIGNMENT(c) ", "KEEP(a)", "a(b", "=1 ", "1,", '"x" ', "SORT "]
CONTENTS = [
    "*(a)", "KEEP(*(a))", "KEEP(*(a) ", "KEEP(x(SORT(a)", "PROVIDE(a = 1);", "PROVIDE(a = 1 x)", "PROVIDE_HIDDEN(a = 1)", "PROVIDE(a =(1)",
    'ASSERT(1,"m")', "ASSERT(1,m);", "ASSERT(1 + 1)", 'ASSERT(1,"m" )', "a = 1;", "a = 1 ", ". = 1;", "a += 1;", "CONSTRUCTORS", "CONSTRUCTORS ",
    "*(SORT(a))", "a(b c);", "*SIZEOF(a)", "+SIZEOF(.a)", 'PROVIDE("a" = 1)', 'PROVIDE("a)', 'ASSERT(1,"x)', '"a"(b)', 'a("b)', 'KEEP(a("b" )',
    "CONSTRUCTORSx(a)", "PROVIDEx = 1;", "KEEPx(a)", "a<<=1;", "x(=1)", "*(1)",
]
SECTIONS = [
    "a :{}", "a :{*(b)}", ". = 1;", "a = 1;", "PROVIDE(a = 1);", "ASSERT(1,m)", "a 1 :{}", "a (NOLOAD) :{}", "a (1) :{}", "a (1)+(2) :{}",
    "a : AT(1){}", "a :{}>b", "a :{} :c", "a :{} =1", "a :{},", "a 1 2 3 :{}", "a (COPY) 1 :{}", '"a" :{}', "a :{x(y)}>z:w=1,", "a (a) (b) :{}",
]
COMMANDS = [
    "a ", "a.o\n", "GROUP(a b)", "INPUT(a)", "AS_NEEDED(a)", "OUTPUT_ARCH(a)", "ENTRY(a)", "x = 1;", "x = 1 ", "VERSION{a}", "VERSION{{}}", "SECTIONS{}",
    "MEMORY{}", "PHDRS{}", "PROVIDE(a = 1);", "ASSERT(1,m)", "OUTPUT_FORMAT(a)", "OUTPUT_FORMAT(a,b,c)", '"a" ', "SECTIONS{a :{}}",
    "MEMORY{a :o=1,l=1}", "GROUP(AS_NEEDED(a) b)", "a=1 ",
]
REGIONS = ["a :o=1,l=1 ", "a (r) :ORIGIN=1,LENGTH=2 ", "a :org=1,len=1\n", '"a" :o = 1 , l = 1 ']
SEGMENTS = ["a 1;", "a PT_LOAD;", "a PT_LOAD FLAGS(1);", "a 1 FILEHDR PHDRS;", "a PT_LOAD FLAGS(1) FLAGS(2);"]
PLACES = [
    ("", COMMANDS, ""), ("GROUP(", COMMANDS, ")"), ("SECTIONS{", SECTIONS, "}"), *3 * [("SECTIONS{a :{", CONTENTS, "}}")], ("x = 1", VALUES, ";"),
    ("SECTIONS{a :{a = 1", VALUES, ";}}"), ("SECTIONS{a :{PROVIDE(a = 1", VALUES, ")}}"), ("SECTIONS{a :{*(", PATTERNS, ")}}"),
    ("SECTIONS{a :{KEEP(*(", PATTERNS, "))}}"), ("MEMORY{", REGIONS, "}"), ("PHDRS{", SEGMENTS, "}"),
    ("SECTIONS{a :{}", [">b ", ":c ", "=1 ", ">b:c"], "}"), ("SECTIONS{a :", ["AT(1)", "ALIGN(4) ", "AT(1+1)"], "{}}"),
    ("SECTIONS{a ", ["1 ", "(1) ", "(NOLOAD) ", "a ", "(COPY) "], ":{}}"),
]
EVERY = [piece for _, pieces, _ in PLACES for piece in pieces]
MARKS = ["/*", "/* ", "*/", "*/ ", "#", "\n", "/**/"]


def piece(by, pieces, comments):
    """A few pieces; some have a byte less, and some a mark in them."""
    text = "".join(by.choice(pieces if by.random() < 0.9 else EVERY) for _ in range(by.randint(1, 3)))
    if by.random() < 0.25 and len(text) > 1:
        at = by.randrange(len(text))
        text = text[:at] + text[at + 1 :]
    if comments and by.random() < 0.7:
        at = by.randrange(len(text) + 1)
        text = text[:at] + by.choice(MARKS) + text[at:]
    return text


def script(length, head, first, middle, second, tail):
    room = length // (2 if second else 1)
    return head + first * (room // len(first)) + middle + (second * (room // len(second)) if second else "") + tail


def seconds(program, text, times=1):
    began = time.perf_counter()
    subprocess.run([program], input=b"0 %d\n%s" % (times, text.encode()), stdout=subprocess.DEVNULL, check=True)
    return time.perf_counter() - began


def main(program, number, seed, comments):
    by, grown = random.Random(seed), 0
    for _ in range(number):
        head, pieces, tail = by.choice(PLACES)
        second = by.random()
        shape = (
            head, piece(by, pieces, comments), piece(by, pieces, comments) if by.random() < 0.3 else "",
            "" if second < 0.4 else piece(by, pieces if second < 0.8 else by.choice(PLACES)[1], comments), tail,
        )
        long, short = script(LONG, *shape), script(SHORT, *shape)
        if seconds(program, long) < SUSPECT:
            continue
        one = min(seconds(program, long) for _ in range(AGAIN))
        other = min(seconds(program, short, TIMES) for _ in range(AGAIN))
        if one > GROWN * other:
            grown += 1
            print(f"{one * 1000:.1f} ms for {other * 1000:.1f}: {shape!r}", flush=True)
    print(f"{number} shapes, {grown} grow")


if __name__ == "__main__":
    main(sys.argv[1], int(sys.argv[2]), int(sys.argv[3]), sys.argv[4:] == ["comments"])
