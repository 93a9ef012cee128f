#!/usr/bin/env python3
"""Counts the places that docs/DESIGN-PASS.md speaks of: `python3 tools/places.py [FOLDER] [-v]`, -v lists them."""
import glob
import re
import sys

args = [a for a in sys.argv[1:] if a != "-v"]
verbose = "-v" in sys.argv
root = args[0] if args else "."


def read(pattern):
    return {f[len(root) + 1:]: open(f).read() for f in sorted(glob.glob(root + "/" + pattern, recursive=True))}


code = read("crates/*/src/*.rt")
proofs = read("crates/*/proofs/**/*.antt")
bare = {f: re.sub(r"(?m)^\s*//.*$", "", t) for f, t in code.items()}


def places(pattern, texts=bare):
    return [(f, m.group(0).split("\n")[0].strip()) for f, t in texts.items() for m in re.finditer(pattern, t)]


def show(point, what, found):
    print("%s  %-58s %4d" % (point, what, len(found)))
    if verbose:
        for f, text in found:
            print("       %s: %s" % (f, text[:110]))


show("1", "enums declared", places(r"(?m)^\s*(?:pub(?:\(crate\))? )?enum \w+"))
show("1", "a variant taken apart by hand, the rest handed on", places(r"let [\w:]*\w+::\w+\([^;]*?\) = \w+ else \{\s*return"))
show("1", "tries: all but failure is returned", places(r"let \w+::(?:Fail|Nothing) = \w+ else"))
show("1", "numbers for kinds of records", places(r"(?:tape::push\([^;]*?|sign\w*\([^;]*?|named\([^;]*?|parts::\w+\([^;]*?)(?:, \d\d?)(?=[,)])"))
show("1", "words of 0 and 1 for a choice", places(r"\b(?:hidden|keep|sorted|kind|which|op|by|start|attribute|floor): (?:u64|usize)\b"))
show("2", "read_full", places(r"fn read_full\b"))
show("2", "signs of two, of three; rows of each mode; times_", places(r"fn (?:sign_of_\w+|wild_row|book_row|times_\w+)\b"))
show("2", "print, print_number", places(r"fn print(?:_number)?\b"))
show("3", "loops by `while` and `loop`", places(r"(?m)^\s*(?:while|loop)\b.*\{"))
show("3", "of them with an index or a count of turns", places(r"(?m)^\s*while (?:0 < turns|\w+ < [\w.()/]+|0 < i)[^{]*\{"))
show("4", "derives of Clone and Copy alone", places(r"#\[derive\(Clone, Copy\)\]"))
show("4", "conversions by hand", places(r"fn (?:step|counted|with_heading|with_words|mode_of|to|before|chosen_of|settled|number|place|rows)\("))
show("5", "`mode` and `left` as two parameters", places(r"mode: Mode,\s*left: usize"))
show("5", "script, table, filled and mode as four", places(r"table: &(?:mut )?\[u64\],(?:\s*marks: &mut \[u8\],)?\s*filled: usize"))
show("5", "requires that the table is known", places(r"requires[^{\n]*\{ Known "))
show("5", "requires that marks are true", places(r"requires[^{\n]*\{ Marked "))
show("5", "requires that there is room", places(r"requires[^{\n]*\{ Room "))
show("5", "five words of a record as parameters", places(r"tape::push\((?:(?!Record)[^;])*?(?:,(?:(?!Record)[^,;])*){6}\)"))
show("6", "arrays of a fixed length in code", places(r"= (?:\[0(?:u8|u64)?; \w+\]|\*b\")|: \[u8; \d+\] ="))
show("7", "enums that say which step to run, with the switch", places(r"match (?:self|which|row|op|class) \{"))
show("8", "files of answers", [(f, "") for f in proofs if f.endswith("Answers.antt")])
show("8", "lines of proof without comments and imports", [(f, "") for f, t in proofs.items() for line in t.split("\n") if line.strip() and not re.match(r"\s*(?:--|use )", line)] if not verbose else [])
show("8", "lines of code without comments and imports", [(f, "") for f, t in code.items() for line in t.split("\n") if line.strip() and not re.match(r"\s*(?://|use |ghost use )", line)] if not verbose else [])
