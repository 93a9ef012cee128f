#!/usr/bin/env python3
"""The cases of the programs readtest, listing and listings, and what they must print.

Run it anywhere: it writes stdin and stdout of those crates. The cases of expr_cases.py come first, as it
has them; whole scripts follow, as modes 2 (wild) and 3 (book). The input of listings is chosen by rust/choose.py; here its
answers are written.

The reading below is a second one of the same rules, and no outside oracle. Commands are from wild's linker_script.rs (000) and
bear its names, one function for each of its functions; records are those of docs/RECORDS.md, 100 levels may be opened, and a
refusal stands after the last command that was read whole. A rule that fails raises; a try catches that and gives place, level and records back. Too deep is another exception,
which no try catches. Expressions are read by expr_cases.py.

The scripts in ldscripts are those of GNU binutils 2.40, with their notices. 000 reads none of them as they are; most are
taken with the words exchanged that 000 does not know, and are read then.
"""
import collections
import itertools
import pathlib
import re
import sys

sys.dont_write_bytecode = True

import expr_cases
from expr_cases import BASE, BOOK, KINDS, LEVELS, MODULUS, SHOWN, TOKEN, WILD, Deep, Fail, Reading, some

# ---- the reading

Name = collections.namedtuple("Name", "start text")

ATTRIBUTES = [b"NOLOAD", b"READONLY", b"DSECT", b"COPY", b"INFO", b"OVERLAY"]
SEGMENTS = {b"PT_" + word: n for n, word in enumerate(b"NULL LOAD DYNAMIC INTERP NOTE SHLIB PHDR TLS".split())} | {
    b"PT_GNU_" + word: n for n, word in enumerate(b"EH_FRAME STACK RELRO PROPERTY SFRAME".split(), 0x6474E550)
}
# the signs of a compound assignment, each an operator and '='
COMPOUND = [b"+=", b"-=", b"*=", b"/=", b"<<=", b">>=", b"&=", b"|=", b"^="]
ASSIGN = re.compile(rb"=(?![=/])")
# a pattern name ends at ')', a blank or a form feed
PATTERN = re.compile(rb"[^) \t\n\r\x0c]+")
BRACE = re.compile(rb"[{}]")
# the line before a script in the input of listings: mode and length
HEADER = re.compile(rb"(\d+) (\d+)\n")


class Script(Reading):
    """A whole script: beside what a reading of an expression has, what the answer tells."""

    def __init__(self, script, mode):
        super().__init__(script, mode)
        self.place, self.count, self.version = 0, 0, None

    # bytes

    def word(self, *words):
        """The first of the words that stands here, and it is passed; else None."""
        for word in words:
            if self.at(word):
                self.p += len(word)
                return word
        return None

    def must(self, *words):
        word = self.word(*words)
        if word is None:
            raise Fail
        return word

    def token(self):
        m = self.need(TOKEN)
        which = 1 if m[1] is not None else 2
        return Name(m.start(which), m[which])

    def name(self, kind, name, c=0, d=0):
        self.add(kind, name.start, len(name.text), c, d)

    # tries and lists

    def attempt(self, rule):
        """What the rule gives, or None with all as before."""
        p, depth, held = self.p, self.depth, len(self.records)
        try:
            return rule()
        except Fail:
            self.p, self.depth = p, depth
            del self.records[held:]
            return None

    def repeat_till(self, rule, end):
        """How often the rule was read; its end mark is tried first."""
        n = 0
        while not self.word(end):
            rule()
            n += 1
        return n

    # commands

    def commands(self):
        self.comments()
        self.place = self.p
        while self.p < len(self.s):
            self.command()
            self.count += 1
            self.place = self.p

    def paren_group(self):
        """The level opens with the bracket, before anything behind it is skipped."""
        self.byte(b"(")
        if self.depth == LEVELS:
            raise Deep
        self.depth += 1
        self.comments()
        n = self.repeat_till(self.command, b")")
        self.depth -= 1
        return n

    def command(self):
        name = self.token()
        self.comments()
        special = self.COMMANDS.get(name.text)
        if special:
            special(self)
        else:
            self.symbol_definition(name)
        self.comments()

    def group(self):
        self.add(41, self.paren_group())

    def as_needed(self):
        self.add(42, self.paren_group())

    def output_arch(self):
        held = len(self.records)
        self.paren_group()
        del self.records[held:]
        self.add(43)

    def top_assert(self):
        self.assertion()
        self.word(b";")
        self.comments()

    def symbol_definition(self, name):
        """An assignment, or the name alone as an argument."""
        sign = self.assignment_op()
        if not sign:
            return self.name(40, name)
        self.target(name, sign)
        self.comments()
        self.expression()
        self.comments()
        self.word(b";")
        self.assigned(name, sign)

    def output_format(self):
        self.byte(b"(")
        self.comments()
        default = self.token()
        self.comments()
        others = 0
        if self.word(b","):
            self.comments()
            self.name(56, self.token())
            self.comments()
            self.byte(b",")
            self.comments()
            self.name(56, self.token())
            self.comments()
            others = 2
        self.byte(b")")
        self.name(55, default, others)

    def entry(self):
        self.comments()
        self.byte(b"(")
        self.comments()
        symbol = self.token()
        self.comments()
        self.byte(b")")
        self.name(45, symbol)

    def version_body(self):
        """Braces count wherever they stand, in comments and quotes too."""
        self.comments()
        self.byte(b"{")
        self.comments()
        start, open_braces = self.p, 1
        while open_braces:
            open_braces += 1 if self.s[self.seek(BRACE)] == ord("{") else -1
        body = Name(start, self.s[start : self.p - 1])
        self.comments()
        self.word(b";")
        self.name(46, body)
        # commands stand at level 0 at the top only
        if self.depth == 0 and self.version is None:
            self.version = body

    def seek(self, pattern):
        """Where the pattern is met next; it is passed."""
        m = pattern.search(self.s, self.p)
        if not m:
            raise Fail
        self.p = m.end()
        return m.start()

    def provide(self, hidden=False):
        self.byte(b"(")
        self.comments()
        name = self.token()
        self.comments()
        self.byte(b"=")
        self.comments()
        self.expression()
        self.comments()
        self.byte(b")")
        self.comments()
        self.word(b";")
        self.comments()
        self.name(49, name, int(hidden))

    def provide_hidden(self):
        self.provide(True)

    def assertion(self):
        """ASSERT as a command: its expression opens no level."""
        bracket = self.p
        self.byte(b"(")
        self.comments()
        self.expression()
        self.comments()
        self.byte(b",")
        self.comments()
        message = self.token()
        self.comments()
        self.byte(b")")
        self.comments()
        self.name(50, message, bracket)

    # memory and segments

    def memory(self):
        self.byte(b"{")
        self.comments()
        n = self.repeat_till(self.memory_region, b"}")
        self.comments()
        self.add(51, n)

    def memory_region(self):
        """Behind the length only the blanks of its expression are skipped."""
        name = self.token()
        self.comments()
        self.byte(b":")
        self.comments()
        self.must(b"ORIGIN", b"org", b"o")
        self.comments()
        self.byte(b"=")
        self.comments()
        self.expression()
        self.comments()
        self.byte(b",")
        self.comments()
        self.must(b"LENGTH", b"len", b"l")
        self.comments()
        self.byte(b"=")
        self.comments()
        self.expression()
        self.name(52, name)

    def phdrs(self):
        self.byte(b"{")
        self.comments()
        n = self.repeat_till(self.phdr, b"}")
        self.comments()
        self.add(53, n)

    def phdr(self):
        name = self.token()
        self.comments()
        if self.at(b"PT_"):
            segment = self.token().text
            if segment not in SEGMENTS:
                raise Fail
            self.add(1, SEGMENTS[segment])
        else:
            self.expression()
        self.comments()
        filehdr = phdrs = flags = 0
        while word := self.word(b"FLAGS", b"FILEHDR", b"PHDRS"):
            self.comments()
            if word == b"FILEHDR":
                filehdr = 1
            elif word == b"PHDRS":
                phdrs = 2
            else:
                self.byte(b"(")
                self.expression()
                self.byte(b")")
                self.add(67)
                flags += 1
            self.comments()
        self.word(b";")
        self.comments()
        self.name(54, name, filehdr + phdrs, flags)

    # assignments

    def assignment_op(self):
        """The sign of an assignment, or None."""
        sign = self.word(*COMPOUND)
        if not sign and self.match(ASSIGN):
            sign = b"="
        return sign

    def target(self, name, sign):
        """A compound assignment's own target is its first operand."""
        if sign == b"=":
            return
        if name.text == b".":
            self.add(3)
        else:
            self.name(2, name)

    def assigned(self, name, sign):
        if sign != b"=":
            self.add(KINDS[sign[:-1].decode()])
        if name.text == b".":
            self.add(48)
        else:
            self.name(47, name)

    # sections

    def sections(self):
        self.byte(b"{")
        self.comments()
        n = self.repeat_till(self.section_command, b"}")
        self.comments()
        self.add(44, n)

    def section_command(self):
        name = self.token()
        self.comments()
        if name.text == b"ASSERT":
            return self.assertion()
        if name.text in (b"PROVIDE", b"PROVIDE_HIDDEN"):
            return self.provide(name.text == b"PROVIDE_HIDDEN")
        sign = self.assignment_op()
        if not sign:
            return self.section(name)
        self.target(name, sign)
        self.comments()
        self.expression()
        self.comments()
        self.byte(b";")
        self.comments()
        self.assigned(name, sign)

    def section(self, name):
        start, attribute, held = 0, 0, len(self.records)
        while not self.at(b":"):
            found = self.attempt(self.section_attribute)
            if found:
                attribute = found
            else:
                # of start expressions only the last stays
                del self.records[held:]
                self.expression()
                start = 1
            self.comments()
        self.byte(b":")
        self.comments()
        before = 0
        while not self.at(b"{"):
            kind = 58 if self.must(b"AT", b"ALIGN") == b"AT" else 57
            self.bracketed()
            self.add(kind)
            before += 1
        self.byte(b"{")
        self.comments()
        contents = self.repeat_till(self.contents_command, b"}")
        self.comments()
        behind = 0
        while sign := self.word(b":", b">", b"="):
            self.comments()
            if sign == b"=":
                self.expression()
                self.add(61)
            else:
                self.name(59 if sign == b":" else 60, self.token())
            self.comments()
            behind += 1
        self.word(b",")
        self.comments()
        self.add(62, start, attribute, before, behind)
        self.name(63, name, contents)

    def section_attribute(self):
        """The attribute's number, from 1."""
        self.byte(b"(")
        self.comments()
        word = self.token().text
        self.comments()
        if word not in ATTRIBUTES:
            raise Fail
        self.byte(b")")
        return 1 + ATTRIBUTES.index(word)

    def bracketed(self):
        """What stands behind AT and ALIGN."""
        self.comments()
        self.byte(b"(")
        self.comments()
        self.expression()
        self.comments()
        self.byte(b")")
        self.comments()

    # contents

    def contents_command(self):
        tries = (self.contents_provide, self.contents_assert, self.matcher, self.assignment, self.constructors)
        for rule in tries:
            if self.attempt(rule):
                return
        raise Fail

    def contents_provide(self):
        word = self.must(b"PROVIDE_HIDDEN", b"PROVIDE")
        self.comments()
        self.provide(word == b"PROVIDE_HIDDEN")
        return True

    def contents_assert(self):
        self.must(b"ASSERT")
        self.comments()
        self.assertion()
        self.word(b";")
        self.comments()
        return True

    def matcher(self):
        if not self.attempt(self.keep):
            self.matcher_pattern(0)
        self.word(b";")
        self.comments()
        return True

    def keep(self):
        """Nothing is skipped between the bracket of KEEP and the file."""
        self.must(b"KEEP")
        self.comments()
        self.byte(b"(")
        self.matcher_pattern(1)
        self.byte(b")")
        self.comments()
        return True

    def matcher_pattern(self, keep):
        file = self.token()
        self.comments()
        self.byte(b"(")
        self.comments()
        patterns = self.repeat_till(self.pattern, b")")
        self.comments()
        if file.text == b"*":
            self.add(65, 0, 0, keep + 2, patterns)
        else:
            self.name(65, file, keep, patterns)

    def sort(self):
        return self.word(b"SORT_BY_NAME", b"SORT_BY_ALIGNMENT", b"SORT")

    def pattern(self):
        sort = self.sort()
        if sort:
            self.comments()
            self.byte(b"(")
            if self.sort():
                raise Fail
        self.comments()
        m = self.need(PATTERN)
        self.comments()
        if sort:
            self.byte(b")")
            self.comments()
        self.name(64, Name(m.start(), m[0]), int(sort in (b"SORT_BY_NAME", b"SORT")))

    def assignment(self):
        """An assignment in contents: `;` only where the expression's blanks end."""
        name = self.token()
        self.comments()
        sign = self.assignment_op()
        if not sign:
            raise Fail
        self.target(name, sign)
        self.comments()
        self.expression()
        self.assigned(name, sign)
        self.word(b";")
        self.comments()
        return True

    def constructors(self):
        self.must(b"CONSTRUCTORS")
        self.comments()
        self.add(66)
        return True

    COMMANDS = {
        b"GROUP": group,
        b"INPUT": group,
        b"OUTPUT_FORMAT": output_format,
        b"OUTPUT_ARCH": output_arch,
        b"AS_NEEDED": as_needed,
        b"SECTIONS": sections,
        b"ENTRY": entry,
        b"VERSION": version_body,
        b"PROVIDE": provide,
        b"PROVIDE_HIDDEN": provide_hidden,
        b"ASSERT": top_assert,
        b"MEMORY": memory,
        b"PHDRS": phdrs,
    }


def shown(records):
    """The records as expr_cases.py prints them."""
    if len(records) <= SHOWN:
        return "".join("%d %d %d %d %d\n" % x for x in records)
    checksum = 0
    for word in itertools.chain.from_iterable(records):
        checksum = (checksum * BASE + word) % MODULUS
    return f"sum {checksum}\n"


def reading(mode, script):
    """The reading, or the line of a refusal."""
    r = Script(script, mode)
    try:
        r.commands()
    except Fail:
        return None, f"refused 4 {r.place}\n"
    except Deep:
        return None, f"refused 5 {r.place}\n"
    # the tape of 5n words holds them
    assert len(r.records) <= len(script)
    return r, None


def answer(mode, script):
    r, refused = reading(mode, script)
    if refused:
        return refused
    version = f" version {r.version.start} {len(r.version.text)}" if r.version else ""
    return f"ok {len(r.records)} {r.count}{version}\n" + shown(r.records)


def listing(mode, script):
    """What listing and listings print."""
    if mode > 1:
        return "refused 1 0\n"
    r, refused = reading(mode, script)
    return refused or f"ok {len(r.records)} {r.count}\n" + "".join("%d %d %d %d %d\n" % tuple(x) for x in r.records)


# ---- the cases: mode, how often the head stands, head, tail

CASES = {}
BOTH, W, B = [WILD, BOOK], [WILD], [BOOK]
# what is left to chance is the same in every run
expr_cases.CHANCE.seed(5)


def long(modes, times, head, tail=b""):
    """The head so many times over and then the tail; a case that is there already counts once."""
    assert len(head) * times + len(tail) <= 65536
    for mode in modes:
        CASES[(mode + 2, times, head, tail)] = None


def add(modes, *texts):
    for t in texts:
        long(modes, 1, t if isinstance(t, bytes) else t.encode())


def sections(modes, *texts):
    """Each text as what stands in the braces of SECTIONS."""
    add(modes, *[f"SECTIONS{{ {t} }}" for t in texts])


def contents(modes, *texts):
    """Each text as the contents of one section, with no blank before it."""
    add(modes, *[f"SECTIONS{{s :{{{t} }}}}" for t in texts])


def summary(mode, text):
    """Kinds of an answer that was read, or number and place of a refusal."""
    first, *records = answer(mode, text.encode()).splitlines()
    words = first.split()
    return words[1:] if words[0] == "refused" else [line.split()[0] for line in records]


# ---- a sheet of scripts, with what each line answers in wild mode and in book mode; crates/script/specs/Sheet.antt has most of them

SHEET = [
    ("", "", ""),
    ("/*/", "", ""),
    ("#x", "4 0", "4 0"),
    ("a=1", "40", "40"),
    ("a = 1", "1 47", "1 47"),
    ("x = a & b == c", "2 2 17 2 13 47", "2 2 2 13 17 47"),
    ("x = a == b < c;", "4 14", "2 2 13 2 9 47"),
    ("x = 012", "1 47 40", "1 47 40"),
    ("x = 0xffffffffffffffffK", "1 47", "1 47"),
    ("x = 18446744073709551616", "4 0", "4 0"),
    ("x = 1 /*c*/", "4 0", "4 0"),
    ("x = 1; /*c*/", "1 47", "1 47"),
    ("GROUP(a, b)", "4 0", "4 0"),
    ("ENTRY(m);", "4 8", "4 8"),
    ("MEMORY { R(rx) : ORIGIN = 0, LENGTH = 1 }", "4 0", "4 0"),
    ("SECTIONS { .a : { KEEP( *(.a)) } }", "4 0", "4 0"),
    ("SECTIONS { .a : {} > RAM AT> FLASH .b : {} }", "60 62 63 2 62 63 44", "60 62 63 2 62 63 44"),
    ("x = " + 100 * "(" + "1" + 100 * ")", "1 47", "1 47"),
    ("x = " + 101 * "(" + "1" + 101 * ")", "5 0", "5 0"),
    ("x += 1K;", "2 1 4 47", "2 1 4 47"),
    ("x += 1K;\n", "2 1 4 47", "2 1 4 47"),
]
for t, wild, book in SHEET:
    assert [summary(mode, t) for mode in BOTH] == [wild.split(), book.split()], t
    add(BOTH, t)
assert answer(WILD, b"x += 1K;\n") == "ok 4 1\n2 0 1 0 0\n1 1024 0 0 0\n4 0 0 0 0\n47 0 1 0 0\n"
assert answer(WILD, b"x = 0xffffffffffffffffK").split()[4] == "18446744073709550592"
assert "63 25 3 0 0\n" in answer(WILD, b"SECTIONS { .a : {} > RAM AT> FLASH .b : {} }")

# ---- blanks, comments and plain arguments

add(
    BOTH,
    " ", "\t\r\n ", "/**/", "/*c*/", " /*c*/ ", "#\n", "#c\n", " #c\n /*d*/\n", "/**//**/", "#c\n#d\n", "/*#*/", "#/*\n",
    "/*/*/", "/* /* */", "/***/", "/*c\n*/",
)
add(
    W,
    "#", "#x", " #x", "/*", "/*c", "/*c*", "/*/ /*", "/ *", "/", "//", "// c", "*/", "/*/*", "#\n#", "/**/#x", "\n/*",
    "\x0b",
    "\x0c", "\0", "\r#x", "# /*\n*/",
)
add(
    BOTH, "a", "a b", "a  b\n", "\ta\r\nb ", "-lm -lc", "/lib/a.so", "=/lib/b.so", "a/*c*/b", "a /*c*/ b", "a#c\nb",
    "a #c\nb",
)
add(
    W,
    "a;", "a,", "a;b", "a,b", "a(", "a)", "a{", "a}", "(", ")", "{", "}", ";", ",", "a (b)", "a {}", "a\rb", "a\r", "\ra",
    "a\x0bb",
    "a\x0cb", "a\0b", "aé", "$SYSROOT/a", ".", "..", ":", "*", "?", "!", "<", ">", "%", "^", "&", "|", "+", "-", "==", "!=",
    "=a",
)
add(
    W,
    '""', '"a"', '"a', '"', 'a"', '"a"b', '"a""b"', '"a" "b"', 'a"b', 'a"b"', 'a "b c" d', '"a\nb"', '"(){};,"', '"#c"',
    '"/*"',
    '"/*"*/', '" "', '"""', '""""', '"a"#c\n', '"a"/*c*/', "'a b'", '"é\0"', '"GROUP"', '"GROUP"(a)', '"group"(a)',
    '"GROUP "(a)',
)
for word in ("group", "GROUPS", "GROU", "_GROUP", "GROUP_", "INPUT1", "ENTRYx", "SECTION", "MEMORIES", "PHDR", "Version"):
    add(W, word, f"{word}(a)", f"{word} = 1", f"{word}{{}}")
KEYWORDS = [w.decode() for w in Script.COMMANDS]
for word in KEYWORDS:
    add(
        W,
        word, f"{word} ", f"{word}(", f"{word} (", f"{word}()", f"{word}{{", f"{word}{{}}", f"{word} {{ }}", f"{word};",
        f"{word}x",
        f"{word} = 1", f"{word}=1", f"{word} += 1", f'"{word}"', f"{word} a", f"{word},", f"a {word}", f"{word}/*c*/",
        f"{word} #c",
    )
    add(
        B, f'"{word}"()', f'"{word}" {{}}', f"/*c*/{word}/*d*/(/*e*/)/*f*/", f"{word} #c\n{{ #d\n}} #e\n", f"{word}()()",
        f"{word}{{}};",
    )

# ---- GROUP, INPUT, AS_NEEDED, OUTPUT_ARCH

for word in ("GROUP", "INPUT", "AS_NEEDED", "OUTPUT_ARCH"):
    add(
        W,
        f"{word}(a)", f"{word} ( a )", f"{word}(a b c)", f"{word}(a,b)", f"{word}(a;b)", f"{word}(a", f"{word}(a ",
        f"{word}a)",
        f"{word}(a))", f"{word}((a))", f"{word}(a)b", f"{word}(a);", f"{word}(a=1)", f"{word}(a = 1)", f"{word}(a = 1;)",
        f"{word}(a = 1; b = 2 c)", f"{word}(. = 1)", f"{word}(. += 1 x)", f"{word}(\"a b\" \")\")",
        f"{word}(a/*c*/ b /*d*/)",
    )
    add(
        B, f"{word}\n(\n/*c*/ a #d\n)", f"{word}(a = b == c < d)", f"{word}(a = (b))", f"{word}(a = (b)", f"{word}(#)",
        f"{word}(/*)",
    )
    for inner in ("GROUP", "INPUT", "AS_NEEDED", "OUTPUT_ARCH"):
        add(BOTH, f"{word}(a {inner}(b c) d)", f"{word}({inner}({inner}()) e)")
        add(W, f"{word}({inner}(b)", f"{word}({inner} b)", f"x {word}({inner})")
    for inner in (
        "SECTIONS { a : { *(b) } }", "ENTRY(a)", "ENTRY(a);", "VERSION {a}", "VERSION {a}; b", "PROVIDE(a = 1)",
        "PROVIDE_HIDDEN(a = 1);",
        "ASSERT(a, m)", "ASSERT(a, m);", "MEMORY { a : o = 1, l = 2 }", "PHDRS { a PT_LOAD; }", "OUTPUT_FORMAT(a)",
        "OUTPUT_FORMAT(a, b, c)", "a *= b",
    ):
        add([some(BOTH)], f"{word}({inner})", f"{word}(x {inner} y)")

# ---- OUTPUT_FORMAT and ENTRY

add(
    BOTH,
    "OUTPUT_FORMAT(a)", 'OUTPUT_FORMAT("elf64-x86-64", "b-b",\n\t"c")', "OUTPUT_FORMAT ( a , b , c ) d",
    "OUTPUT_FORMAT(a,b,c)",
    "OUTPUT_FORMAT(/*1*/a/*2*/,/*3*/b /*4*/,#5\nc #6\n) #7\n", 'OUTPUT_FORMAT("")', 'OUTPUT_FORMAT("","","")',
)
add(
    W,
    "OUTPUT_FORMAT(a,b)", "OUTPUT_FORMAT(a,b,)", "OUTPUT_FORMAT(a,,c)", "OUTPUT_FORMAT(,b,c)", "OUTPUT_FORMAT(a,b,c,d)",
    "OUTPUT_FORMAT(a b)", "OUTPUT_FORMAT(a,b c)", "OUTPUT_FORMAT(a,b;c)", "OUTPUT_FORMAT(a", "OUTPUT_FORMAT(a,",
    "OUTPUT_FORMAT(a,b",
    "OUTPUT_FORMAT(a,b,c", "OUTPUT_FORMAT(a);", "OUTPUT_FORMAT(a)b", "OUTPUT_FORMAT a", "OUTPUT_FORMAT((a))",
    "OUTPUT_FORMAT(a,b,c d)",
)
add(
    BOTH, "ENTRY(m)", "ENTRY ( m )", 'ENTRY("m")', "ENTRY/*1*/(/*2*/m /*3*/)/*4*/", "ENTRY(m) a", "ENTRY(.)", "ENTRY(m=1)",
    'ENTRY("")',
)
add(
    W, "ENTRY(m;)", "ENTRY(m n)", "ENTRY(m,n)", "ENTRY(m", "ENTRY m", "ENTRY(m)(n)", "ENTRY((m))", "ENTRY(m/*c*/)",
    "ENTRY(m) ;", "ENTRY(m)\n;",
)
add(B, "ENTRY(m)ENTRY(n)", "ENTRY(#)", "ENTRY(m #)", "ENTRY( #c\nm)", "ENTRY(m)#", 'ENTRY("m)', "ENTRY()")

# ---- VERSION

add(
    BOTH,
    "VERSION {a}", "VERSION { }", "VERSION { a }", "VERSION { V1 { global: a; local: *; }; V2 {} V1; }", "VERSION{{{}}}",
    "VERSION {a};", "VERSION {a} ;", "VERSION {a} /*c*/ ; /*d*/", "VERSION {a} {b}", "VERSION {a} VERSION {b}",
    "VERSION {a}; VERSION {bc};", "x VERSION {a}", "GROUP(VERSION {a})", "GROUP(VERSION {a};) VERSION {bc} VERSION {d}",
    "OUTPUT_ARCH(VERSION {a})", "OUTPUT_ARCH(VERSION {a}) VERSION { b}", "AS_NEEDED(VERSION{}) x VERSION{}",
    '"VERSION" {a}', "VERSION { /*c*/ a /*d*/ }", "VERSION { #c\n a #d\n }", "VERSION { /*}*/ a }", "VERSION { a /*}*/ }",
    "VERSION { #}\n}",
    "VERSION { a #}\n}", 'VERSION { "}" }', "VERSION /*c*/ { b}", "VERSION #{\n{ b}",
)
add(
    W,
    "VERSION {", "VERSION {a", "VERSION {{}", "VERSION {{a}", "VERSION }", "VERSION }{", "VERSION {}}", "VERSION {a};;",
    "VERSION a {}",
    "VERSION (a)", "VERSION {a} x;", "VERSION { /* }", "VERSION { # }", "VERSION { a /* }", "VERSION {a} /*",
    "VERSION {a}; /*",
    "VERSION {a} #", "VERSION {a}; #x", "VERSION { {a}", "VERSION { a } = 1", "VERSION = {a}", "VERSIONS {a}",
    "VERSION {a}b", "VERSION{a};b",
    "GROUP(VERSION {a)}", "GROUP(VERSION {a)})", "VERSION {\0\xff}", "VERSION {/*/}", "VERSION {/*/}*/}",
)

# ---- PROVIDE, PROVIDE_HIDDEN and ASSERT, at the top, directly in SECTIONS and in contents

for word in ("PROVIDE", "PROVIDE_HIDDEN"):
    for form in (
        f"{word}(a = 1)", f"{word}(a = b == c < d);", f"{word} ( a = b & c == d ) ;", f"{word}(a =1) x = 2;",
        f"{word}(. = 1);",
        f"{word}(\"a b\" = 1)", f"{word}(a = b)", f"{word}(a = b /*c*/)", f"{word}(a = b #c\n);",
        f"{word}(/*1*/a /*2*/=/*3*/ b) /*4*/ ; /*5*/",
    ):
        add(BOTH, form)
        sections(B, form)
        contents(BOTH, form)
    for form in (
        f"{word}(a=1)", f"{word}(a = )", f"{word}(a == 1)", f"{word}(a += 1)", f"{word}(a 1)", f"{word}(= 1)", f"{word}(a)",
        f"{word}()",
        f"{word}(a = 1;)", f"{word}(a = 1", f"{word} a = 1)", f"{word}(a = 1);;", f"{word}(a = 1),", f"{word}((a = 1))",
        f"{word}(a = 1 2)",
        f"{word}(a = (1)", f"{word}(a = 1)) ", f"{word} = 1;", f"{word}x = 1;", f"{word}x(a = 1)", f"{word}(a = 1, b)",
        f"{word}(a = foo(1))",
        f"\"{word}\"(a = 1);", f"{word}(a =/ 1)", f"{word}(a = b /*c)", f"{word} #c\n(a = 1)",
    ):
        add(W, form)
        sections(W, form)
        contents(B, form)
for form in (
    'ASSERT(a, "m")', 'ASSERT(a & b == c, "m n")', "ASSERT ( a == b , m ) ;", "ASSERT(a, m);", "ASSERT(a, m) x = 1;",
    "ASSERT(ASSERT(a, m), n)",
    "ASSERT(/*1*/a#2\n,/*3*/m /*4*/)/*5*/", "ASSERT(a,m)#1\n;#2\n", "ASSERT(a,\"\")",
):
    add(BOTH, form, "GROUP(" + form + ")")
    sections(B, form)
    contents(BOTH, form)
for form in (
    "ASSERT(a)", "ASSERT(a,)", "ASSERT(,m)", "ASSERT()", "ASSERT(a m)", "ASSERT(a, m", "ASSERT a, m)", "ASSERT(a, m);;",
    "ASSERT(a, m n)",
    "ASSERT(a, m, n)", "ASSERT(a b, m)", "ASSERT((a, m)", "ASSERT(a == b == c, m)", "ASSERT = 1;", "ASSERT", "ASSERTx(a, m)",
    "ASSERT*(a)",
    'ASSERT(a, "m)', '"ASSERT"(a, m)', "ASSERT(a/*c*/, m)", "ASSERT(a,m/*c*/)", "ASSERT(a,m) /*", "ASSERT(a,m),",
):
    add(BOTH, form)
    sections(W, form)
    contents(B, form)

# ---- assignments, with all ten signs

SIGNS = [s.decode() for s in COMPOUND] + ["="]
for sign in SIGNS:
    for name in ("x", ".", '"."', '"a b"'):
        add(W, f"{name} {sign} 1;")
        sections(W, f"{name} {sign} 1;")
        contents(B, f"{name} {sign} 1;")
    for form in (
        f"x {sign} a == b & c < d;", f"x {sign}1", f"x{sign}1", f"x{sign} 1;", f"x {sign} 1 ;", f"x {sign}", f"x {sign};",
        f"{sign} 1;", f"x {sign}= 1;",
        f"x {sign}/*c*/ 1;", f"x {sign} /*c*/ 1;", f"x /*c*/ {sign} #d\n1;", f"x {sign} 1 #c\n;", f"x {sign} 1; y {sign} 2",
        f"x {sign} 1 y",
        f". {sign} . ;",
    ):
        add(BOTH if "==" in form else W, form)
        sections(B, form)
        contents(W, form)
for sign in (
    "==", "=/", "%=", "<=", ">=", "!=", "<<", "+", "&&=", "||=", "=+", "= =", "+ =", "=>", "=!", "=<", "^^=", "<<<=", ":=",
):
    form = f"x {sign} 1;"
    add(BOTH, form, f". {sign} 1")
    sections(W, form)
    contents(B, form)
add(
    BOTH,
    "a = 1 b = 2", "a = 1; b = 2;", "a = 1;b = 2", "a = b c = d", "a = b\n. = c\n", "a = 1;; b", "a = 1 ; ; b", "a = b - c",
    "a = b -c",
    "a = b -lm", "a = b *c", "a = b /c", "a = b (c)", "a = 1 (c)", "a = b ? c : d e", "a = 1 == 2 == 3", "a = 1 < 2 < 3;",
    "a = . . = b",
    "a = b = c", "a = (b = c)", "a = b;/*c*/", "a = b #c\n; d", "a = SIZEOF(b) c", "a = 1K 2", "a = 0x 1",
    "a = ASSERT(b, m) /*c*/ ; d",
)
add(
    W, "a = ", "a = ;", "a = )", "a = 1 }", "a = 1,", "a = 1)", "a =", "= 1", "a = /*", "a = #", "a /*", "a = 1 #",
    "a = 1; #", "a = b(c)",
)

# ---- MEMORY

for origin, length in itertools.product(("ORIGIN", "org", "o"), ("LENGTH", "len", "l")):
    add(W, f"MEMORY {{ R : {origin} = 1, {length} = 2 }}")
    add(
        B, f"MEMORY{{R :{origin}=1,{length}=2}}",
        f"MEMORY {{ a : {origin} = b & c == d , {length} = 2K b : {origin} = 3, {length} = 4M }}",
    )
for word in ("ORIGIN", "origin", "org", "or", "o", "orig", "O", "ORG", "ORIGINAL", "organ", '"o"', '"ORIGIN"', "", "l"):
    add(W, f"MEMORY {{ R : {word} = 1, l = 2 }}")
for word in ("LENGTH", "length", "len", "le", "l", "leng", "L", "LEN", "LENGTHS", "lens", '"l"', '"LENGTH"', "", "o"):
    add(W, f"MEMORY {{ R : o = 1, {word} = 2 }}")
add(
    BOTH,
    "MEMORY {}", "MEMORY { }", "MEMORY { } x", 'MEMORY { "a b" : o = 1, l = 2 }', "MEMORY { R : o = a == b < c, l = 2 }",
    "MEMORY { R : o = 1, l = a == b < c }",
    "MEMORY { /*0*/ R /*1*/ : /*2*/ o /*3*/ = /*4*/ 1#5\n, /*6*/ l /*7*/ = /*8*/ 2 } /*9*/",
    "MEMORY { R : o =/**/1, l =/**/2}", "MEMORY { a : o = 1, l = 2 # : o = 3, l = 4 }",
    "MEMORY { a : o = 1, l = 2 - : o = 3, l = 4 }",
    "MEMORY { a : o = 1, l = 2\nb : o = 3, l = 4\n}\n", "MEMORY { a : o = 1, l = b c : o = 3, l = d }",
    "GROUP(MEMORY { a : o = 1, l = 2 })",
)
add(
    W,
    "MEMORY { R : o = 1, l = 2", "MEMORY { R : o = 1 l = 2 }", "MEMORY { R : o = 1, }", "MEMORY { R : l = 2, o = 1 }",
    "MEMORY { R : o = 1 }",
    "MEMORY { R: o = 1, l = 2 }", "MEMORY { R o = 1, l = 2 }", "MEMORY { R (rx) : o = 1, l = 2 }",
    "MEMORY { R : o 1, l = 2 }",
    "MEMORY { R : o == 1, l = 2 }", "MEMORY { R : o = , l = 2 }", "MEMORY { R : o = 1, l = }",
    "MEMORY { R : o = 1, l = 2; }",
    "MEMORY { R : o = 1; l = 2 }", "MEMORY { R : o = 1, l = 2, }", "MEMORY { R : o = 1, l = 2 /*c*/ }",
    "MEMORY { R : o = 1, l = 2 #c\n}",
    "MEMORY { R : o = 1, l = 2 };", "MEMORY { R : o = 1, l = 2 }}", "MEMORY ( R : o = 1, l = 2 )",
    "MEMORY { : o = 1, l = 2 }", "MEMORY { R }",
    "MEMORY { R :: o = 1, l = 2 }", "MEMORY { x = 1; }", "MEMORY { R : o += 1, l = 2 }", "MEMORY { R : o = 1, l = 2 } /*",
    "MEMORY R { }",
)

# ---- PHDRS

for word in [w.decode() for w in SEGMENTS]:
    add(W, f"PHDRS {{ a {word} ; }}", f"PHDRS {{ a {word}x; }}")
    add(B, f"PHDRS{{a {word}}}", f"PHDRS {{ a {word} FILEHDR b {word} PHDRS; c {word}; }}", f"PHDRS {{ a {word[:-1]}; }}")
add(
    W,
    "PHDRS { a PT_; }", "PHDRS { a PT_FOO; }", "PHDRS { a PT_LOAD+1; }", "PHDRS { a PT_LOAD + 1; }",
    "PHDRS { a 1 + PT_LOAD; }", "PHDRS { a pt_load; }",
    'PHDRS { a "PT_LOAD"; }', "PHDRS { a (PT_LOAD); }", "PHDRS { a PT; }", "PHDRS { a PT_load; }",
    "PHDRS { a PT_LOAD PT_LOAD; }", "PHDRS { PT_LOAD 1; }",
    "PHDRS { a PT_LOAD/*c*/; }", "PHDRS { a PT_LOAD(1); }", "PHDRS { a _PT_LOAD; }", "PHDRS { a XPT_LOAD; }",
    "PHDRS { a PT_LOADFLAGS(1); }",
    "PHDRS { a PT_LOAD,; }", "PHDRS { a PT_GNU_; }", "PHDRS { a PT_GNU; }", "PHDRS { a PT_LOAD\r; }",
    "PHDRS { a PT_\"LOAD\"; }",
)
add(
    BOTH,
    "PHDRS {}", "PHDRS { } x", "PHDRS { a 1; }", "PHDRS { a 0x6474e551 }", "PHDRS { a b == c < d; }",
    "PHDRS { a b ? c : d; e 2; }", "PHDRS { a -1; b (2) }",
    "PHDRS { a . ; b SIZEOF_HEADERS }", 'PHDRS { "a b" 1; }', "PHDRS { a 1 b 2 c 3 }", "PHDRS { a b c d e f }",
    "PHDRS { a 1 #c\n; }",
    "PHDRS { /*1*/ a /*2*/ PT_LOAD /*3*/ FLAGS /*4*/ (1) /*5*/ FILEHDR /*6*/ PHDRS /*7*/ ; /*8*/ } /*9*/",
)
CLAUSES = ["FLAGS(5)", "FILEHDR", "PHDRS"]
for n in range(4):
    for mode, chosen in zip(itertools.cycle(BOTH), itertools.product(CLAUSES, repeat=n)):
        add([mode], f"PHDRS {{ a PT_LOAD {' '.join(chosen)}; }}")
add(
    BOTH,
    "PHDRS { a 1 FLAGS(1) FLAGS(2) FLAGS(3); }", "PHDRS { a 1 FILEHDRPHDRSFLAGS(1)FILEHDR; }",
    "PHDRS { a 1 FLAGS ( b == c < d ) }",
    "PHDRS { a FLAGS FLAGS(1); }", "PHDRS { a PHDRS PHDRS }", "PHDRS { a FILEHDR b FILEHDR }",
    "PHDRS { a PT_LOAD FILEHDR\nb PT_NOTE\n}",
    "PHDRS { FLAGS 1; PHDRS 2; FILEHDR 3 }", "PHDRS { a 1 PHDRS 2 }", "PHDRS { a 1 PHDRSX 2 }",
    "PHDRS { a 1 FILEHDRX 2 Y 3 }",
    "PHDRS { a 1 AT 2 }", "PHDRS { a b FILEHDR PHDRS FLAGS(c & d == e); f PT_NOTE }",
)
add(
    W,
    "PHDRS { a 1 FLAGS; }", "PHDRS { a 1 FLAGS 5; }", "PHDRS { a 1 FLAGS(); }", "PHDRS { a 1 FLAGS(5; }",
    "PHDRS { a 1 FLAGS(/*c*/5); }",
    "PHDRS { a 1 FLAGS(5/*c*/); }", "PHDRS { a 1 FLAGS(5 #c\n); }", "PHDRS { a 1 FLAGS(#c\n5); }",
    "PHDRS { a 1 FLAGS(5 6); }", "PHDRS { a 1 FLAGS(5,6); }",
    "PHDRS { a 1 FLAGSHIP 2; }", "PHDRS { a FLAGS(5); }", "PHDRS { a 1 AT(2); }", "PHDRS { a 1 \"FLAGS\"(5); }",
    "PHDRS { a 1 \"FILEHDR\"; }",
    "PHDRS { a 1 flags(5); }", "PHDRS { a 1 FLAGS FILEHDR(5); }", "PHDRS { a 1 FILEHDR(5); }", "PHDRS { a 1; ; }",
    "PHDRS { a; }", "PHDRS { a }",
    "PHDRS { ; }", "PHDRS { a 1, b 2 }", "PHDRS { a 1", "PHDRS { a 1;", "PHDRS { a 1 };", "PHDRS a 1;", "PHDRS ( a 1; )",
    "PHDRS { a : 1; }",
    "PHDRS { a 1 /*c*/; }", "PHDRS { a = 1; }", "PHDRS { a 1 FLAGS((5)); }", "PHDRS { a 1 FLAGS((5); }",
    "PHDRS { a 1;b 2;c 3;}",
)

# ---- SECTIONS: what stands directly in it

add(
    W, "SECTIONS {", "SECTIONS }", "SECTIONS {}}", "SECTIONS {};", "SECTIONS {} {}", "SECTIONS{}SECTIONS{}",
    "SECTIONS (a : {})", "SECTIONS a : {}",
)
sections(
    BOTH,
    "", "/*c*/", "#c\n", "a : {}", "a : {} b : {}", "a : {}b : {}", "a:{}", "a :{}", "a: {}", '"a" : {}', '"a":{}',
    '"a b":{}', '"" : {}', "/DISCARD/ : {}",
    ". : {}", ": : {}", ": {}", "a : : {}", "a b : {}", "a 1 : {}", "a 1: {}", "a . : {}", "a b == c < d : {}",
    "a b & c == d : {}", "a b ? c : d : {}",
    "a b ? c : {}", "a (b) : {}", "a (b ? c : d) : {}", "a ALIGN(4) : {}", "a -1 : {}", "a 1 2 3 : {}", "a b c d : {}",
    "a b + c d * e : {}",
    "a 1 /*c*/ : {}", "a 1 #c\n : {}", "a b #c\n d #e\n : {}", "a /*c*/ 1 : {}", "a : {} , b : {}", "a : {},b : {}",
    "a : {},,", "a : {};", "a : {} ,",
)
sections(
    W,
    "a", "a :", "a {}", "a : {", "a : }", "a : {}}", "a 1", "a 1 {}", "a (", "a ( : {}", "a () : {}", "a : ()",
    "a \"b\" : {}", "a , : {}", "a ; : {}", "a == b : {}",
    "a =/ b : {}", "a @ : {}", "a foo(b) : {}", "(a) : {}", "a : {} {}", "; a : {}", "a : { { } }", "ENTRY(a)",
    "ENTRY(a) : {}", "ENTRY : {}", "KEEP(a) : {}",
    "SECTIONS { }", "SECTIONS : {}", "GROUP(a)", "*(a)", "* (a) : {}", "INCLUDE a", "OVERLAY : { a {} }", "ASSERT : {}",
    "PROVIDE : {}",
    "PROVIDED : {}", "ASSERTION (a) : {}", "a : BLOCK(4) {}", "a BLOCK(4) : {}", "a : SUBALIGN(4) {}", "a : ONLY_IF_RO {}",
)
for k, word in enumerate([w.decode() for w in ATTRIBUTES]):
    other = ATTRIBUTES[(k + 1) % 6].decode()
    sections(
        BOTH,
        f"a ({word}) : {{}}", f"a( {word} ): {{}}", f"a 1 ({word}) : {{}}", f"a ({word}) 1 : {{}}",
        f"a ({word}) ({other}) : {{}}",
        f"a 1 ({word}) 2 ({other}) 3 : {{}}",
    )
    sections(
        W,
        f"a (\"{word}\") : {{}}", f"a ({word}S) : {{}}", f"a ({word} : {{}}", f"a ({word} 1) : {{}}",
        f"a ({word} + 1) : {{}}", f"a ({word})+1 : {{}}",
        f"a {word} : {{}}", f"a ({word.lower()}) : {{}}", f"a (/*c*/{word} /*d*/) : {{}}", f"a ({word}/*c*/) : {{}}",
        f"a ({word},{other}) : {{}}",
        f"a : ({word}) {{}}", f"a (({word})) : {{}}", f"a ({word}) = 1;", f"a ({word} #c\n) : {{}}",
        f"a (#c\n{word}) : {{}}", f"a ({word} (",
    )
# start expressions are replaced, attributes in between are not records
sections(
    BOTH,
    "a 1 2 : {}", "a 1+2 3*4 b==c : {}", "a (1) (2) (NOLOAD) (b) : {}", "a MIN(b,c) d : {}", "a b (c) : {}",
    "x = 1; a 1 2 : {} b 3 4 5 : {} y = 2;",
    "a 1 (COPY) (INFO) 2 (FOO) (DSECT) : { *(b) }", "a b c ? d : e f : {}", "a ASSERT(b, m) /*c*/ 2 : {}",
    "a ASSERT(b, m) #c\n : {}", "a 1 2 @ : {}",
    "a 1 2", "a . . . : {}", "a b -c d : {}", "a b (NOLOAD) -c : {}",
)
CLAUSES = ["AT(1)", "ALIGN(2)"]
for n in range(4):
    for mode, chosen in zip(itertools.cycle(BOTH), itertools.product(CLAUSES, repeat=n)):
        sections([mode], f"a b : {' '.join(chosen)} {{ c(d) }}", f"a :{''.join(chosen)}{{}}")
for word in ("AT", "ALIGN"):
    sections(
        BOTH,
        f"a : {word}(b & c == d < e) {{}}", f"a : {word} ( 1 ) {{}}", f"a : /*0*/{word}/*1*/(/*2*/1#3\n)/*4*/{{}}",
        f"a : {word}((1)){{}}",
        f"a : {word} #c\n(#d\n1)#e\n{{}}",
    )
    sections(
        W,
        f"a : {word} {{}}", f"a : {word}() {{}}", f"a : {word}(1 {{}}", f"a : {word} 1 {{}}", f"a : {word}X(1) {{}}",
        f"a : \"{word}\"(1) {{}}",
        f"a : {word.lower()}(1) {{}}", f"a : {word}(1,2) {{}}", f"a : {word}(1);{{}}", f"a : {word}(1/*c*/) {{}}",
        f"a : 1 {word}(1) {{}}",
        f"a : {word}(1) 1 {{}}", f"a : {word}(1) : {{}}", f"a {word}(1) {{}}", f"a {word}(1) : {{}}", f"a : {word}(1)",
        f"a : {{}} {word}(1)",
        f"a : {word}{word}(1) {{}}", f"a : {word}(1)) {{}}", f"a : {word}(1) (NOLOAD) {{}}",
    )
CLAUSES = [":p", ">R", "=1"]
for n in range(4):
    for mode, chosen in zip(itertools.cycle(BOTH), itertools.product(CLAUSES, repeat=n)):
        sections([mode], f"a : {{}} {' '.join(chosen)}{some([',', ' ,', ''])} b : {{}}")
sections(
    BOTH,
    "a : {}:p", "a : {}:p:q", "a : {} :p :q :r >S", "a : {} : p > R = b & c == d", "a : {} =a == b < c", "a : {} =1 b : {}",
    "a : {} =1, b : {}",
    "a : {} =b c : {}", "a : {} =b -c : {}", "a : {} >R AT>F", "a : {} >R AT> F b : {}", "a : {} >= 1 : {}",
    "a : {} >=1 b : {}", "a : {} :> R", "a : {} =>R",
    "a : {} ==1", "a : {} = =1", "a : {} >>R", "a : {} :\"p q\" >\"R\"", "a : {} :p,q : {}", "a : {} :p;", "a : {} >R;",
    "a : {} :", "a : {} >", "a : {} =",
    "a : {} : {}", "a : {} :/*c*/p /*d*/ >/*e*/R #f\n =/*g*/1 #h\n, /*i*/", "a : {} /*c*/ :p", "a : {} =1 /*c*/",
    "a : {} =1 #c\n", "a : {} =(1) #c\n >R",
    "a : {} :p/*c*/", "a : {} :(p)", "a : {} >R(x)", "a : {} :NONE", "a : {} =0x90909090 :p", "a : {} =1 =2 =3",
    "a : {} >R >S", "a : {} =ASSERT(b,m)/*c*/",
    "a : {} :p = 1;", "a : {} > R x = 1;", "a : {} =b?c:d :p", "a : {} =b?c :p",
)

# ---- contents

contents(
    BOTH,
    "*(.a)", "* (.a)", "*( .a )", "*(.a .b)", "*(.a\n.b\t.c)", "*()", "*( )", "f.o(.a)", '"f o"(.a)', '"*"(.a)',
    "*crt?.o(.a)", "*(*)", "*(.a.*)", "*(COMMON)",
    "*(.a);", "*(.a) ;", "*(.a);;", "*(.a)*(.b)", "*(.a) *(.b)", "*(.a),", "**(.a)", ".(.a)", "a=b(.c)", ".=ALIGN(4)",
    ".=ALIGN(4);", "x=(1)", "x=(1);",
    "/*1*/*(.a)/*2*/", "*/*1*/(.a)", "* /*1*/(.a)", "*(/*1*/.a /*2*/.b /*3*/)", "*(.a/*1*/)", "*(.a #c\n)", "*(#c\n.a)",
    "*(.a#c .b)", "*(.a)#c\n;", "*(.a) /*c*/ ;",
)
contents(
    W,
    "*(.a", "*.a)", "*", "(.a)", "*(.a))", "*((.a))", "*(.a,.b)", "*(.a;.b)", "*(.a{.b})", '*(".a b")', "*(.a\x0c)",
    "*(.a\x0c.b)", "*(.a\x0b.b)", "*(.a\r.b)",
    "*(\x0c.a)", "*(é \0)", "*(.a (b))", "*(.a (b)", "*(EXCLUDE_FILE(a b) .c)", "*(EXCLUDE_FILE(a) .c)",
    "EXCLUDE_FILE(a) *(.c)", "*(.a) (.b)", "f.o", "a:b(.c)",
    "*(.a .b", "* *(.a)", "FILL(1)", "BYTE(1)", "LONG (-1); LONG (0);", "INCLUDE f", "*(/*)", "*(#)", "*(.a /*)", "*(.a #)",
    "*(.a) /*", "*(.a) #x", "*{.a}", "{}", ";", ",",
)
for word in ("SORT", "SORT_BY_NAME", "SORT_BY_ALIGNMENT"):
    contents(
        BOTH,
        f"*({word}(.a))", f"*({word} ( .a ) .b)", f"*(.a {word}(.b) .c)", f"KEEP(*({word}(.a)))", f"{word}(.a)",
        f"{word}(*)(.a)", f"*({word}/*1*/(/*2*/.a /*3*/)/*4*/.b)",
        f"*({word}(.a) {word}(.b))", f"*({word}(.a){word}(.b))", f"{word}(CONSTRUCTORS)",
    )
    contents(
        W,
        f"*({word}(.a)", f"*({word}.a)", f"*({word} .a)", f"*({word})", f"*({word}())", f"*({word}( ))", f"*({word}(.a .b))",
        f"*({word}ED)", f"*({word}_NONE(.a))",
        f"*(\"{word}\"(.a))", f"*(X{word}(.a))", f"*({word.lower()}(.a))", f"*(.a{word}(.b))", f"*({word}((.a)))",
        f"*({word}(.a)))", f"*({word} #c\n(.a))", f"*({word}(.a /*))",
    )
    for inner in ("SORT", "SORT_BY_NAME", "SORT_BY_ALIGNMENT", "SORTED", "SORT_NONE"):
        contents(W, f"*({word}({inner}(.a)))", f"*({word}( {inner}(.a)))", f"*({word}({inner}.a))")
        contents(B, f"*({word}(/*c*/{inner}(.a)))", f"*({word}( {inner}.a))", f"*({word}( {inner}(.a))")
contents(
    W, "*(SORT_BY_INIT_PRIORITY(.a))", "*(SORT_NONE(.a))", "*(SORT_BY(.a))", "*(REVERSE(.a))", "*(SORTSORT(.a))",
    "*(SOR(.a))", "*(SORT_BY_NAMESORT(.a))",
)
contents(
    BOTH,
    "KEEP(*(.a))", "KEEP (*(.a))", "KEEP(* (.a))", "KEEP(*(.a));", "KEEP(*(.a)) ;", "KEEP(*(.a .b) )", "KEEP(f.o(.a))",
    'KEEP("*"(.a))', "KEEP(*())", "KEEP(KEEP(.a))",
    "KEEP/*1*/(*/*2*/(.a))", "KEEP/*1*/(* /*2*/(/*3*/.a /*4*/)/*5*/)/*6*/;/*7*/", "KEEP(*(.a))KEEP(*(.b))",
    "KEEP(*(.a)) x = 1;", "KEEP #c\n(*(.a) #d\n)",
    "KEEP( *(.a)", "KEEP( *(.a))", "KEEP(/*c*/*(.a)", "KEEP(/*c*/*(.a))", "KEEP(\n*(.a)\n)", "KEEP(*)", "KEEP()",
    "KEEP(.a .b)", "KEEP(*(.a)",
)
contents(
    W,
    "KEEPER(*)", "KEEPER(*(.a)", "KEEPER(*(.a))", "KEEP*(.a)", "KEEP *(.a)", "KEEP", "KEEP;", "KEEP = 1;", "KEEP=1;",
    "KEEP += 1", "KEEPx = 1", '"KEEP"(*(.a))', '"KEEP"(*(.a)',
    "keep(*(.a))", "KEEP((.a))", "KEEP(KEEP(*(.a)))", "KEEP(*(.a) *(.b))", "KEEP(*(.a);)", "KEEP(x = 1)",
    "KEEP(SORT(*)(.a))", "KEEP(*(SORT(SORT(.a))))", "KEEP(*(.a)))",
    "KEEP(*(.a)),", "KEEP(*(.a)) /*", "KEEP(PROVIDE(a = 1))",
)
contents(
    BOTH,
    "CONSTRUCTORS", "CONSTRUCTORS CONSTRUCTORS", "CONSTRUCTORSCONSTRUCTORS", "CONSTRUCTORS/*c*/", "CONSTRUCTORS *(.a)",
    "CONSTRUCTORS*(.a)", "CONSTRUCTORS(.a)",
    "CONSTRUCTORS (.a)", "CONSTRUCTORS = 1", "CONSTRUCTORS = 1;", "CONSTRUCTORS=1;", "CONSTRUCTORS *= 1;",
    "CONSTRUCTORS += ", "CONSTRUCTORS x = 1;", "CONSTRUCTORSx = 1;",
    "CONSTRUCTORSX", "CONSTRUCTORS #c\n *(.a)", "*(.a) CONSTRUCTORS", "x = 1 CONSTRUCTORS", "x = CONSTRUCTORS CONSTRUCTORS",
    "CONSTRUCTORS;", "CONSTRUCTORS,", "CONSTRUCTOR",
    '"CONSTRUCTORS"', '"CONSTRUCTORS"(.a)', "CONSTRUCTORS ( /*", "CONSTRUCTORS == 1", "CONSTRUCTORS =/ 1",
    "CONSTRUCTORS = @", "CONSTRUCTORS{", "constructors",
    "CONSTRUCTORSCONSTRUCTORS(.a)", "CONSTRUCTORSCONSTRUCTORS = 1", "CONSTRUCTORSCONSTRUCTORS(.a", "CONSTRUCTORSCONSTRUCTORS = @",
    "CONSTRUCTORS/*c*/CONSTRUCTORS", "CONSTRUCTORS/*c*/CONSTRUCTORS(.a)", "CONSTRUCTORS/**/CONSTRUCTORS/* */CONSTRUCTORS = 1",
    'CONSTRUCTORS"CONSTRUCTORS"', 'CONSTRUCTORSCONSTRUCTORS"a"', "CONSTRUCTORSCONSTRUCTORSX", "CONSTRUCTORSCONSTRUCTORS CONSTRUCTORS(.a)",
    "CONSTRUCTORSCONSTRUCTORS*(.a)", "CONSTRUCTORSCONSTRUCTORS *(.a)", "CONSTRUCTORSCONSTRUCTORS/*c*/ CONSTRUCTORS = 1",
)
contents(
    BOTH,
    "PROVIDED = 1;", "PROVIDE = 1;", "PROVIDE_HIDDEN = 1;", "PROVIDE_HIDDENS += 1;", "PROVIDED(a = 1)", "PROVIDE(a b)",
    "PROVIDE(*(.a)", "PROVIDE(*(.a))",
    "PROVIDE(a = b == c < d)", "PROVIDE(a = b == c < d) x = 1;", "PROVIDE(a = b c)", "PROVIDE(a = 1) PROVIDE(b = c d) *(e)",
    "PROVIDE*(.a)", "PROVIDE_(.a)", "PROVIDE_HIDDE(a = 1)",
    "ASSERT = 1", "ASSERTS = 1", "ASSERT(a b)", "ASSERT(a == b == c, m)", "ASSERT(a == b == c , m )", "ASSERT*(a)",
    "ASSERTS(a, m)", "ASSERT(a, m) ASSERT(b) ASSERT(c, n)",
    "ASSERT(a, m /*c*/)", "ASSERT(a, m) #c\n ;", "ASSERT(a, m) ; ;", "PROVIDE(a = 1)/*c*/;/*d*/", "PROVIDE (a = 1) ;;",
    "PROVIDE(a /*c*/ = 1 2)", "PROVIDE(a = /*c 1)",
    "x = 1 y = 2", "x = 1; y = 2;", "x = y *(.a)", "x = 1; *(.a)", "x = y; *(.a)", "x = 1 #c\n;", "x = 1 #c\n y = 2",
    "x = 1 /*c*/;", "x = 1; /*c*/", "x = ASSERT(a, m) #c\n ; y = 1",
    ". = . + 1;", ". += 4", ". = ALIGN(4); *(.a) . = ALIGN(., 8);", "x = (1) (a)", "x = a (a)", "x = 1 (a)", "x = 1;; y = 2",
    "a = b = c", "a b = c", '"a b" = c', '"." -= 1;',
)

# the same bytes as a comment behind leading bytes, or as a part of a token: the earlier try counts
contents(
    BOTH,
    "KEEP/* = 1; */(*(.a))", "KEEP# = 1;\n(*(.a))", "KEEP/*(a) */(*(.b))", "PROVIDE/* = 1; */(a = 2)",
    "PROVIDE/*(a) */(b = 2);",
    "ASSERT/* = 1; */(a, m)", "ASSERT#(a)\n(b, m)", "CONSTRUCTORS/* = 1; */", "CONSTRUCTORS/* = 1; */(a)",
    "CONSTRUCTORS# = 1;\n",
    "CONSTRUCTORS#(a)\n", "CONSTRUCTORS/*c*/(a)",
)

# ---- too deep within tries, and the levels of brackets


def nest(modes, word, n, inner, ends=None):
    """So many brackets of a command round the inner text, in all modes alike; the number of the answer."""
    tail = (inner + ")" * (n if ends is None else ends)).encode()
    head = f"{word}(".encode()
    long(modes, n, head, tail)
    words = answer(WILD, n * head + tail).split()
    return 0 if words[0] == "ok" else int(words[1])


for word in ("GROUP", "INPUT", "AS_NEEDED", "OUTPUT_ARCH", "GROUP ", "GROUP(a INPUT(b) OUTPUT_ARCH"):
    step = word.count("(") + 1 - word.count(")")
    if step == 1:
        assert [nest(BOTH, word, n, "a") for n in (99, 100, 101)] == [0, 0, 5], word
        assert [nest(W, word, n, "", 0) for n in (99, 100, 101)] == [4, 4, 5], word
        assert [nest(B, word, n, "@;", 0) for n in (99, 100, 101, 102)] == [4, 4, 5, 5], word
        assert [nest(W, word, n, "/*", 0) for n in (100, 101)] == [4, 5], word
    else:
        nest(W, word, 50, "a", 100)
        nest(W, word, 51, "a", 102)
# a command that opens no level of its own, and what stands in it: at level n one level more is read up to 99
LEVELLED = [
    "x = {}", "x += {};", ". = {}", "PROVIDE(x = {})", "PROVIDE_HIDDEN(x = {});", "ASSERT({}, m)",
    "MEMORY {{ a : o = {}, l = 1 }}", "MEMORY {{ a : o = 1, l = {} }}",
    "PHDRS {{ a {} }}", "PHDRS {{ a 1 FLAGS({}) }}", "SECTIONS {{ x = {}; }}", "SECTIONS {{ . -= {}; }}",
    "SECTIONS {{ ASSERT({}, m) }}", "SECTIONS {{ PROVIDE(x = {}) }}",
    "SECTIONS {{ a {} : {{}} }}", "SECTIONS {{ a : AT({}) {{}} }}", "SECTIONS {{ a : ALIGN({}) {{}} }}",
    "SECTIONS {{ a : {{}} ={} }}", "SECTIONS {{ a : {{ x = {}; }} }}",
    "SECTIONS {{ a : {{ PROVIDE(x = {}) }} }}", "SECTIONS {{ a : {{ ASSERT({}, m) }} }}", "a b y = {} z",
]
for k, form in enumerate(LEVELLED):
    for j, inner in enumerate(("(1)", "-1", "MIN(1,1)", "a?1:1", "ASSERT(1,n)")):
        mode = [(j + k) % 2]
        if j < 1:
            assert [nest(mode, "GROUP", n, form.format(inner), n % 100) for n in (99, 100)] == [0, 5], form
        else:
            assert nest(mode, "GROUP", 100, form.format(inner), 0) == 5, form
    assert nest([k % 2], "INPUT", 100, form.format("1")) == 0, form
    # brackets of an expression alone, with and without a failure before them
    add([k % 2], form.format("(" * 100 + "1" + ")" * 100), form.format("(" * 101 + "1"))
    add(W, form.format("@" + 101 * "("))
# a bracket beside the expression
assert [nest(BOTH, "INPUT", n, "GROUP(b) OUTPUT_ARCH(a) x = (1)") for n in (98, 99, 100)] == [0, 0, 5]
# an attribute opens no level, a bracket that is none does
for inner in ("(NOLOAD)", "( INFO )", "(NOLOAD) 1", "(FOO)", "(NOLOAD", "(NOLOAD + 1)", "1 (COPY) 2"):
    for n in (99, 100):
        nest([n % 2], "GROUP", n, f"SECTIONS {{ a {inner} : {{}} }}")
assert nest(W, "GROUP", 100, "SECTIONS { a (NOLOAD) : {} }") == 0
assert nest(W, "GROUP", 100, "SECTIONS { a (FOO) : {} }") == 5
# matchers and patterns open none, and a try that would be a matcher is not reached
for inner in (
    "*(.a)", "KEEP(*(SORT(.a)))", "PROVIDE(x (1))", "PROVIDE(x = (1)", "PROVIDE(x = @(1))", "ASSERT((1) m)", "KEEP(x = (1))",
    "CONSTRUCTORS", "x = 1 @ (2)",
):
    for n in (99, 100):
        nest([n % 2], "GROUP", n, f"SECTIONS {{ a : {{ {inner} }} }}")
# levels are given back by brackets that closed and by tries that failed
contents(
    BOTH, 20 * "PROVIDE(x = ((1) " + ") y = ((2))", "PROVIDE(x = " + 99 * "(" + "1)" + " y = " + 100 * "(" + "2" + 100 * ")",
)
contents(BOTH, "PROVIDE(x = " + 99 * "(" + "1 ) *(a) y = " + 101 * "(")
contents(
    W,
    *[f"{word}({before}{101 * '('}" for word in ("PROVIDE", "ASSERT", "KEEP", "X") for before in ("x = ", "x", "x == ", "")],
)
for text in (b"GROUP(a)", b"GROUP(GROUP(GROUP()))", b"OUTPUT_ARCH(x = (1))", b"AS_NEEDED(x = -1;)"):
    long(BOTH, 150, text, b"x = -(1)")
add(
    BOTH, 3 * "GROUP(a " + ")))" + "GROUP(" * 100 + ")" * 100 + " b", "a b " + 101 * "GROUP(", "a b; " + 101 * "GROUP(",
    "a /*c*/ x = " + 101 * "-" + "1", "/*",
)

# ---- where a refusal stands

GOODS = [
    "a", "b = 1;", "ENTRY(c)", "GROUP(d e)", "SECTIONS { }", "VERSION { f };", "ASSERT(1, g);", "PROVIDE(h = 1);",
    "MEMORY{}", '"i j"', ". = 2", "OUTPUT_FORMAT(k)",
]
BADS = [
    ";", "#x", "/*", "/* *", "GROUP(", "GROUP(a,", "ENTRY()", "x = ", '"', "(", "}", "SECTIONS { a }", "z /*", "z #",
    "x = 1 /*c*/", "x = 1; #", "ENTRY(a) /*", "x = " + 101 * "(",
]
GAPS = [" ", "\n", " /*c*/ ", " #c\n", "\r\n\t", " /*/ #\n"]
for bad in BADS:
    for n in range(4):
        t = some(["", "", *GAPS])
        for _ in range(n):
            t += some(GOODS) + some(GAPS)
        add([some(BOTH)], t + bad, t + bad + some(GAPS))
for good in GOODS:
    add(
        W, good, good + ";", good + " ;", good + " /*c*/ ;", good + " #x", good + " /*", good + "/*", " " + good + "\n;x",
        good + " " + good + " }",
    )
    add(B, good + "\n#c\n" + good + " ENTRY", good + " x = " + 101 * "~")
for gap in GAPS:
    add(BOTH, gap + ";", gap + "#x", gap + "/*", gap + gap + "GROUP(", gap + "a" + gap + ";", gap)

# ---- good scripts cut at each byte, without each byte, and with a comment at each border of tokens

PARTS = [
    'GROUP(a AS_NEEDED("b c") -lm)\n',
    "OUTPUT_ARCH(i386 x = 1) INPUT()",
    'OUTPUT_FORMAT("a", b, c) ENTRY(_s)',
    "VERSION { V1 { a; }; }; b",
    "PROVIDE(a = b == c); PROVIDE_HIDDEN(d = 1)",
    'ASSERT(a & b == c, "m n"); x',
    "MEMORY { R : ORIGIN = 0x1, LENGTH = 2K S : org = a, l = b }",
    "PHDRS { t PT_LOAD FILEHDR PHDRS FLAGS(5); d 2 ; }",
    "x += a == b; . <<= 1 y = 2;",
    "SECTIONS { . = 1; x |= 2; ASSERT(1, m) PROVIDE(a = b); }",
    "SECTIONS { .a 1 (NOLOAD) : AT(2) ALIGN(3) { } >R :p =4, }",
    "SECTIONS { a : { KEEP(*(.a SORT(.b))); b.o(c) x = 1; } }",
    "SECTIONS { a : { PROVIDE(x = 1); ASSERT(y, m) CONSTRUCTORS } }",
    "SECTIONS { a 1 2 : { . = ALIGN(4); *(b c) } :p b : {} }",
]
PIECE = re.compile(r'"[^"]*"|[^ (){};,\n\t]+|[(){};,]|[ \n\t]+')


def cuts(modes, t):
    add(modes, *[t[:i] for i in range(len(t) + 1)])


def without(modes, t):
    add(modes, *[t[:i] + t[i + 1 :] for i in range(len(t))])


def commented(modes, t, comment):
    borders = [0, *[m.end() for m in PIECE.finditer(t)]]
    add(modes, *[t[:i] + comment + t[i:] for i in borders])


for k, t in enumerate(PARTS):
    cuts([k % 2], t)
    without([(k + 1) % 2], t)
    commented([k // 2 % 2], t, ["/*c*/", "#c\n"][k % 2])
for t in ("x = a & b == c; y", "PROVIDE(a = b == c < d)"):
    cuts(BOTH, t)
    without(BOTH, t)
    contents(BOTH, *[t[:i] for i in range(len(t))])

# ---- scripts by chance, the same in every run, and copies with a byte changed

expr_cases.CHANCE.seed(7)
NAMES = ["a", "b.o", "_c1", ".d", '"e f"', "*", "g*h?.o", "-li", "/j/k", "KEEP", "SORT", "PROVIDES", "."]


SMALL = ["ENTRY(a)", "ENTRY( b )", "OUTPUT_FORMAT(a)", 'OUTPUT_FORMAT("a", b,c)', "VERSION {a}", "VERSION { b {c}; };"]


def gap():
    return some([" ", " ", " ", " ", "\n", "\t", " /*c*/ ", " #d\n"])


def value():
    return expr_cases.text(some([0, 0, 0, 1, 1, 2]))


def many(make, most):
    return "".join(make() + gap() for _ in range(some(range(most + 1))))


def made_assignment(end):
    return some(["x", ".", "y_1", '"z z"']) + " " + some(SIGNS + ["="] * 8) + " " + value() + end


def made_provide():
    t = some(["PROVIDE", "PROVIDE_HIDDEN"]) + some(["", " "])
    return t + "(" + some(["a", "b1"]) + " = " + value() + ")" + some([";", "", " ;"])


def made_assert():
    return "ASSERT(" + value() + ", " + some(["m", '"n o"', '""']) + ")"


def made_pattern():
    name = some([".a", ".b.*", "*", "COMMON", ".c$d"])
    return some(["SORT({})", "SORT_BY_NAME( {} )", "SORT_BY_ALIGNMENT({})", "{}", "{}", "{}", "{}"]).format(name)


def made_matcher():
    form = some(["{}({})", "{} ({})", "KEEP({}({}))", "KEEP ({}({}))"])
    return form.format(some(["*", "*", "*", "a.o", '"b c"', "*d?.o"]), many(made_pattern, 3)) + some(["", ";"])


def made_contents():
    kind = some(range(9))
    if kind < 4:
        return made_matcher()
    if kind < 6:
        return made_assignment(some([";", ";", ""]))
    return [made_provide, lambda: made_assert() + some(["", ";"]), lambda: "CONSTRUCTORS"][kind - 6]()


def made_section():
    t = some([".a", "b", '"c d"', "/DISCARD/", ".e.f"]) + gap()
    t += many(lambda: some(["1", value(), "(NOLOAD)", "(COPY)", "(FOO)"]), 1) + ":" + gap()
    t += many(lambda: some(["AT", "ALIGN"]) + "(" + value() + ")", 1)
    t += "{" + gap() + many(made_contents, 3) + "}" + gap()
    return t + many(lambda: some([":p", "> R", "=" + value()]), 2) + some(["", "", ","])


def made_section_command():
    kind = some(range(6))
    if kind < 3:
        return made_section()
    return [made_provide, made_assert, lambda: made_assignment(";")][kind - 3]()


def made_region():
    return f"{some(['R', 'S_1'])} : {some(['ORIGIN', 'org', 'o'])} = {value()}, {some(['LENGTH', 'len', 'l'])} = {value()}"


def made_phdr():
    kind = some(["PT_LOAD", "PT_NOTE", "PT_GNU_STACK", value()])
    t = some(["t", "d1"]) + " " + kind + " "
    return t + many(lambda: some(["FILEHDR", "PHDRS", "FLAGS(" + value() + ")"]), 2) + some([";", ""])


def made_command(depth):
    kind = some(range(14 if depth else 11))
    if kind < 3:
        return "SECTIONS {" + gap() + many(made_section_command, 2) + "}"
    if kind < 5:
        return made_assignment(some([";", ""]))
    if kind >= 11:
        return some(["GROUP", "INPUT", "AS_NEEDED", "OUTPUT_ARCH"]) + "(" + many(lambda: made_command(depth - 1), 3) + ")"
    return [
        lambda: some(NAMES),
        made_provide,
        lambda: made_assert() + some(["", ";"]),
        lambda: "MEMORY {" + gap() + many(made_region, 2) + "}",
        lambda: "PHDRS {" + gap() + many(made_phdr, 2) + "}",
        lambda: some(SMALL),
    ][kind - 5]()


def changed(t):
    """A byte left out, doubled or exchanged, or two pieces exchanged."""
    i = some(range(len(t)))
    if some(range(4)):
        return t[:i] + some(["", 2 * t[i], some(list("(){};,:=\"# /*.a1\n>+"))]) + t[i + 1 :]
    pieces = PIECE.findall(t) or [t]
    j, k = some(range(len(pieces))), some(range(len(pieces)))
    pieces[j], pieces[k] = pieces[k], pieces[j]
    return "".join(pieces)


made = 0
while made < 300:
    t = some(["", "", " ", "/*c*/"]) + many(lambda: made_command(2), 3)
    if 8 <= len(t) <= 110:
        add([some(BOTH)], t)
        add([some(BOTH)], changed(t))
        made += 1
WORDS = [
    *KEYWORDS, "KEEP", "SORT", "CONSTRUCTORS", "AT", "ALIGN", "PT_LOAD", "FLAGS", "FILEHDR", "ORIGIN", "LENGTH", "NOLOAD",
    "a", "b", ".", "*", "1", "=", "=", "+=", ":", ">",
    "(", "(", ")", ")", "{", "{", "}", "}", ";", ",", '"', "#c\n", "/*c*/",
]
for _ in range(100):
    add([some(BOTH)], some([" ", ""]).join(some(WORDS) for _ in range(2 + some(range(8)))))

# ---- long scripts

for head, tail in (
    ("a=1 ", ""), ("x=1;", ""), ("x =1;", ""), ("x =1 ", "y"), (". =1 ", ""), ("a +=b ", "c"), ("a -=b;", "("), ("a ", ""),
    ("a", ""), (" ", ""), (" ", "a"), (".", ""), ('"', ""),
    ('""', ""), ("a\n", ""), ("/**/", ""), ("/", ""), ("#\n", ""), ("#", ""), ("{", ""), ("(", ""), ("\0", ""), ("/*/", ""),
    ("GROUP()", ""), ("GROUP(a)", ";"), ("INPUT(a GROUP(b))", ""),
    ("OUTPUT_ARCH(a b c)", ""), ("VERSION{}", ""), ("VERSION{ab};", "x"), ("ENTRY(a)", ""), ("SECTIONS{}", ""),
    ("SECTIONS{a :{}}", ""), ("SECTIONS{a :{*(b)}}", "SECTIONS{"),
    ("SECTIONS { .a 1 : AT(2) { KEEP(*(.b SORT(.c))) . = ALIGN(4); } >R :p =0 }\n", ""), ("MEMORY{a :o=1,l=2}", ""),
    ("PHDRS{a 1}", ""), ("PHDRS{a PT_LOAD FLAGS(1)}", "#x"),
    ("PROVIDE(a =1)", ""), ("ASSERT(1,a)", "/*"), ("OUTPUT_FORMAT(a,b,c)", ""), ("GROUP(", ""), ("x = (", ""),
):
    times = (65536 - len(tail)) // len(head)
    long([len(CASES) % 2], times, head.encode(), tail.encode())
long(W, 65535, b'"')
long(B, 1, b"VERSION {" + 200 * b"{", 200 * b"}" + b"} VERSION {" + 200 * b"{" + 201 * b"}")
sections(W, 99 * ".a : { *(b) } ", 99 * "x = 1; ", 66 * ".a 1 2 : {} " + "}")
contents(B, 99 * "*(.a .b) ", 99 * "x = 1; ", "*(" + 200 * ".a " + ")", 50 * "PROVIDE(a = b c) ")
add(
    W,
    "MEMORY {" + 30 * "a : o = 1, l = 2\n" + "}", "PHDRS {" + 50 * "a PT_LOAD FLAGS(1); " + "}",
    "GROUP(" + 99 * "a b=1 " + ")", "x = 1 " + 99 * "+ 1 ",
    "OUTPUT_ARCH(" + 99 * "x = 1;" + ") y",
)
# more than sixteen comments that are opened within a word, so that what is tried in vain over them is marked first
OVER = [
    "PROVIDE(a =/* )", "PROVIDE(a =(MIN(ASSERT(1,/* )", "PROVIDE(a =1?ASSERT(1,/* )", "ASSERT(1,/* )", "KEEP/*(a)", "CONSTRUCTORS+=/*(a)", "PROVIDE(a =1# )",
    "ASSERT/*(a)", 'PROVIDE("a"/* )', "PROVIDE/*(a)", "PROVIDE/* = 1;", "CONSTRUCTORS=-(ASSERT(1,/* )",
]
BEHIND = ["", "*/1)}}", "*/1+1", '*/"m"),1))))}}', "*/(a(SORT(b) c))}}", "*/m):2)}}", "\n)}}", "*/=1)}}"]
for k, (item, tail) in enumerate(itertools.product(OVER, BEHIND)):
    long([k % 2], 17, f"SECTIONS{{a :{{{item}}}}}".encode(), tail.encode())
    if k % 5 == 0:
        long([k // 5 % 2], 1, f"SECTIONS{{a :{{{17 * item}{tail}".encode())
# 59 to 61 records, and 0: from 61 on a checksum stands for them
for n in (58, 59, 60, 61):
    long([n % 2], n, b"a ", b"b")
long(W, 0, b"never", b"a")
long(B, 0, b"", b"")
long(W, 7, b"", b"a = b")

# ---- scripts of GNU binutils: as they are, and with the words exchanged that 000 does not read

MENDED = [
    (rb"SEARCH_DIR\([^)]*\);?", rb""),
    (rb"SORT_NONE\(([^)]*)\)", rb"\1"),
    (rb"SORT_BY_INIT_PRIORITY", rb"SORT_BY_NAME"),
    (rb"EXCLUDE_FILE *\([^)]*\)", rb""),
    (rb"ONLY_IF_R[OW]", rb""),
    (rb"CONSTANT \(\w+\)", rb"0x1000"),
    (rb"DATA_SEGMENT_(ALIGN|RELRO_END)", rb"MAX"),
    (rb"DATA_SEGMENT_END", rb"ABSOLUTE"),
    (rb"SUBALIGN|BLOCK", rb"ALIGN"),
    (rb"SORT\(\*\)", rb"*"),
]
AS_IS = ["ld-verbose.ld", "elf_x86_64.xr", "elf_x86_64.xu", "i386pe.xr"]
EXCHANGED = ["elf_x86_64.x", "elf_x86_64.xr", "elf_x86_64.xbn", "elf_x86_64.xs", "elf_i386.xn", "elf_iamcu.xe", "i386pep.x"]
FOLDER = pathlib.Path(__file__).resolve().parent / "ldscripts"


def exchanged(t):
    """The script with the words exchanged that 000 does not read."""
    for pattern, other in MENDED:
        t = re.sub(pattern, other, t)
    return t


for file in AS_IS:
    t = (FOLDER / file).read_bytes()
    assert all(answer(mode, t).startswith("refused 4 ") for mode in BOTH), file
    long(W, 1, t)
for k, file in enumerate(EXCHANGED):
    t = exchanged((FOLDER / file).read_bytes())
    assert all(answer(mode, t).startswith("ok ") for mode in BOTH), file
    long([k % 2], 1, t)


def main():
    crate = pathlib.Path(__file__).resolve().parent.parent / "crates" / "readtest"
    given, wanted, tally = [], [], collections.Counter()
    for n, (mode, times, head, tail) in enumerate([*expr_cases.CASES, *CASES], 1):
        script = times * head + tail
        said = expr_cases.answer(mode, script) if mode < 2 else answer(mode - 2, script)
        given.append(b"%d %d %d %d\n%s%s\n" % (mode, times, len(head), len(tail), head, tail))
        wanted.append(b"%d %s" % (n, said.encode()))
        tally[" ".join(said.split()[: 2 if said.startswith("refused") else 1])] += 1
    # a script of 65,537 bytes ends the run
    given.append(b"2 65536 1 1\naa\n2 1 1 0\na\n")
    wanted.append(b"%d malformed header: script too long\n" % (n + 1))
    given, wanted = b"".join(given), b"".join(wanted)
    assert len(given) <= 524288, "the program reads no more"
    (crate / "stdin").write_bytes(given)
    (crate / "stdout").write_bytes(wanted)
    print(
        len(expr_cases.CASES), "expressions,", len(CASES), "scripts,", len(given), "bytes,", len(wanted), "bytes of answers",
    )
    print(", ".join(f"{count} {what}" for what, count in sorted(tally.items())))


def streams():
    """The input of listing, and what it must print; of listings, whose input rust/choose.py chooses, what it must print."""
    crates = pathlib.Path(__file__).resolve().parent.parent / "crates"
    one = b"x += 1K;\n"
    (crates / "listing" / "stdin").write_bytes(one)
    (crates / "listing" / "stdout").write_text(listing(WILD, one))
    given, p, wanted = (crates / "listings" / "stdin").read_bytes(), 0, []
    while m := HEADER.match(given, p):
        p = m.end() + int(m[2])
        wanted.append(listing(int(m[1]), given[m.end() : p]))
    # the last header is none
    wanted.append("malformed header")
    (crates / "listings" / "stdout").write_text("\n".join(wanted) + "\n")
    print(len(wanted) - 1, "listings,", len(given), "bytes,", len("\n".join(wanted)) + 1, "bytes of answers")


if __name__ == "__main__":
    main()
    streams()
