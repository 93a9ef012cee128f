#!/usr/bin/env python3
"""The expressions among the cases of the program readtest, and what it must print of them.

script_cases.py writes them, before the whole scripts.

The reading below is a second one of the same rules, and no outside oracle: binary operators by their strength in one
loop, where wild's linker_script.rs (000) and the Rattle code go down rung by rung, and tokens by regular expressions. Strengths
are those of wild's rungs and of the manual's table, records those of docs/RECORDS.md; what brackets, functions and prefix operators
hold is one level deeper, and level 100 is the last. The functions' arguments are from 000 (parse_identifier_or_function,
parse_function_arg, parse_assert).
"""
import itertools
import random
import re
import sys

# 100 levels of nine rows each
sys.setrecursionlimit(10000)

# ---- the reading

WILD, BOOK = 0, 1
LEVELS = 100

KINDS = dict(zip("+ - * / % < > <= >= == !=".split(), range(4, 15))) | dict(zip("& | ^ << >> && ||".split(), range(17, 24)))
PREFIXES = {"!": 24, "~": 25, "-": 26}
NAMED = dict(zip("SIZEOF ALIGNOF ORIGIN LENGTH ADDR LOADADDR DEFINED".split(), range(30, 37)))
COMPARISONS = "< > <= >= == !="

# rows of operators from the loosest to the tightest
ROWS = {
    WILD: ["||", "&&", COMPARISONS, "|", "^", "&", "<< >>", "+ -", "* / %"],
    BOOK: ["||", "&&", "|", "^", "&", COMPARISONS, "<< >>", "+ -", "* / %"],
}
STRENGTH = {mode: {sign: n for n, row in enumerate(rows) for sign in row.split()} for mode, rows in ROWS.items()}

# the longest sign counts; a lone '=' is none
SIGN = re.compile(rb"<<|>>|<=|>=|==|!=|&&|\|\||[-+*/%<>&|^]")
BLANKS = re.compile(rb"[ \t\r\n]*")
PREFIX = re.compile(rb"!(?!=)|~|-")
NAME = re.compile(rb"[A-Za-z_.][A-Za-z0-9_.]*")
HEX = re.compile(rb"0[xX]([0-9A-Fa-f]+)")
DECIMAL = re.compile(rb"0|[1-9][0-9]*")
SEGMENT = re.compile(rb'"([^"]+)"')
TOKEN = re.compile(rb'"([^"]*)"|([^ (){};,\n\t"][^ (){};,\n\t]*)')


class Fail(Exception):
    pass


class Deep(Exception):
    pass


class Reading:
    """One expression of a script: where the reading stands, how deep, and the records so far."""

    def __init__(self, script, mode):
        self.s, self.mode = script, mode
        self.p, self.depth, self.records = 0, 0, []

    def add(self, kind, a=0, b=0, c=0, d=0):
        self.records.append((kind, a, b, c, d))

    def match(self, pattern):
        m = pattern.match(self.s, self.p)
        if m:
            self.p = m.end()
        return m

    def need(self, pattern):
        m = self.match(pattern)
        if not m:
            raise Fail
        return m

    def at(self, byte):
        return self.s.startswith(byte, self.p)

    def byte(self, byte):
        if not self.at(byte):
            raise Fail
        self.p += 1

    def blanks(self):
        self.match(BLANKS)

    def comments(self):
        """Blanks and comments; what begins as a comment must be one."""
        self.blanks()
        while self.at(b"#") or self.at(b"/*"):
            end, size = (b"\n", 1) if self.at(b"#") else (b"*/", 2)
            found = self.s.find(end, self.p + 1)
            if found < 0:
                raise Fail
            self.p = found + size
            self.blanks()

    def deeper(self, reading):
        if self.depth == LEVELS:
            raise Deep
        self.depth += 1
        reading()
        self.depth -= 1

    def expression(self):
        self.operations(0)
        if self.at(b"?"):
            self.p += 1
            self.deeper(self.expression)
            self.byte(b":")
            self.deeper(self.expression)
            self.add(28)
        self.blanks()

    def operations(self, least):
        """Operators at least so strong. One that is stronger than the last taken here was refused behind it, and ends the loop."""
        self.operand()
        self.blanks()
        most = len(ROWS[self.mode])
        while m := SIGN.match(self.s, self.p):
            sign = m[0].decode()
            strength = STRENGTH[self.mode][sign]
            if not least <= strength <= most:
                return
            self.p = m.end()
            self.operations(strength + 1)
            self.add(KINDS[sign])
            once = self.mode == WILD and sign in COMPARISONS.split()
            most = strength - once

    def operand(self):
        self.blanks()
        m = self.match(PREFIX)
        if m:
            self.deeper(self.operand)
            self.add(PREFIXES[m[0].decode()])
        elif self.at(b"("):
            self.p += 1
            self.deeper(self.expression)
            self.byte(b")")
        elif self.s[self.p : self.p + 1].isdigit():
            self.add(1, self.number())
        else:
            self.named()

    def number(self):
        m = HEX.match(self.s, self.p)
        if m and len(m[1]) <= 16:
            value, self.p = int(m[1], 16), m.end()
        else:
            digits = self.need(DECIMAL)[0]
            if len(digits) > 20 or int(digits) > 2**64 - 1:
                raise Fail
            value = int(digits)
        suffix = self.s[self.p : self.p + 1]
        if suffix and suffix in b"KkMm":
            self.p += 1
            value *= 1024 if suffix in b"Kk" else 1024 * 1024
        return value % 2**64

    def named(self):
        m = self.need(NAME)
        if m[0] == b".":
            return self.add(3)
        self.blanks()
        if self.at(b"("):
            return self.call(m[0].decode())
        if m[0] == b"SIZEOF_HEADERS":
            return self.add(38)
        self.add(2, m.start(), len(m[0]))

    def argument(self):
        """An expression argument, and the blanks round it."""
        self.blanks()
        self.deeper(self.expression)
        self.blanks()

    def call(self, name):
        bracket = self.p
        self.p += 1
        if name == "ASSERT":
            return self.asserted(bracket)
        if name in NAMED:
            self.blanks()
            m = self.need(NAME)
            self.blanks()
            record = (NAMED[name], m.start(), len(m[0]))
        elif name == "ALIGN":
            self.argument()
            both = self.at(b",")
            if both:
                self.p += 1
                self.argument()
            record = (29, 1 + both)
        elif name in ("MIN", "MAX"):
            self.argument()
            self.byte(b",")
            self.argument()
            record = (15 if name == "MIN" else 16,)
        elif name == "SEGMENT_START":
            self.blanks()
            m = self.need(SEGMENT)
            self.blanks()
            self.byte(b",")
            self.argument()
            record = (37, m.start(1), len(m[1]))
        elif name == "ABSOLUTE":
            self.argument()
            record = (27,)
        else:
            raise Fail
        self.byte(b")")
        self.add(*record)

    def asserted(self, bracket):
        self.comments()
        self.deeper(self.expression)
        self.comments()
        self.byte(b",")
        self.comments()
        m = self.need(TOKEN)
        self.comments()
        self.byte(b")")
        self.comments()
        which = 1 if m[1] is not None else 2
        self.add(39, m.start(which), len(m[which]), bracket)


SHOWN, BASE, MODULUS = 60, 65599, 1000003


def answer(mode, script):
    r = Reading(script, mode)
    try:
        r.expression()
    except Fail:
        return "fail\n"
    except Deep:
        return "deep\n"
    text = f"got {r.p} {len(r.records)}\n"
    if len(r.records) <= SHOWN:
        return text + "".join("%d %d %d %d %d\n" % x for x in r.records)
    checksum = 0
    for word in itertools.chain.from_iterable(r.records):
        checksum = (checksum * BASE + word) % MODULUS
    return text + f"sum {checksum}\n"

# ---- the cases: mode, how often the head stands, head, tail

CASES = {}


def long(mode, times, head, tail=b""):
    """The head so many times over and then the tail; a case that is there already counts once."""
    assert len(head) * times + len(tail) <= 65536
    CASES[(mode, times, head, tail)] = None


def add(modes, *texts):
    for t in texts:
        for mode in modes:
            long(mode, 1, t if isinstance(t, bytes) else t.encode())


W, B, BOTH = [WILD], [BOOK], [WILD, BOOK]
BINARY = list(KINDS)

# the strengths: every operator against every other, with blanks in both modes and without in one or the other
for n, (x, y) in enumerate(itertools.product(BINARY, BINARY)):
    add(BOTH, f"a {x} b {y} c")
    add([(n + n // len(BINARY)) % 2], f"a{x}b{y}c")
# each operator alone and half, and with other blanks
for x in BINARY:
    add(BOTH, f"a {x} b")
    add(W, x, f"a{x}", f"a {x} ", f"{x}a", f"a\n{x}\tb\r")
# the whole ladder, down and up
for mode, rows in ROWS.items():
    signs = [row.split()[-1] for row in rows]
    for ladder in (signs, signs[::-1], signs + signs[::-1], signs[::-1] + signs):
        add([mode], "a" + "a".join(ladder) + "a", "a " + " a ".join(ladder) + " a ")
# comparisons: one in wild mode, any number in book mode; again behind a looser operator, or in brackets
add(BOTH, "a < b < c < d", "a == b != c", "a < b && c < d", "a < b && c < d < e || f", "a || b < c < d", "a && b == c == d && e")
add(
    BOTH,
    "a < b | c < d", "a | b < c | d", "(a < b) < c", "a < (b < c)", "a < b ? c < d : e < f", "a < b < c ? d : e",
    "a ? b < c < d : e",
)
add(
    BOTH,
    "a ? b : c < d < e", "a < -b < c", "-(a < b < c)", "MIN(a < b < c, d)", "a & b & c == d & e",
    "a ^ b == c ^ d | e < f & g",
)
# signs that begin alike: the longest counts, wherever a blank may stand
add(BOTH, "a<<=b", "a<= =b", "a< =b", "a<<<b", "a<< <b", "a< <b", "a<==b", "a>>=b", "a>= b", "a> >b", "a>>>b", "a><b", "a<>b")
add(
    W,
    "a=b", "a =b", "a= =b", "a===b", "a==b", "a= b", "a=<b", "a=>b", "a!b", "a! =b", "a!=b", "a!==b", "a!= =b", "a!!=b",
    "a!=!b",
)
add(
    W,
    "a!=!=b", "a^^b", "a**b", "a//b", "a/ /b", "a%%b", "a+-b", "a++b", "a+ +b", "a--b", "a---b", "a- - -b", "a->b", "a~b",
    "a+~b",
    "a+!b",
)
add(W, "a,b", "a;b", "a)b", "a:b", "a]b", "a{b", "a@b", "a'b", 'a"b"', "a\\b", "a$b", "a`b", "a b", "a 1", "1 a", "1 1")
# doubled & and |
for x in "&|":
    y = "|" if x == "&" else "&"
    add(
        BOTH,
        f"a{x}{x}b", f"a{x} {x}b", f"a{x}{x}{x}b", f"a{x}{x} {x}b", f"a{x} {x}{x}b", f"a{x}{x}{x}{x}b", f"a{x}b{x}{x}c{x}d",
        f"a{x}{x}b{x}c{x}{x}d",
    )
    add(
        W,
        f"a{x}{y}b", f"a{x}{x}{y}b", f"a{x}\n{x}b", f"a{x}{x}", f"a {x}{x} ", f"a{x}{x}{x}", f"{x}{x}a", f"a{x}-b", f"a{x}{x}!b",
        f"a{x}(b{x}{x}c)",
    )

# prefix operators against every binary one, and stacked
for x, p in itertools.product(BINARY, PREFIXES):
    add(W, f"{p}a{x}b", f"a{x}{p}b")
    add(B, f"{p} a {x} {p} b")
for p, q in itertools.product(PREFIXES, PREFIXES):
    add(W, f"{p}{q}a", f"{p} {q} a", f"{p}({q}a)", f"{p}{q}{p}1")
for p in PREFIXES:
    add(
        W,
        p, f"{p} ", f" {p}a", f"{p}\n\ta", f"{p}.", f"{p}1K", f"{p}(a+b)*c", f"{p}a?b:c", f"a?{p}b:{p}c", f"{p}(", f"{p})",
        f"{p}{p}", f"{p}SIZEOF(x)",
    )
    add(W, f"{p}SIZEOF (x)+1", f"{p}foo(x)", f"({p})", f"{p}/*c*/a", f"{p}\x0ba", f"{p}\0")
add(
    W,
    "!=a", "! =a", "!!=a", "!(=a)", "!(!=a)", "(!=a)", "-!=a", "~!=a", "!-=a", "!~a!=b", "!a!=!b", "!=", "!!", "! !a",
    "!\n=a",
    "a?!=b:c", "a&&!=b", "a&&!b",
)
add(W, "+a", "+1", "a*+b", "-+a", "a*-b", "a/-b/c", "a- -b", "a -b", "-a-b", "- a - b", "--a--b", "~a&~b", "!a&&!b", "-a?-b:-c")

# ? : alone, nested both ways, damaged, and against every operator
add(
    BOTH,
    "a?b:c", "a ? b : c", "a\n?\tb\r: c ", "a?b:c?d:e", "a?b?c:d:e", "a?b?c:d:e?f:g", "a?b?c:d?e:f:g", "(a?b:c)?d:e",
    "a?(b?c:d):e", "a?b:(c?d:e)",
)
add(
    W,
    "a?", "a?b", "a?b:", "a?:", "a?:c", "?", "?b:c", ":", "a:", "a?b:c:", "a?b:c:d", "a?b:c?", "a?b:c?d", "a?b:c?d:",
    "a??b:c",
    "a?b::c", "a?b?c:d", "a ? b c : d",
)
add(
    W,
    "a?b:c d", "a?b,c:d", "(a?b:c", "a?(b:c)", "(a?b):c", "a?b:c)", "a?.:.", "a?1:2", "a?b.:.c", "a?b.c:d", "a?b:c;",
    "a?b:c  ;",
    "1?2:3?4:5", "a?b :c", "a?b: c",
)
add(
    W,
    "a?/*c*/b:c", "a?b/*c*/:c", "a?b:c/*d*/", "a?b:c #d", "a?b #x\n:c", "a?MIN(b,c):d", "MIN(a?b:c,d)", "MIN(a,b?c:d)",
    "ALIGN(a?b:c,d?e:f)", "ABSOLUTE(a?b:c)",
)
for x in BINARY:
    add(BOTH, f"a{x}b?c:d", f"a ? b {x} c : d", f"a?b:c{x}d", f"(a?b:c) {x} d")
    add(W, f"a?b{x}:c", f"a?b:c{x}", f"a?{x}b:c", f"a{x}?b:c", f"a {x} (b ? c : d)")

# numbers: suffixes, limits, and what is left behind them
add(
    W,
    "0", "1", "00", "012", "1K", "1k", "2M", "2m", "1KK", "1G", "0K", "0x10", "0X1f", "0x10K", "0XffM", "0x", "0xg", "0xK",
    "0x1g", "1a", "1.", "1_", "1x1", "0b1",
)
add(
    W,
    "18446744073709551615", "18446744073709551616", "18446744073709551615K", "0xffffffffffffffff", "0xffffffffffffffffK",
    "0xfffffffffffffffff",
)
add(
    W,
    "0x0000000000000001M", "99999999999999999999", "100000000000000000000", "0x8000000000000001k", "12345678901234567890m",
    "17592186044417M",
)
add(
    W,
    "1+2", "1K+2M", "1K*0x2m", "1 K", "1-1", "1 -1", "1--1", "-1", "- 1", "-18446744073709551616", "1?2:3", "1K?2K:3K", "1(",
    "1 (", "1(2)", "1)", "012+1",
)
add(
    W,
    "a+18446744073709551616", "(18446744073709551616)", "1e5", "1,2", "0.5", "0x1.5", "1K1", "MIN(1K,0x1M)", "MIN(012,1)",
    "ALIGN(0x)", "ALIGN(0xK)",
)
# symbols, the location counter, and SIZEOF_HEADERS
add(
    W,
    "a", "abc", "_", "_a9", "a.b", ".a", ".9", "..", "...", ".", ". ", " .", "._", "a.", "A_Z.09", "9a", "a b", "a-b", "a$",
    "aé",
    "é", "a\"", '"a"', "@", "$a", "%a", "\\",
)
add(
    W,
    ".+1", ".+.", ". + . ", ".*..", "..+.", ".-.a", ".(", ".(a)", ". (a)", "..(a)", ".. (a)", ".)", "(.)", "( . )", "-.",
    "!.",
    ".?.:.", ".1", ".=1", ". = 1", ".a(b)",
)
add(
    W,
    "SIZEOF_HEADERS", "SIZEOF_HEADERS ", "SIZEOF_HEADERS+1", "SIZEOF_HEADERS(", "SIZEOF_HEADERS()", "SIZEOF_HEADERS (a)",
    "SIZEOF_HEADERS\n(", "(SIZEOF_HEADERS)",
)
add(
    W,
    "SIZEOF_HEADERS)", "SIZEOF_HEADER", "SIZEOF_HEADERSx", "sizeof_headers", "SIZEOF_HEADERS.", "-SIZEOF_HEADERS",
    "SIZEOF_HEADERS SIZEOF_HEADERS", "SIZEOF (SIZEOF_HEADERS)",
)
add(W, "MIN(SIZEOF_HEADERS,SIZEOF_HEADERS)", "a+SIZEOF_HEADERS", "SIZEOF_HEADERS?SIZEOF_HEADERS:SIZEOF_HEADERS")
# symbols named as commands, and unknown functions
add(
    W,
    "GROUP", "KEEP", "GROUP(a)", "foo(", "foo()", "foo(a)", "foo (a)", "foo\n(a)", "a(1)+b", "a+b(1)", "a (b)", "a\t(",
    "_(a)",
    "a.b(c)", "(a)(b)", "(a) (b)", "BLOCK(4)",
)
add(
    W,
    "CONSTANT(MAXPAGESIZE)", "DATA_SEGMENT_ALIGN(a,b)", "NEXT(a)", "LOG2CEIL(a)", "MIN", "MAX+1", "ALIGN ",
    "DEFINED?ADDR:ORIGIN",
    "ASSERT", "ABSOLUTE", "SEGMENT_START",
)
add(
    W,
    "SIZEOF SIZEOF(x)", "min(a,b)", "Max(a,b)", "MINN(a,b)", "MI(a,b)", "ALIGNO(a)", "ALIGNOFF(a)", "_MIN(a,b)", ".MIN(a,b)",
    "MIN.(a,b)", "1MIN(a,b)",
)

# brackets
add(
    W,
    "(", ")", "()", "( )", "(a)", "( a )", "(\na\t)", "((a))", "( ( a ) )", "(a", "(a ", "((a)", "(a))", "(a b)", "(a,b)",
    "(a;",
    "(a+)", "(+a)", "(a)+(b)", "(a)b", "(a) b", "(a)1",
)
add(
    W,
    "a+(b", "a+(b*(c)", "(a+b)*c", "a*(b+c)", "(a)*(b)+(c)", "((a+b)*(c+d))", "(a=b)", "(a==b)", "(a?b:c)", "(a?b)",
    "(a?b:)",
    "(/*c*/a)", "(a/*c*/)", "(a#c\n)", "(#c\na)",
)
add(
    W,
    "(a)/*c*/", "(a) #c", "(((((((((a)))))))))", "(((((((((a))))))))", "(-a)", "-(a)", "(1)", "(.)", "(SIZEOF(a))",
    "(SIZEOF(a)",
    "(foo(a))", "(a){", "[a]", "{a}", "<a>",
)

# names as arguments, good and damaged
for f in NAMED:
    add(
        W,
        f"{f}(x)", f"{f} (x)", f"{f}( x )", f"{f}\n(\r\n.text\t)", f"{f}()", f"{f}( )", f"{f}(x", f"{f}(x ", f"{f}(", f"{f} (",
        f"{f} x)", f"{f} x", f"{f}", f"{f})",
    )
    add(
        W,
        f"{f}(9x)", f"{f}(x,y)", f"{f}(x y)", f'{f}("x")', f"{f}(x))", f"{f}(x)+1", f"{f}(/*c*/x)", f"{f}(x/*c*/)",
        f"{f}(x)/*c*/", f"{f}/*c*/(x)", f"{f}#c\n(x)",
    )
    add(
        W,
        f"{f}(#c\nx)", f"{f}((x))", f"{f}(.a_9.b)", f"{f}(.)", f"{f}(_)", f"{f}(-x)", f"{f}(x-y)", f"{f}(x+1)", f"{f}(*)",
        f"{f}({f})", f"{f}({f}(x))", f"{f.lower()}(x)",
    )
    add(W, f"{f}_(x)", f"{f}(x\x0c)", f"{f}(x\0)", f"{f}(é)", f"a*{f}(x)*b", f"{f}(x){f}(y)", f"-{f}(x)?{f}(y):{f}(z)")
    add(B, f"{f}(x) & {f} ( y ) == z", f"{f}(x) {f}")

# ALIGN of one and of two
add(
    BOTH,
    "ALIGN(a)", "ALIGN(a,b)", "ALIGN ( a , b ) ", "ALIGN(\n4K\n)", "ALIGN(a & b == c, d < e < f)",
    "ALIGN(., 0x1000)+SIZEOF(.x)",
)
add(
    W,
    "ALIGN()", "ALIGN( )", "ALIGN(", "ALIGN(a", "ALIGN(a ", "ALIGN(a,", "ALIGN(a,b", "ALIGN(,", "ALIGN(,b)", "ALIGN(a,)",
    "ALIGN(a,,b)", "ALIGN(a,b,c)", "ALIGN(a b)", "ALIGN(a;b)", "ALIGN a",
)
add(
    W,
    "ALIGN(a))", "ALIGN(a)b", "ALIGN(a,b)+c", "ALIGN((a),(b))", "ALIGN((a,b))", "ALIGN((a)", "ALIGN(a)(b)",
    "ALIGN(ALIGN(a,b),ALIGN(c))", "ALIGN(a,ALIGN(b,c)", "ALIGN(a+,b)", "ALIGN(foo(a))",
)
add(
    W,
    "ALIGN(/*c*/a)", "ALIGN(a/*c*/)", "ALIGN(a,/*c*/b)", "ALIGN(a#c\n,b)", "ALIGN(a,b#c\n)", "ALIGN(#c\na)", "ALIGN/**/(a)",
    "ALIGN(a?b:c,d)", "ALIGN(a?b,c:d)", "ALIGN(-a,-b)", 'ALIGN("a")',
)
# MIN and MAX
for f in ("MIN", "MAX"):
    add(BOTH, f"{f}(a,b)", f"{f} ( a , b ) ", f"{f}(\na\t,\rb\n)", f"{f}(a & b == c, d == e == f)")
    add(
        W,
        f"{f}(", f"{f}()", f"{f}(a)", f"{f}(a", f"{f}(a,", f"{f}(a,)", f"{f}(,b)", f"{f}(,)", f"{f}(a,b", f"{f}(a,b ",
        f"{f}(a b)", f"{f}(a,b,c)", f"{f}(a;b)", f"{f}(a,,b)", f"{f} a,b",
    )
    add(
        W,
        f"{f}(a,b)*c", f"c*{f}(a,b)", f"{f}({f}(a,b),{f}(c,d))", f"{f}({f}(a,b)", f"{f}(a,b)c", f"{f}((a),(b))", f"{f}((a,b))",
        f"{f}((a,b)", f"{f}(a,b))", f"{f}(1,2)", f"{f}(.,..)",
    )
    add(
        W,
        f"{f}(/*c*/a,b)", f"{f}(a,/*c*/b)", f"{f}(a,b/*c*/)", f"{f}(a/*c*/,b)", f"{f}(a#c\n,b)", f"{f}(a,b)#c", f"{f}(a+,b)",
        f"{f}(a,+b)", f"{f}(!=a,b)", f"{f}(foo(a),b)", f"{f}[a,b]",
    )
# ABSOLUTE
add(BOTH, "ABSOLUTE(a)", "ABSOLUTE ( a ) ", "ABSOLUTE(a & b == c)", "ABSOLUTE(a == b < c)", "ABSOLUTE(\n\ta\r)")
add(
    W,
    "ABSOLUTE(", "ABSOLUTE()", "ABSOLUTE( )", "ABSOLUTE(a", "ABSOLUTE(a ", "ABSOLUTE(a,b)", "ABSOLUTE(a b)", "ABSOLUTE a",
    "ABSOLUTE(.)", "ABSOLUTE(ABSOLUTE(a))", "ABSOLUTE(ABSOLUTE(a)",
)
add(
    W,
    "ABSOLUTE(/*c*/a)", "ABSOLUTE(a/*c*/)", "ABSOLUTE( /*c*/ a)", "ABSOLUTE(#c\na)", "ABSOLUTE(a#c\n)", "ABSOLUTE(a)+b",
    "b-ABSOLUTE(a)-c", "ABSOLUTE(a)b", "ABSOLUTE((a))", "ABSOLUTE(a))", "ABSOLUTE(+)",
)
# SEGMENT_START: a name in quotes that is not empty, a comma, an expression
add(BOTH, 'SEGMENT_START("t",1)', 'SEGMENT_START ( "text-segment" , a & b == c ) ', 'SEGMENT_START(\n"t"\r,\ta < b < c\n)')
add(W, *['SEGMENT_START' + x for x in (
    "(", "()", '("', '("t', '("t"', '("t",', '("t",1', '("t",)', '("t" 1)', '("t")', '("t",1,2)', '("",1)', '("" ,1)',
    '(""t",1)', '("t"",1)', '("t"x,1)', '(t,1)', "('t',1)", '(,1)', '( 1)',
    '("t",1', '("t";1)', '(("t",1))', '("t",(1))', '("t",(1)', '("t",1)+a', '("t",1)a', '(" ",1)', '("a b\n(c),d",1)',
    '("t,1)', '("\\",1)', '("\\"",1)', '("t"/*c*/,1)', '(/*c*/"t",1)',
    '("t",/*c*/1)', '("t",1/*c*/)', '("/*c*/",1)', '("t"#c\n,1)', '("t",1#c\n)', '("#",1)', '("é\0\t",1)', '("t",foo(a))',
    '("t",SEGMENT_START("u",a))', '("t",SEGMENT_START("u",a)', ' "t",1)', '"t"',
)])
# ASSERT: comments are skipped inside its bracket and behind it, but none is read within the expression
add(
    BOTH,
    'ASSERT(a,"m")', 'ASSERT ( a , "m" ) ', "ASSERT(a,m)", 'ASSERT(a & b == c, "m")', 'ASSERT(a == b < c, "m")',
    'ASSERT(a == b, "m") == c',
)
add(W, *["ASSERT" + x for x in (
    "(", "()", "( )", "(a", "(a,", '(a,"', '(a,"m', '(a,"m"', '(a,"m" ', '(a,m', "(a)", "(a,)", '(,"m")', '(a "m")',
    '(a;"m")', '(a,"m",b)', '(a,"m"x)', '(a,"m" x)', '(a,m n)', "(a,(m))", '(a,,"m")',
    '(a,"")', '(a,""")', '(a,"m"")', '(a,m")', '(a,m"n"o)', "(a,'m')", "(a,m\r)", "(a,\r\nm\t)", "(a,é)", '(a,"é\0")',
    "(a,m\0)", '(a,"m n,(o);\n")', "(a,m{)", "(a,m;)", "(a,m=1+2)", "(a,{m})", '(a,"m"))',
    '(/*c*/a,"m")', '( /*c*/ /*d*/ a,"m")', '(#c\na,"m")', '(#c\n#d\n/*e*/a,"m")', '(/*/a,"m")', '(/**/a,"m")',
    '(/*c a,"m")', '(#c a,"m")', '(/a,"m")', '(// a\n,"m")',
    '(a/*c*/,"m")', '(a /*c*/ ,"m")', '(a#c\n,"m")', '(a #c\n#d\n , "m")', '(a#c\n/*d*/,"m")', '(a#c,"m")', '(a+#c\nb,"m")',
    '(a+/*c*/b,"m")', '(a?b:c#d\n,"m")', '((a)#c\n,"m")', '((a#c\n),"m")',
    '(a,/*c*/"m")', '(a,#c\n"m")', '(a,"m"/*c*/)', '(a,"m"#c\n)', '(a,"m"#c)', '(a,"m"/*c)', '(a,/*c"m")', '(a,#c"m")',
    "(a,m/*c*/)", "(a,m /*c*/)", "(a,m#c\n)", "(a,m #c\n)", "(a,/*/m)", "(a,#m\n)", "(a,#m)", "(a,/m)",
    '(a,"m")/*c*/', '(a,"m") /*c*/ ', '(a,"m")/*c*/+b', '(a,"m")#c\n+b', '(a,"m")#c\n/*d*/ ? b : c', '(a,"m")#c',
    '(a,"m") #', '(a,"m")/*c', '(a,"m") /*', '(a,"m")/c', '(a,"m")/*/b', '(a,"m")/**//b', '(a,"m")/*c*/#d',
    '(a,"m")\n', '(a,"m") b', '(a,"m")b', '(a,"m"),b', '(ASSERT(a,"m"),n)', '(ASSERT(a,"m")/*c*/,n)',
    '(ASSERT(a,"m")#c\n,n)/*d*/', '(ASSERT(a,"m"),n', '((a,"m"))', '(foo(a),"m")', '(.,"m")', '(1,2)', '(-a,-)',
    '/*c*/(a,"m")', '#c\n(a,"m")', '\n(a,"m")', ' a,"m"',
)])
add(
    W,
    '(ASSERT(a,"m")/*c*/)', 'MIN(ASSERT(a,"m")/*c*/,ASSERT(b,n)#d\n)', 'a ? ASSERT(b,"m")/*c*/ : c', '-ASSERT(a,"m")#c\n*b',
    'b+ASSERT(a,"m")', '(ASSERT(a,"m")#c)', 'ALIGN(ASSERT(a,"m")/*c*/,b)',
)

# comments in expressions are not read
add(
    W,
    "/*c*/a", "#c\na", "/*c*/", "#c\n", "a/*c*/", "a /*c*/", "a /*c*/ + b", "a + /*c*/ b", "a #c\n", "a #c\n+ b",
    "a + #c\nb",
    "a//b", "a // b", "a/ *b", "1/*c*/", "1 #", "./*c*/", ". #", "a?b/*c*/:d", "/**/", "a/**/b",
)
# blanks: each, and what is none; NUL and bytes over 127
for b in b"\t\n\x0b\x0c\r \x00\x1f\x7f\x80\x85\xa0\xc2\xff":
    for mode, t in (
        (WILD, b"*a"), (BOOK, b"a*"), (WILD, b"a*+*b"), (BOOK, b"a+*b"), (WILD, b"*"), (WILD, b"MIN*(a,b)"),
        (WILD, b"MIN(a*,b)"), (BOOK, b"SIZEOF(*x)"), (WILD, b"-*a"), (WILD, b"a?*b:c"), (WILD, b"1*K"),
    ):
        long(mode, 1, t.replace(b"*", bytes([b])))
add(BOTH, "", " ", "\t\r\n ", " a", "a ", " a ", "\n\na\n\n+\n\nb\n\n")
for b in range(256):
    if not (bytes([b]).isalnum() or b in b"._"):
        add(W, bytes([b]))
add(
    W,
    b"a\x00", b"a\x00+b", b"a+\x00b", b"\xc3\xa9+a", b"a+\xc3\xa9", b"a\xc3\xa9", b"\xef\xbb\xbfa", b"(\x00)", b"(\xff",
    b"\x00\x00",
)

# ---- levels. A way of nesting opens one level: what stands before the inner text, and what after it

WAYS = {
    "grouping": ("(", ")"),
    "not": ("!", ""),
    "complement": ("~", ""),
    "minus": ("-", ""),
    "spaced minus": ("- ", ""),
    "first branch": ("a?", ":b"),
    "second branch": ("a?b:", ""),
    "ALIGN of one": ("ALIGN(", ")"),
    "first of ALIGN": ("ALIGN(", ",b)"),
    "second of ALIGN": ("ALIGN(a,", ")"),
    "first of MIN": ("MIN(", ",b)"),
    "second of MIN": ("MIN(a,", ")"),
    "first of MAX": ("MAX(", ",b)"),
    "second of MAX": ("MAX(a,", ")"),
    "SEGMENT_START": ('SEGMENT_START("t",', ")"),
    "ABSOLUTE": ("ABSOLUTE(", ")"),
    "ASSERT": ("ASSERT(", ",m)"),
}


def nested(modes, ways, levels, inner="x", closed=True):
    """So many levels by the ways in turn, the first outermost, round the inner text."""
    turns, rest = divmod(levels, len(ways))
    head = "".join(WAYS[w][0] for w in ways)
    last = "".join(WAYS[w][0] for w in ways[:rest])
    order = [ways[i % len(ways)] for i in range(levels)]
    ends = "".join(WAYS[w][1] for w in order[::-1]) if closed else ""
    for mode in modes:
        long(mode, turns, head.encode(), (last + inner + ends).encode())
    return answer(WILD, (head * turns + last + inner + ends).encode()).split()[0]


for way in WAYS:
    assert [nested(BOTH, [way], n) for n in (99, 100, 101)] == ["got", "got", "deep"], way
    # what is too deep wins over what would fail inside it; with a level less the same text fails
    assert [nested(W, [way], n, inner, False) for n in (100, 101) for inner in ("", "@")] == ["fail", "fail", "deep", "deep"], way
    # one level more, by brackets and by a prefix operator
    assert [nested(W, [way], n, inner) for n in (99, 100) for inner in ("(x)", "-x")] == ["got", "got", "deep", "deep"], way
MIXED = [
    ["grouping", "minus"],
    ["minus", "grouping", "second branch"],
    ["first branch", "ABSOLUTE", "not", "grouping"],
    ["second branch", "first branch", "grouping"],
    ["ALIGN of one", "complement"],
    ["second of ALIGN", "first of MIN", "second of MAX", "grouping", "spaced minus"],
    ["SEGMENT_START", "second branch", "minus", "minus"],
    ["ASSERT", "grouping", "first of ALIGN", "not", "ABSOLUTE", "second branch", "second of MIN"],
]
for ways in MIXED:
    assert [nested(BOTH, ways, n) for n in (99, 100, 101)] == ["got", "got", "deep"], ways
    nested(B, ways, 100, "", False)
    nested(B, ways, 101, "@", False)
# levels are given back: wide is not deep
for way in ("grouping", "minus", "first branch", "second of MIN", "ASSERT"):
    a, b = WAYS[way]
    for mode, sign in ((WILD, "+"), (BOOK, "==")):
        piece = f"({a}x{b}){sign}" if way == "first branch" else f"{a}x{b}{sign}"
        long(mode, 150, piece.encode(), b"y")
# which is met first: too deep, or a failure before it or behind it, or an end before it
for tail in ("", "@", "x", "x" + 101 * ")", "+"):
    long(WILD, 101, b"(", tail.encode())
for before in (
    "@+", "a+@+", "a ", "1 ", "a,", "(a b)+", "MIN(a)+", "a?b+", "foo(", "MIN(a b,", "SIZEOF(", "1+", "a?", "a?b:", "MIN(",
    "MIN(a,", "ASSERT(/*", "ASSERT(#", 'SEGMENT_START("",', 'SEGMENT_START("t"', "SEGMENT_START(", "/*", "#", "! ", "!=",
    ". ", "(a)+", "(a",
):
    long(WILD, 1, before.encode(), 101 * b"(")
# a branch that is one level down already
for n in (99, 100):
    for mode, before, behind in (
        (WILD, "a?b:", ""), (BOOK, "a?", ":b"), (WILD, "MIN(", ",b)"), (BOOK, "MIN(a,", ")"), (WILD, "!", ""),
        (BOOK, "b*", ""), (WILD, "ALIGN(a,", ")"), (BOOK, 'ASSERT(/*c*/', ",m)"),
    ):
        long(mode, 1, (before + n * "(").encode(), ("x" + n * ")" + behind).encode())

# ---- long scripts

for head, tail in (
    ("a+", "aa"), ("a&&", "a"), ("a?b:", "c"), ("(", ""), ("-", ""), ("-a+", "a"), ("(a)*", "a"), ("a<", "aa"),
    ("a == ", "a"), ("a&b==", "c"), ("1K+2*", "3"),
):
    times = (65536 - len(tail)) // len(head)
    for mode in BOTH:
        long(mode, times, head.encode(), tail.encode())
for head, tail in (
    ("a+", ""), ("!", "a"), ("~", ""), (" ", ""), ("a", ""), ("1", ""), ("0", ""), (".", ""), ("a ", ""), ("(a+", ""),
    ("a|", "aa"), ("a||", "a"), ("\0", ""), ("/", ""), ("a?", ""), ("ALIGN(", ""), ("MIN(a,", ""), ("a<<", "a"),
    ("a^", "bb"),
):
    long(WILD, (65536 - len(tail)) // len(head), head.encode(), tail.encode())
long(WILD, 65535, b" ", b"a")
long(BOOK, 65535, b" ", b"-")
long(WILD, 65533, b"#", b"\na")
long(WILD, 1, b"ASSERT(#", 300 * b"#" + b"\na,m)")
long(WILD, 30, b"/*c*/", b"a")
# 59 to 64 records: from 61 on a checksum stands for them
for n in (29, 30, 31):
    long(BOOK, n, b"a+", b"b")
    long(WILD, n, b"a+", b"-b")
long(WILD, 0, b"never", b"a")
long(BOOK, 0, b"", b"")
long(WILD, 7, b"", b"a-b")

# ---- texts by chance, the same in every run: most are expressions, some with a byte changed

CHANCE = random.Random(3)
ATOMS = [
    "a", "b1", ".", "..", "12", "0x1fK", "3M", "SIZEOF_HEADERS", "SIZEOF(.x)", "DEFINED( s )", "ORIGIN(R)", "LENGTH (R)",
]
PIECES = [*BINARY, *PREFIXES, "a", "b", "1", ".", "(", ")", "?", ":", ",", "MIN(", " "]


def some(items):
    return items[CHANCE.randrange(len(items))]


def text(depth):
    """An expression with some blanks."""
    kind = CHANCE.randrange(9) if depth else 0
    if kind < 3:
        return some(ATOMS)
    if kind < 6:
        gap = some(["", " "])
        return text(depth - 1) + gap + some(BINARY) + gap + text(depth - 1)
    if kind < 7:
        way = some(list(WAYS))
        return WAYS[way][0] + text(depth - 1) + WAYS[way][1]
    if kind < 8:
        return "(" + text(depth - 1) + some(["", " "]) + ")"
    return text(depth - 1) + some(["?", " ? "]) + text(depth - 1) + some([":", " : "]) + text(depth - 1)


def changed(t):
    """A byte left out, doubled or exchanged."""
    i = CHANCE.randrange(len(t))
    return t[:i] + some(["", 2 * t[i], some(list("()!=&|<>?:,+-~\"# /*;.a1"))]) + t[i + 1 :]


for _ in range(100):
    t = text(4)[:60]
    add([some(BOTH)], t, changed(t))
for _ in range(80):
    add([some(BOTH)], "".join(some(PIECES) for _ in range(2 + CHANCE.randrange(7))))
