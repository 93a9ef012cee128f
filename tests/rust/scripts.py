"""The scripts that compare.py compares and choose.py chooses from, in groups; the same seed gives the same scripts.

`fixed` has the groups without chance (the cases of ../script_cases.py and ../expr_cases.py, and short scripts exhaustively),
`by_chance` those of a given size, `large` the nested and the long ones. Each yields pairs of a title and a list of scripts.
"""
import itertools
import pathlib
import random
import re
import sys

sys.dont_write_bytecode = True
sys.path.insert(1, str(pathlib.Path(__file__).resolve().parent.parent))

import expr_cases
import script_cases

LIMIT = 65536

# ---- the stored cases


def cases():
    """The whole scripts of script_cases.py, those of book mode too, and the expressions of expr_cases.py as `x = ..`."""
    scripts = [times * head + tail for _, times, head, tail in script_cases.CASES]
    yield "stored cases", list(dict.fromkeys(scripts))
    scripts = [b"x = " + times * head + tail for _, times, head, tail in expr_cases.CASES]
    yield "stored expressions as `x = ..`", [s for s in dict.fromkeys(scripts) if len(s) <= LIMIT]


# ---- short ones: a frame, and every filling of at most so many of these pieces

SHORT = {
    "bytes": [
        ("{}", list('a=1;(){}"#/* \n.,'), 4),
        ("{}", list('a= /*#\n"'), 5),
    ],
    "expressions": [
        ("x = {}", list("a10.()-!=<&|?: */"), 4),
        ("x = {}", list("a<=>!&| "), 5),
        ("x = {}", list("0189afgxXKkMm_"), 4),
        ("x = {}", ["SIZEOF", "ALIGN", "MIN", "ABSOLUTE", "SEGMENT_START", "(", ")", "a", ",", " ", '"t"'], 4),
        ("x = ALIGN({})", list("a,1() -/"), 4),
        ("x = SIZEOF({})", list("a.9_ ()"), 4),
        ("x = ASSERT({}) y", ["a", ",", " ", "m", '"', ")", "/*c*/", "#\n"], 4),
    ],
    "commands": [
        ("x {} y", list("+-*/<>&|^=1 ;"), 4),
        ("GROUP({})", ["a", " ", "(", ")", ",", ";", "AS_NEEDED", "=", "1", '"', "#\n"], 4),
        ("OUTPUT_FORMAT({})", ["a", " ", ",", "(", ")", '"', "/*c*/"], 5),
        ("OUTPUT_FORMAT(a,{}", ["b", ",", " ", ")", "#", "/*c*/"], 4),
        ("VERSION {}", ["{", "}", " ", ";", "a", "/*", "*/", "#", "\n"], 4),
        ("ENTRY{}", ["(", ")", "a", " ", '"', ";", "/*c*/", "#"], 4),
        ("PROVIDE({})", ["a", " ", "=", "1", "(", ")", ";", ".", '"', "/*c*/", "-"], 4),
        ("ASSERT({})", ["1", "a", ",", " ", "m", '"', "(", ")", ";", "/*c*/", "#\n"], 4),
        ("MEMORY {{ {} }}", ["a :", "o", "org", "=1", ",", "l", " ", "LENGTH"], 5),
        ("PHDRS {{ a {} }}", ["PT_LOAD", "PT_", "1", "a", " ", "FLAGS", "FILEHDR", "PHDRS", "(", ")", ";"], 4),
    ],
    "sections": [
        ("SECTIONS {{ {} }}", ["a", " ", "=", "1", ";", ":", "{", "}", ".", "+=", "(", ")"], 4),
        ("SECTIONS {{ a {} {{}} }}", [":", "(", ")", "NOLOAD", "1", " ", "AT", "ALIGN", "a", "/*c*/", "-"], 4),
        ("SECTIONS {{ a : {{}} {} }}", [":", ">", "=", ",", "a", "1", " ", "{", "}", ";", "("], 4),
    ],
    "contents": [
        (
            "SECTIONS {{ a : {{{}}} }}",
            ["*", "(", ")", "a", " ", ";", "=", "1", "KEEP", "SORT", "PROVIDE", "ASSERT", "CONSTRUCTORS", ","], 4,
        ),
        ("SECTIONS {{ a : {{ *({}) }} }}", [".a", " ", "SORT", "SORT_BY_NAME", "SORT_BY_ALIGNMENT", "(", ")", "\f", "/*c*/", "*"], 4),
        ("SECTIONS {{ a : {{ KEEP{} }} }}", ["(", ")", "*", "a", " ", ";", "/*c*/"], 5),
        ("SECTIONS {{ a : {{ PROVIDE({} }} }}", ["a", " ", "=", "1", "(", ")", ";", ","], 4),
        ("SECTIONS {{ a : {{ ASSERT({} }} }}", ["a", " ", ",", "1", "(", ")", ";", "="], 4),
    ],
}


def short(title):
    """Every short script of these frames."""
    made = {}
    for frame, pieces, most in SHORT[title]:
        for n in range(most + 1):
            for filling in itertools.product(pieces, repeat=n):
                made[frame.format("".join(filling)).encode()] = None
    return list(made)


def fixed():
    yield from cases()
    for title in SHORT:
        yield f"short {title}, all", short(title)


# ---- words that a rule names, bytes that none does, and places where an inner text may stand

BYTES = list(" \t\r\n\f\v\0#/*\"(){};,:=<>+-%&|^~!?._$@\\'019aAfKkmMxXlo") + ["\x80", "\xff"]
ATTRIBUTES = [word.decode() for word in script_cases.ATTRIBUTES]
SEGMENTS = [word.decode() for word in script_cases.SEGMENTS]
SIGNS = [word.decode() for word in script_cases.COMPOUND]
SORTS = ["SORT_BY_NAME", "SORT_BY_ALIGNMENT", "SORT"]
WORDS = [
    *script_cases.KEYWORDS, *ATTRIBUTES, *SEGMENTS, *SIGNS, *SORTS, *expr_cases.NAMED, "KEEP", "CONSTRUCTORS", "FLAGS", "FILEHDR",
    "PHDRS", "PT_X", "ORIGIN", "LENGTH", "org", "len", "o", "l", "AT", "ALIGN", "ABSOLUTE", "MIN", "MAX", "SEGMENT_START",
    "SIZEOF_HEADERS", "0x", "0X", "0xg", "0x0123456789abcdef", "0x0123456789abcdef0", "18446744073709551615", "18446744073709551616",
    "00", "1K", "1m", "==", "!=", "<=", ">=", "<<", ">>", "&&", "||", "/**/", "/*/", "*/", "/*", '""', '"a"', "*(", "):", ";}", ")}",
]
PIECES = [*expr_cases.BINARY, *expr_cases.PREFIXES, "a", "b", "1", ".", "(", ")", "?", ":", ",", "MIN(", " "]
FRAMES = [
    "{}", "{}", "x = {}", "x = {};", ". += {}", "GROUP({})", "INPUT(a {} b)", "OUTPUT_ARCH({}) a", "OUTPUT_FORMAT({})", "ENTRY({})",
    "VERSION {{{}}}", "PROVIDE({})", "PROVIDE(a = {})", "ASSERT({})", "ASSERT({}, m)", "ASSERT(1, {})", "MEMORY {{ {} }}",
    "MEMORY {{ a : {} }}", "MEMORY {{ a : o = {}, l = 1 }}", "MEMORY {{ a : org = 1, len = {} }}", "PHDRS {{ {} }}",
    "PHDRS {{ a {} }}", "PHDRS {{ a PT_LOAD {}; b 1 }}", "PHDRS {{ a 1 FLAGS({}) }}", "SECTIONS {{ {} }}", "SECTIONS {{ a {} : {{}} }}",
    "SECTIONS {{ a ({}) : {{}} }}", "SECTIONS {{ a : {} {{}} }}", "SECTIONS {{ a : {{}} {} }}", "SECTIONS {{ a : {{ {} }} }}",
    "SECTIONS {{ a : {{{}}} }}", "SECTIONS {{ a : {{ *({}) }} }}", "SECTIONS {{ a : {{ KEEP({}) }} }}", "SECTIONS {{ a : {{ x = {}; }} }}",
    "SECTIONS {{ a : {{ *(SORT({})) }} }}", "SECTIONS {{ a : AT({}) {{}} }}", "SECTIONS {{ a : ALIGN({}) {{}} }}",
    "SECTIONS {{ a : {{}} = {} }}", "SECTIONS {{ x = {}; }}", "SECTIONS {{ PROVIDE({}) }}", "SECTIONS {{ a : {{ PROVIDE({}) }} }}",
    "SECTIONS {{ a : {{ ASSERT({}) }} }}", "x = MIN({})", "x = ALIGN({})", "x = SIZEOF({})", "x = SEGMENT_START({})",
    'x = SEGMENT_START("a", {})', "x = ABSOLUTE({})", "x = ASSERT({})", "x = a ? {} : b", "x = ({})",
]

# ---- scripts by chance: each method makes what the rule of its name reads


class Maker:
    """Texts by chance; `gap` stands where 000 skips blanks and comments, `blank` where it skips blanks alone."""

    def __init__(self, seed):
        self.chance = random.Random(seed)

    def some(self, items):
        return items[self.chance.randrange(len(items))]

    def often(self, of, what, other=""):
        """What, once in so many times."""
        return what if self.chance.randrange(of) == 0 else other

    def many(self, make, most):
        return "".join(make() for _ in range(self.chance.randrange(most + 1)))

    def gap(self):
        return self.some(["", "", "", "", " ", " ", "\n", "\t", "\r\n", "/*c*/", " /*c*/ ", "#c\n", " #\n\t", "/**/", "/*/", "/***/"])

    def apart(self):
        """A gap that ends a token."""
        return self.some([" ", " ", " ", " ", "\n", "\t", " /*c*/ ", " /**/", "\n#c\n", "\t#\n", " \r\n"])

    def behind(self):
        """A gap behind a token and before a bracket; once in a while one that the token takes in."""
        return self.often(12, self.gap(), self.some(["", "", "", " ", "\n", "\t", " /*c*/ ", " /**/", "\n#c\n", "\t#\n"]))

    def blank(self):
        return self.some(["", "", "", "", " ", " ", "\n", "\t", "\r", " \r\n\t"])

    def after(self):
        """A gap behind an expression, where `/` would divide."""
        return self.some(["", "", "", "", " ", "\n", "#c\n", " #\n\t", self.often(3, "/*c*/")])

    def word(self, word):
        """A keyword where 000 reads a token."""
        return self.often(15, f'"{word}"', word)

    def name(self):
        return self.some(["a", "b.o", "_c1", ".d", '"e f"', '""', "*", "g*h?.o", "-li", "/j/k", "KEEP", "SORT", "."])

    # expressions

    def number(self):
        kind = self.chance.randrange(4)
        if kind == 0:
            t = self.some(["0", "1", "7", "12", "4096", "18446744073709551615", "18014398509481984", "9", self.often(2, "012", "30")])
        elif kind == 1:
            t = str(self.chance.randrange(10 ** self.some([1, 2, 5, 12, 19, 19 + self.often(4, 1, 0)])))
        else:
            digits = self.some([1, 1, 2, 2, 4, 8, 15, 16, 16 + self.often(3, 1, 0)])
            t = self.some(["0x", "0X"]) + "".join(self.some("0123456789abcdefABCDEF") for _ in range(digits))
        return t + self.some(["", "", "", "K", "k", "M", "m"])

    def symbol(self):
        return self.some(["a", "b1", "_c", ".d", "e.f", "..", "SIZEOF", "K", "x_9.z", "GROUP"])

    def atom(self):
        kind = self.chance.randrange(6)
        if kind < 2:
            return self.number()
        if kind < 4:
            return self.symbol()
        return self.some([".", ".", "SIZEOF_HEADERS"])

    def function(self, depth):
        name = self.some([*expr_cases.NAMED, "ALIGN", "MIN", "MAX", "SEGMENT_START", "ABSOLUTE", "ASSERT", "ALIGN", "MIN", "MAX", "ASSERT"])
        head = name + self.blank() + "("
        one = lambda: self.blank() + self.expression(depth - 1) + self.blank()
        if name in expr_cases.NAMED:
            return head + self.blank() + self.symbol() + self.blank() + ")"
        if name == "ASSERT":
            return name + self.blank() + self.asserted(depth - 1) + self.gap()
        if name == "SEGMENT_START":
            head += self.blank() + self.some(['"t"', '"text-segment"', '" "']) + self.blank() + ","
        if name in ("MIN", "MAX") or (name == "ALIGN" and self.chance.randrange(2)):
            head += one() + ","
        return head + one() + ")"

    def expression(self, depth):
        kind = self.chance.randrange(12) if depth else 0
        if kind < 2:
            return self.blank() + self.atom() + self.blank()
        if kind < 6:
            return self.expression(depth - 1) + self.some(expr_cases.BINARY) + self.expression(depth - 1)
        if kind < 7:
            return self.blank() + self.some("!~-") + self.expression(depth - 1)
        if kind < 8:
            return self.blank() + "(" + self.expression(depth - 1) + ")" + self.blank()
        if kind < 11:
            return self.blank() + self.function(depth) + self.blank()
        return self.expression(depth - 1) + "?" + self.expression(depth - 1) + ":" + self.expression(depth - 1)

    def value(self):
        return self.expression(self.some([0, 0, 0, 1, 1, 2]))

    # what several places hold

    def asserted(self, depth=None):
        """What stands behind the word ASSERT."""
        value = self.value() if depth is None else self.expression(depth)
        return f"({self.gap()}{value}{self.after()},{self.gap()}{self.message()}{self.apart()})"

    def message(self):
        return self.some(["m", '"n o"', '""', '"(;,"'])

    def assertion(self, word):
        return word + self.asserted() + self.gap()

    def provide(self, word):
        name = self.some(["a", "b1", '"c d"', "."])
        t = f"{word}({self.gap()}{name}{self.apart()}={self.gap()}{self.value()}{self.after()}){self.gap()}"
        return t + self.some(["", ";", ";"])

    def assignment(self, end):
        sign = self.some([*SIGNS, *["="] * 6])
        return self.some(["x", ".", "y_1", '"z z"', '"."', "$w"]) + self.apart() + sign + self.gap() + self.value() + end

    def provided(self):
        return self.some(["PROVIDE", "PROVIDE_HIDDEN"])

    # commands

    def command(self, depth):
        kind = self.chance.randrange(15 if depth else 11)
        word, gap, apart = lambda w: self.word(w) + self.behind(), self.gap, self.apart
        if kind < 3:
            t = word("SECTIONS") + "{" + gap() + self.many(self.section_command, 3) + "}"
        elif kind == 3:
            t = self.name()
        elif kind == 4:
            t = self.provide(word(self.provided()))
        elif kind == 5:
            t = self.assertion(word("ASSERT")) + self.often(2, ";")
        elif kind == 6:
            t = word("MEMORY") + "{" + gap() + self.many(self.region, 2) + "}"
        elif kind == 7:
            t = word("PHDRS") + "{" + gap() + self.many(self.phdr, 3) + "}"
        elif kind == 8:
            t = self.some([self.entry, self.version, self.output_format])()
        elif kind < 11:
            t = self.assignment(self.after() + self.often(2, ";"))
        else:
            inner = self.many(lambda: self.command(depth - 1), 3)
            t = word(self.some(["GROUP", "INPUT", "AS_NEEDED", "OUTPUT_ARCH"])) + "(" + gap() + inner + ")"
        return t + apart()

    def entry(self):
        return self.word("ENTRY") + self.behind() + "(" + self.gap() + self.name() + self.often(2, self.apart()) + ")"

    def version(self):
        body = self.some(["a", "", "V1 { a; };", "/*}*/", "{ { } }", '"', "#\n"])
        return self.word("VERSION") + self.behind() + "{" + self.gap() + body + "}" + self.gap() + self.often(2, ";")

    def output_format(self):
        part = lambda: self.gap() + self.name() + self.often(2, self.apart())
        others = self.often(2, "," + part() + "," + part())
        return self.word("OUTPUT_FORMAT") + self.behind() + "(" + part() + others + ")"

    def region(self):
        t = self.name() + self.apart() + ":" + self.gap() + self.some(["ORIGIN", "org", "o"]) + self.gap() + "=" + self.gap()
        t += self.value() + self.after() + "," + self.gap() + self.some(["LENGTH", "len", "l"]) + self.gap() + "=" + self.gap()
        return t + self.value() + self.blank()

    def phdr(self):
        kind = self.some([*SEGMENTS, *["PT_X", '"PT_LOAD"'], *[self.value() for _ in range(6)]])
        clause = lambda: self.some(["FILEHDR", "PHDRS", "FLAGS" + self.gap() + "(" + self.value() + ")"]) + self.gap()
        return self.name() + self.apart() + kind + " " + self.after() + self.many(clause, 3) + self.often(2, ";") + self.gap()

    # sections

    def section_command(self):
        kind = self.chance.randrange(7)
        if kind < 4:
            return self.section() + self.gap()
        if kind == 4:
            return self.provide(self.word(self.provided()) + self.behind()) + self.gap()
        if kind == 5:
            return self.assertion(self.word("ASSERT") + self.behind())
        return self.assignment(self.after() + ";" + self.gap())

    def section(self):
        gap = self.gap
        attribute = lambda: "(" + gap() + self.word(self.some(ATTRIBUTES)) + self.often(2, self.apart()) + ")"
        before = lambda: self.some([self.value() + self.after(), attribute() + gap(), attribute() + gap(), "(FOO)"])
        clause = lambda: self.some(["AT", "ALIGN"]) + gap() + "(" + gap() + self.value() + self.after() + ")" + gap()
        behind = lambda: self.some([":" + gap() + "p", ">" + gap() + "R", ":" + gap() + '"q r"']) + self.apart()
        fill = lambda: "=" + gap() + self.value() + self.after()
        t = self.some([".a", "b", '"c d"', "/DISCARD/", ".e.f"]) + self.apart() + self.many(before, self.some([0, 1, 1, 2]))
        t += ":" + gap() + self.many(clause, self.some([0, 1, 2])) + "{" + gap() + self.many(self.contents, 4) + "}" + gap()
        return t + self.many(lambda: self.some([behind, behind, fill])(), self.some([0, 1, 2, 3])) + self.often(4, ",")

    # contents

    def contents(self):
        kind = self.chance.randrange(10)
        if kind < 5:
            return self.matcher() + self.often(2, ";") + self.gap()
        if kind < 7:
            return self.assignment(self.some([";", ";", ""])) + self.gap()
        if kind == 7:
            return self.provide(self.provided() + self.gap()) + self.gap()
        if kind == 8:
            return self.assertion("ASSERT" + self.gap()) + self.often(2, ";") + self.gap()
        return "CONSTRUCTORS" + self.gap()

    def matcher(self):
        file = self.some(["*", "*", "*", "a.o", '"b c"', '"*"', "*d?.o", "KEEP", "PROVIDE", "ASSERT"])
        t = file + self.often(2, self.apart()) + "(" + self.gap() + self.many(self.pattern, 3) + ")" + self.gap()
        return self.often(3, "KEEP" + self.gap() + "(" + self.often(12, " ") + t + ")" + self.gap(), t)

    def pattern(self):
        name = self.some([".a", ".b.*", "*", "COMMON", ".c$d", "(", '"e', "SORTED", "{f;"])
        if self.chance.randrange(3):
            return self.gap() + name + self.apart()
        return self.some(SORTS) + self.gap() + "(" + self.gap() + name + self.often(2, self.apart()) + ")" + self.gap()

    # the three groups

    def of_bytes(self):
        pieces = self.some([BYTES, WORDS, BYTES + WORDS, PIECES + WORDS])
        gap = self.some(["", "", " "])
        return self.some(FRAMES).format(gap.join(self.some(pieces) for _ in range(self.some(range(1, 9)))))

    def of_rules(self):
        kind = self.chance.randrange(9)
        if kind < 4:
            return self.gap() + self.many(lambda: self.command(2), 3)
        if kind < 6:
            return "SECTIONS {" + self.gap() + self.many(self.section_command, 3) + "}"
        if kind == 6:
            return "SECTIONS { a : {" + self.many(self.contents, 4) + "} }"
        if kind == 7:
            return self.some(FRAMES).format(self.command(2))
        return self.some(FRAMES).format(self.expression(self.some([1, 2, 3])))

    def damaged(self, t):
        """One to three pieces left out, doubled, exchanged or put in."""
        for _ in range(self.some([1, 1, 1, 2, 3])):
            i, kind = self.some(range(len(t) + 1)), self.some(range(8))
            if kind < 2:
                t = t[:i] + self.some(list("(){};,:=\"# /*.a1\n>+")) + t[i + 1 :]
            elif kind == 2:
                t = t[:i] + self.some(BYTES + WORDS) + t[i:]
            elif kind == 3:
                t = t[:i] + t[i + self.some(range(1, 9)) :]
            elif kind == 4:
                t = t[:i]
            elif kind == 5:
                j = self.some(range(len(t) + 1))
                t = t[: max(i, j)] + t[min(i, j) : max(i, j)][:30] + t[max(i, j) :]
            elif kind == 6:
                # a comment that does not end
                i = self.some([i, *(m.start() for m in re.finditer(r"[\s(){};,=:]", t))])
                t = t[:i] + self.some(["#", " #", "/*", " /*"]) + t[i:].replace("\n", "").replace("*/", "")
            else:
                pieces = script_cases.PIECE.findall(t) or [t]
                j, k = self.some(range(len(pieces))), self.some(range(len(pieces)))
                pieces[j], pieces[k] = pieces[k], pieces[j]
                t = "".join(pieces)
        return t


def by_chance(seed, number):
    """So many scripts, a third of each group."""
    maker, share = Maker(seed), -(-number // 3)
    made = {"bytes and words by chance": {}, "made by the rules": {}, "made by the rules, damaged": {}}
    loose, ruled, harmed = made.values()
    while len(loose) < share:
        loose[maker.of_bytes().encode("latin-1")] = None
    while len(ruled) < share or len(harmed) < share:
        t = maker.of_rules()
        if len(ruled) < share:
            ruled[t.encode("latin-1")] = None
        if len(harmed) < share:
            harmed[maker.damaged(t).encode("latin-1")] = None
    for title, scripts in made.items():
        yield title, list(scripts)


# ---- levels. What opens one: a text before and a text behind the inner one

GROUPS = {word: (word + "(", ")") for word in ("GROUP", "INPUT", "AS_NEEDED", "OUTPUT_ARCH")}
WAYS = expr_cases.WAYS
# commands that open no level of their own and hold an expression, and tries that are given up behind one or have none
HOLDERS = [
    *script_cases.LEVELLED, "MEMORY {{ a : ORIGIN = {}, LENGTH = {} }}", "SECTIONS {{ PROVIDE_HIDDEN(x = {}); }}",
    "SECTIONS {{ a (NOLOAD) {} : {{}} }}", "SECTIONS {{ a {} {} : {{}} }}", "SECTIONS {{ a : AT(1) ALIGN({}) AT({}) {{}} }}",
    "SECTIONS {{ a : {{}} > R :p ={} }}", "SECTIONS {{ a : {{ . += {} }} }}", "SECTIONS {{ a : {{ PROVIDE_HIDDEN(x = {}); *(b) }} }}",
]
TRIES = [
    "SECTIONS {{ a : {{ PROVIDE(x = {} y) }} }}", "SECTIONS {{ a : {{ PROVIDE(x {}) }} }}", "SECTIONS {{ a : {{ ASSERT({}) }} }}",
    "SECTIONS {{ a : {{ ASSERT({} m) }} }}", "SECTIONS {{ a : {{ KEEP(x = {}) }} }}", "SECTIONS {{ a : {{ x = {} @ }} }}",
    "SECTIONS {{ a : {{ KEEP(*(b) y = {} }} }}", "SECTIONS {{ a ({}) : {{}} }}", "SECTIONS {{ a (NOLOAD + {}) : {{}} }}",
]


def opened(ways, inner, closed=True):
    """The inner text with these ways round it, the first outermost."""
    return "".join(head for head, _ in ways) + inner + ("".join(tail for _, tail in reversed(ways)) if closed else "")


def nested(seed):
    """Levels 98 to 103 for every way in every command, all up to 103 for each way alone, and mixed ones by chance."""
    maker, made = Maker(seed), {}
    for word, way in GROUPS.items():
        for n in range(1, 104):
            made[opened(n * [way], "a")] = made[opened(n * [way], "", False)] = None
        for holder in HOLDERS + TRIES:
            for n in range(98, 104):
                made[opened(n * [way], holder.format("(1)", "1"))] = None
    for way in WAYS.values():
        for n in range(1, 104):
            made["x = " + opened(n * [way], "1")] = None
        for holder in HOLDERS + TRIES:
            for n in range(98, 104):
                made[holder.format(opened(n * [way], "1"), "1")] = None
    groups, ways = list(GROUPS.values()), list(WAYS.values())
    while len(made) < 16000:
        levels = maker.some([*range(98, 104), *range(99, 103), maker.some(range(1, 101))])
        outer = maker.some([0, 0, 1, maker.some(range(levels + 1)), levels - 1, levels])
        inside = opened([maker.some(ways) for _ in range(levels - outer)], maker.some(["1", "a", ".", "", "@"]), maker.some([1, 1, 1, 0]))
        other = maker.some(["1", inside, opened([maker.some(ways) for _ in range(maker.some(range(4)))], "b")])
        holder = maker.some(HOLDERS + TRIES)
        before = maker.some(["", "", "a ", "x = (1) ", "GROUP(b) "])
        t = opened([maker.some(groups) for _ in range(outer)], before + holder.format(inside, other), maker.some([1, 1, 1, 0]))
        made[maker.often(6, maker.damaged(t), t)] = None
    return [t.encode("latin-1") for t in made]


# ---- long ones

HEADS = [
    "a=1 ", "x =1;", "a +=b;", "a ", "a", " ", '""', "/**/", "#\n", "{", "(", "GROUP()", "GROUP(", "INPUT(a GROUP(b))", "VERSION{}",
    "SECTIONS{a :{*(b)}}", "MEMORY{a :o=1,l=2}", "PHDRS{a PT_LOAD FLAGS(1)}", "PROVIDE(a =1)", "ASSERT(1,a)", "OUTPUT_FORMAT(a,b,c)",
]
# what stands before, again and again, and behind
CHAINS = [
    ("x = 1", "+1", ""), ("x = a", " == b && c", ""), ("x = a", " ? b : c", ""), ("x = a", "|b&c^d", ";"), ("x = -a", "*(b)", ""),
    ("x = a", "<<MIN(b,c)", ""), ("SECTIONS { ", "x = 1; ", "}"), ("SECTIONS { ", "a : { *(b) } ", "}"), ("SECTIONS { a ", "1 ", ": {} }"),
    ("SECTIONS { a ", "(NOLOAD)", ": {} }"), ("SECTIONS { a : ", "AT(1)", "{} }"), ("SECTIONS { a : {", "*(b)", "} }"),
    ("SECTIONS { a : {", "KEEP(*(SORT(b) c))", "} }"), ("SECTIONS { a : {*(", "b ", ")} }"), ("SECTIONS { a : {", "PROVIDE(a b)", "} }"),
    ("SECTIONS { a : {", "ASSERT(a b)", "} }"), ("SECTIONS { a : {", "KEEP(*(b) ", "} }"), ("SECTIONS { a : {} ", ":p ", "}"),
    ("SECTIONS { a : {} ", "=1 ", "}"), ("SECTIONS { a : {", "CONSTRUCTORS", "} }"), ("MEMORY { ", "a : o = 1, l = 2 ", "}"),
    ("PHDRS { ", "a 1 FLAGS(2) ", "}"), ("PHDRS { a 1 ", "FLAGS(2)", "}"), ("GROUP(", "a ", ")"), ("OUTPUT_ARCH(", "x = 1;", ")"),
    ("VERSION {", "{}", "}"), ("ASSERT(1, ", "a", ")"), ('x = SEGMENT_START("', "a", '", 1)'), ("x = SIZEOF(", "a", ")"), ("x = ", "0", ""),
]
FILLERS = [" ", "\n", "/*c*/ ", "a ", "#c\n", "x = 1; "]


def filled(t, size, filler):
    """The text and then the filler, cut to the size with blanks."""
    left = size - len(t)
    return t + filler * (left // len(filler)) + " " * (left % len(filler))


def commands_alone(maker, number):
    """Commands that are read, and take nothing in of what stands behind them."""
    found = {}
    while len(found) < number:
        t = maker.command(2)
        alone, beside = (script_cases.reading(0, s.encode("latin-1"))[0] for s in (t, t + "* a"))
        if alone and beside and beside.count == alone.count + 2:
            found[t] = None
    return list(found)


def long_of(maker, pool, size):
    t = ""
    while len(t) < size - 600:
        t += maker.some(pool)
    return filled(t[:size], size, maker.some(FILLERS))


def long(seed):
    """Up to the longest script there may be, and most of just that length."""
    maker, made = Maker(seed), {}
    pool = commands_alone(maker, 600)
    for n in range(240):
        t = long_of(maker, pool, [LIMIT, LIMIT, LIMIT, LIMIT - 1, maker.some(range(2000, LIMIT))][n % 5])
        made[t] = None
        i = maker.some([len(t) - 1, len(t) - 2, maker.some(range(len(t))), maker.some(range(len(t)))])
        made[t[:i] + maker.some(list("(){};,:=\"# /*.a1\n>+")) + t[i + 1 :]] = None
    for head in HEADS:
        made[filled("", LIMIT, head)] = None
        made[filled("", LIMIT - 1, head) + "a"] = None
    for before, head, behind in CHAINS:
        size = LIMIT - len(behind)
        t = filled(before, size, head) + behind
        made[t] = made[t[:-1] + "/"] = None
    return [t.encode("latin-1") for t in made]


def too_long(seed):
    """Longer than a script may be."""
    maker = Maker(seed)
    pool = commands_alone(maker, 200)
    sizes = [LIMIT + 1, LIMIT + 1, LIMIT + 2, 70000, 2 * LIMIT, 200000]
    made = [long_of(maker, pool, size) for size in sizes] + [filled("", LIMIT + 1, head) for head in HEADS]
    return [t.encode("latin-1") for t in made]


def large(seed):
    yield "nested, levels up to 103", nested(seed)
    yield "long, up to 65,536 bytes", long(seed)
    yield "longer than 65,536 bytes", too_long(seed)
