#!/usr/bin/env python3
"""The cases of the program lextest, and what it must print.

Run it anywhere: it writes crates/lextest/stdin and crates/lextest/stdout.

The readings below are by regular expressions and searches where the Rattle code has loops: a second reading of the same
rules, and no outside oracle. A blank is a space, a tab, CR or LF; a comment goes from `#` up to its line end or from `/*`
to behind `*/`, and must end; a token is quoted, or goes up to a blank that is not CR, a bracket, `;` or `,`; a number is
`0x` or `0X` and 1 to 16 hex digits, or else 0 or decimal digits that do not begin with 0, below 2^64, and K or M may follow,
big or small; a pattern's name goes up to `)`, a blank or a form feed; a part is empty where it is not all inside. Identifiers, segment names and the words that are keywords are those of
wild's linker_script.rs (parse_identifier_or_function, parse_command, parse_phdr, parse_section_attribute); the keywords'
order in groups is this project's own.
"""
import pathlib
import re

# ---- the readings: each answers the line's end

FAIL = "fail"


def spanned(m):
    """Start, length and the place after it."""
    return f"{m.start()} {len(m[0])} {m.end()}" if m else FAIL


def blanks_end(s, p):
    return re.compile(rb"[ \t\r\n]*").match(s, p).end()


def skip_blanks(s):
    return str(blanks_end(s, 0))


def skip(s):
    p = blanks_end(s, 0)
    while True:
        if s.startswith(b"#", p):
            q = s.find(b"\n", p)
        elif s.startswith(b"/*", p):
            q = s.find(b"*/", p + 1)
        else:
            return str(p)
        if q < 0:
            return FAIL
        # the line end of a '#' comment is a blank
        p = blanks_end(s, q if s[q : q + 1] == b"\n" else q + 2)


def token(s):
    if not s.startswith(b'"'):
        return spanned(re.match(rb"[^ (){};,\n\t]+", s))
    m = re.match(rb'"([^"]*)"', s)
    return f"1 {len(m[1])} {m.end()}" if m else FAIL


def identifier(s):
    return spanned(re.match(rb"[A-Za-z_.][A-Za-z0-9_.]*", s))


def pattern_name(s):
    return spanned(re.match(rb"[^) \t\r\n\f]+", s))


def segment_name(s):
    return spanned(re.match(rb'[^"]+', s))


def number(s):
    hexadecimal = re.match(rb"0[xX]([0-9A-Fa-f]+)", s)
    if hexadecimal and len(hexadecimal[1]) <= 16:
        value, place = int(hexadecimal[1], 16), hexadecimal.end()
    else:
        decimal = re.match(rb"0|[1-9][0-9]*", s)
        if not decimal or int(decimal[0]) > 2**64 - 1:
            return FAIL
        value, place = int(decimal[0]), decimal.end()
    suffix = s[place : place + 1]
    if suffix and suffix in b"KkMm":
        factor = 1024 if suffix in b"Kk" else 1024 * 1024
        return f"{value * factor % 2**64} {place + 1}"
    return f"{value} {place}"


def word(s):
    w, text = s.split(b"|", 1)
    return str(len(w)) if text.startswith(w) else FAIL


def part(s):
    head, text = s.split(b"|", 1)
    start, length = map(int, head.split(b" "))
    inside = start + length <= len(text)
    return b"[" + (text[start : start + length] if inside else b"") + b"]"


KEYWORDS = """
    GROUP INPUT OUTPUT_FORMAT OUTPUT_ARCH AS_NEEDED SECTIONS ENTRY VERSION PROVIDE PROVIDE_HIDDEN ASSERT MEMORY PHDRS
    PT_NULL PT_LOAD PT_DYNAMIC PT_INTERP PT_NOTE PT_SHLIB PT_PHDR PT_TLS
    PT_GNU_EH_FRAME PT_GNU_STACK PT_GNU_RELRO PT_GNU_PROPERTY PT_GNU_SFRAME
    SIZEOF ALIGNOF ADDR ORIGIN LENGTH LOADADDR ALIGN MIN MAX SEGMENT_START DEFINED ABSOLUTE SIZEOF_HEADERS
    NOLOAD READONLY DSECT COPY INFO OVERLAY
    . *
""".encode().split()


def keyword(s):
    return str(1 + KEYWORDS.index(s) if s in KEYWORDS else 0)


READINGS = {
    b"b": skip_blanks,
    b"s": skip,
    b"t": token,
    b"i": identifier,
    b"p": pattern_name,
    b"g": segment_name,
    b"n": number,
    b"w": word,
    b"r": part,
    b"k": keyword,
}

# ---- the cases

CASES = []


def add(op, *texts):
    for t in texts:
        assert (op, t) not in CASES, (op, t)
        CASES.append((op, t))


def limits(op, before, *values):
    """The bytes at the limits of a class, each after some bytes."""
    add(op, *[before + bytes([v]) for v in values])


MAX = 2**64 - 1

# blanks: none, each, all, and their neighbours; a vertical tab and a form feed are none
add(b"b", b"", b"a", b" a", b"\t\r\n a", b"    ", b"\n\n\r\t x ", b"  #", b" /* */", b"\xc2\xa0")
limits(b"b", b"", 0x00, 0x08, 0x09, 0x0A, 0x0B, 0x0C, 0x0D, 0x0E, 0x1F, 0x20, 0x21, 0x85, 0xA0)

# skipping: no comment
add(b"s", b"", b"abc", b" \t\r\n", b" \x0b", b" \x0c", b"/", b"/x", b"/ *x*/", b"//x\n", b"*/", b"\x00")
# '#' needs its LF; what stands in it opens nothing
add(b"s", b"#x\n", b"#\n", b"#", b"#x", b" #x", b" #", b"#x\r", b"#x\r\n y", b"##\n", b"#a\n#b\n", b"#a\n#b", b"#a\n#")
add(b"s", b"#a\n b", b"#/*\n*/", b"#\x00\xff\n", b"a#x", b"#\"\n\"")
# blocks: the shortest, with and without an end, what looks nested
add(b"s", b"/*x*/", b"/*/", b"/**/", b"/***/", b"/****/x", b"/*/*/", b"/*/**/", b"/*/ x */", b"/*/ ", b"/*/a")
add(b"s", b"/*", b"/**", b"/* ", b"/*x*", b"/*x/", b"/*x* /", b"/* /* */ */", b"/* /* */", b"/*x*/*/", b"/**/*")
add(b"s", b"/*#*/", b"/*#\n*/x", b"/*\"*/\"", b"/*\x00\xff*/", b" \n/*\n*/\n ")
# one after another
add(
    b"s",
    b"/*a*//*b*/", b"/*a*/ /*b*/ c", b"/*a*/#b\n", b"#a\n/*b*/c", b"/*a*/ /*b", b"/*a*/#b", b"/*/#", b"/*//**//*/x",
)

# tokens: plain, and the byte that ends them
add(b"t", b"", b"abc", b"a", b"a=1", b"ab cd", b" a", b"*crt?.o", b"#ab", b"/*x*/", b"x/*y*/", b"012", b"a'b'")
limits(b"t", b"ab", *b" (){};,\n\t")
limits(b"t", b"", *b" (){};,\n\t")
add(b"t", b"a\rb", b"a\r\nb", b"\r", b"a\x00b", b"\x00", b"a\x0bb", b"a\x0cb", b"\xc3\xa9t\xc3\xa9 x", b"\xff\xfe\x80")
limits(b"t", b"", 0x08, 0x0B, 0x0C, 0x1F, 0x21, 0x27, 0x2A, 0x2B, 0x2D, 0x3A, 0x3C, 0x7A, 0x7C, 0x7E, 0x7F)
# quoted: any byte but a quote, the first quote closes, and one must
add(
    b"t",
    b'""', b'"abc"', b'"a b"', b'"a"b', b'"""', b'"a""b"', b'"', b'"abc', b'"a\n', b' "a"',
    b'"a (){};,\n\t\r\x00\xffb" c',
)
add(b"t", b'"a\\"b"', b'"/*"', b'"#"\n', b'a"b c"', b'a"', b"'a b'", b'"GROUP"(')

# identifiers: how one begins, and what goes on
add(
    b"i",
    b"", b"abc", b"_a", b".a", b"..", b"._.9", b"a1", b"1a", b"-a", b" a", b'"a"', b"\xc3\xa9", b"A.B_C9(x)",
    b"a\xc3\xa9",
)
add(b"i", b"a b", b"a=1", b"a;", b"0x1", b"a\x00", b"\x00a", b"a\n")
limits(b"i", b"", *b"-./09:@AZ[^_`az{", 0x7F, 0x80, 0xFF)
limits(b"i", b"a", *b"-./09:@AZ[^_`az{", 0x7F, 0x80, 0xFF)

# pattern names
add(b"p", b"", b".text", b".text)", b".text .data", b".a(b)", b".a;,{}", b'"a b"', b"*", b"#a/*", b" a", b"a\x00\xff)")
limits(
    b"p", b".a",
    0x00, 0x08, 0x09, 0x0A, 0x0B, 0x0C, 0x0D, 0x0E, 0x1F, 0x20, 0x21, 0x28, 0x29, 0x2A, 0x85, 0xA0, 0xFF,
)
limits(b"p", b"", 0x09, 0x0A, 0x0B, 0x0C, 0x0D, 0x20, 0x29)

# segment names
add(b"g", b"", b"text", b'text-segment", 1', b'"a"', b'a b\n)"', b'\x00\xff"', b"a\\\"b")
limits(b"g", b"a", 0x21, 0x22, 0x23)
limits(b"g", b"", 0x21, 0x22, 0x23)

# decimals: a lone 0, the largest, one more, and where the digits end
add(b"n", b"", b"0", b"00", b"012", b"007K", b"1", b"10", b"1234567890", b"1a", b"1_000", b"1.5", b"1 K", b"0b1", b"0a")
add(b"n", b"-1", b"+1", b" 1", b"K", b"x1", b"a", b".", b"\xb2", b"1\x00", b"9\n")
add(
    b"n",
    b"%d" % MAX, b"%d" % (MAX + 1), b"%d;" % (MAX - 1), b"1" + 19 * b"0", 20 * b"9", b"1" + 20 * b"0", 30 * b"1",
    30 * b"9", b"0" + 30 * b"9",
)
limits(b"n", b"1", *b"/9:")
limits(b"n", b"", *b"/9:")
# hex: 1 to 16 digits, and otherwise just the 0
add(
    b"n",
    b"0x", b"0X", b"0xK", b"0XM", b"0x 1", b"0x1", b"0X1f", b"0x1F)", b"0xabcdef", b"0XABCDEF", b"0x1x", b"00x1",
    b"1x1",
)
add(
    b"n",
    b"0x" + 16 * b"f", b"0X" + 16 * b"F", b"0x" + 17 * b"f", b"0x1" + 16 * b"0", b"0x" + 15 * b"0" + b"1",
    b"0x" + 16 * b"0" + b"1", b"0x" + 40 * b"0",
)
add(b"n", b"0x" + 16 * b"1" + b"g", b"0x123456789abcdef", b"0xfedcba9876543210;")
limits(b"n", b"0x", *b"/09:@AFG`afg")
limits(b"n", b"0x1", *b"/09:@AFG`afg")
# suffixes: each, on each; one only; the product is kept modulo 2^64
for base in (b"0", b"1", b"3", b"0x10", b"0Xf"):
    limits(b"n", base, *b"KkMm")
add(
    b"n",
    b"1KK", b"1KM", b"1mk", b"1kB", b"1G", b"1K1", b"1L", b"1N", b"1J", b"1l", b"1n", b"1j", b"00K", b"012M",
    b"0xKK", b"0x" + 17 * b"f" + b"K",
)
add(b"n", b"0xffffffffffffffffK", b"0xffffffffffffffffM", b"%dk" % MAX, b"%dm" % MAX, b"%dK" % (MAX + 1))
add(
    b"n",
    b"%dK" % (2**54 - 1), b"%dK" % 2**54, b"%dK" % (2**54 + 1), b"%dM" % (2**44 - 1), b"%dM" % 2**44,
    b"%dM" % (2**44 + 1),
)
add(b"n", b"0x8000000000000001M", b"0x123456789abcdef0K", b"12345678901234567890M")

# words: the bytes before the first '|' at the beginning of those after it
add(
    b"w",
    b"AT|AT", b"AT|ATx", b"AT|AT(", b"AT|A", b"AT|", b"AT|at", b"AT| AT", b'AT|"AT"', b"AT|ABT", b"ALIGN|ALIGNOF",
    b"ALIGNOF|ALIGN",
)
add(
    b"w",
    b"|", b"|abc", b"a|a|", b"a||a", b"<<=|<<=", b"<<|<", b"\"|\"x", b"\x00|\x00a", b"\x00|", b"\n|\n",
    b"\xc3\xa9|\xc3\xa8", b"\xc3\xa9|\xc3\xa9",
)
add(b"w", b"PROVIDE_HIDDEN|PROVIDE_HIDDEN(", b"PROVIDE_HIDDEN|PROVIDE_HIDDE", b"aab|aaab", b"PT_|PT_LOAD")

# parts: inside, at the end, none, past the end, and sums that pass 2^64
add(
    b"r",
    b"0 4|abcd", b"1 2|abcd", b"0 1|abcd", b"3 1|abcd", b"2 2|abcd", b"0 3|a|bc", b"01 002|abcd",
    b"1 3|\x00\xff\t\r ",
)
add(
    b"r",
    b"0 0|abcd", b"2 0|abcd", b"4 0|abcd", b"4 1|abcd", b"3 2|abcd", b"0 5|abcd", b"5 0|abcd", b"5 1|abcd", b"0 0|",
    b"0 1|", b"1 0|",
)
add(
    b"r",
    *[
        b"%d %d|abcd" % x
        for x in (
            (MAX, 0), (0, MAX), (MAX, 1), (1, MAX), (MAX, 2), (2, MAX), (MAX, MAX),
            (2**63, 2**63), (2**32, 1), (1, 2**32),
        )
    ],
)

# keywords: each; then shorter, longer and quoted words, words of wild's module that are matched as leading bytes, and none
add(b"k", *KEYWORDS)
add(
    b"k",
    b"", b" ", b"GROU", b"GROUPS", b"group", b"GROUP ", b" GROUP", b'"GROUP"', b"GROUP INPUT", b"INPUT OUTPUT",
    b"NPUT", b"G", b"R",
)
add(
    b"k",
    b"PROVIDE_", b"PROVIDE_HIDDE", b"SIZEOF_", b"PT_", b"PT_GNU", b"PT_GNU_", b"PT_LOADX", b"..", b". *", b"* ",
    b"**", b"ASSERT(", b"GROUP\x00",
)
add(b"k", b"AT", b"KEEP", b"SORT", b"FLAGS", b"FILEHDR", b"CONSTRUCTORS", b"l", b"o")


def main():
    crate = pathlib.Path(__file__).resolve().parent.parent / "crates" / "lextest"
    given, wanted = b"", b""
    for n, (op, text) in enumerate(CASES, 1):
        answer = READINGS[op](text)
        given += b"%s %d\n%s\n" % (op, len(text), text)
        wanted += b"%d %s %s\n" % (n, op, answer if isinstance(answer, bytes) else answer.encode())
    assert len(given) <= 65536, "the program reads no more"
    (crate / "stdin").write_bytes(given)
    (crate / "stdout").write_bytes(wanted)
    print(len(CASES), "cases,", len(given), "bytes")


if __name__ == "__main__":
    main()
