#!/usr/bin/env python3
"""Scripts to measure with: shapes.py SHAPE LENGTH writes one of at most LENGTH bytes."""
import sys

ORDINARY = """SECTIONS
{
  . = 0x10000 + SIZEOF_HEADERS;
  .text@ : ALIGN(16)
  {
    KEEP(*(.init@))
    *(.text .text.* .gnu.linkonce.t.*)
    . = ALIGN(4096); /* the page's end */
    PROVIDE_HIDDEN(__end@ = .);
  } > FLASH
  .data@ : AT(LOADADDR(.text@) + SIZEOF(.text@))
  {
    *(.data .data.*)
    edata@ = . + (4 * 1024 - 1) & ~(4 * 1024 - 1);
  } > RAM
  ASSERT(edata@ < 0x20000000, "no room")
}
"""


def filled(head, piece, tail=""):
    """Of a length: head, as many pieces as fit (`@` is the piece's number, one digit), tail."""

    def of(length):
        parts, room = [], length - len(head) - len(tail)
        while len(piece) <= room:
            parts.append(piece.replace("@", str(len(parts) % 10)))
            room -= len(piece)
        return (head + "".join(parts) + tail).encode()

    return of


def halves(head, item, middle, piece, tail):
    """Of a length: head and items up to half of it, then middle, pieces and tail."""

    def of(length):
        items = filled(head, item)(length // 2)
        return items + filled(middle, piece, tail)(length - len(items))

    return of


def far(piece, head="SECTIONS{a :{", item="PROVIDE(a =/* )", middle="*/1"):
    """Items that are tried as PROVIDE over a comment which ends half way on, where an expression follows that is not closed."""
    return halves(head, item, middle, piece, " (a)}}")


CONTENTS = "SECTIONS{a :{"
SHAPES = {
    "ordinary sections": filled("", ORDINARY),
    "arguments": filled("", "a.o "),
    "arguments in capitals": filled("", "LIB "),
    "one long token": filled("", "a"),
    "blanks": filled("", " "),
    "one comment": filled("/*", "x", "*/a"),
    "line comments": filled("", "#\n"),
    "a chain of +": filled("x = 1", "+ 1", ";"),
    "a chain of ||": filled("x = a", "||a", ";"),
    "a chain of dots": filled("x = .", "*.", ";"),
    "100 brackets": filled("x = 1", "+" + "(" * 100 + "1" + ")" * 100, ";"),
    "100 prefixes": filled("x = 1", "+" + "~" * 100 + "1", ";"),
    "100 ternaries": filled("", "x = " + "a?1:" * 100 + "1;"),
    "100 groups": filled("", "GROUP(" * 100 + ")" * 100),
    "assignments": filled("", "x = 1;"),
    "empty sections": filled("SECTIONS{", ".a :{}", "}"),
    "start expressions": filled("SECTIONS{.a", " a", " :{}}"),
    "clauses": filled("SECTIONS{.a :{}", ">a ", "}"),
    "patterns": filled(CONTENTS + "*(", "a ", ")}}"),
    "matchers": filled(CONTENTS, "a(b)", "}}"),
    "KEEP given up": filled(CONTENTS, "KEEP(*(.a) ", "}}"),
    "PROVIDE given up": filled(CONTENTS, "PROVIDE(a = 1 x)", "}}"),
    "ASSERT given up": filled(CONTENTS, "ASSERT(1 + 1)", "}}"),
    "regions": filled("MEMORY{", "a :o=1,l=1 ", "}"),
    "segments": filled("PHDRS{", "a 1;", "}"),
    "flag clauses": filled("PHDRS{a 1 ", "FLAGS(1)", ";}"),
    "VERSION": filled("VERSION{", "a", "}"),
    "CONSTRUCTORS in one token": filled(CONTENTS, "CONSTRUCTORS", "}}"),
    "the same before a value": halves(CONTENTS, "CONSTRUCTORS", " = 1", "+1", "+}}"),
    "a comment that does not end": filled(CONTENTS, "PROVIDE(a =/* )", "}}"),
    "a line that does not end": filled(CONTENTS, "PROVIDE(a =#x )", "}}"),
    "a comment that ends far on": far("+1"),
    "the same before brackets": far("+" + "(" * 90 + "1" + ")" * 90),
    "the same in a section each": far("+1", "SECTIONS{", "a :{PROVIDE(a =/* )}", "a :{*/1"),
    "the same inside ASSERT": far("+1", CONTENTS, "PROVIDE(a =ASSERT(1,/* )", '*/"m")'),
    "the same in brackets": far("+1", CONTENTS, "PROVIDE(a =(MIN((ASSERT(1,/* )", '*/"m")'),
    "the same with KEEP": far(" SORT(b) b", CONTENTS, "KEEP/*(a)", "*/(a(b"),
    "the same with CONSTRUCTORS": halves(CONTENTS, "CONSTRUCTORS +=/*(a)", "*/1", "+1", "+}}"),
    "a comment before a long token": far("a", CONTENTS, "PROVIDE(a =ASSERT(/* )", "*/1,"),
}

if __name__ == "__main__":
    sys.stdout.buffer.write(SHAPES[sys.argv[1]](int(sys.argv[2])))
