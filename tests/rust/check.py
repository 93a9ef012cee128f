"""From a listing of the proved reader to the line that wildtree prints for the same script, by docs/RECORDS.md.

The records are in postfix order, so one stack of texts does it. Each text has a sort, so that a record can stand only where
its kind may; words that a kind does not use must be 0.
"""
import collections

BINARY = (
    "add subtract multiply divide modulo less-than greater-than less-equal greater-equal equal not-equal min max bitwise-and "
    "bitwise-or bitwise-xor left-shift right-shift logical-and logical-or"
).split()
UNARY = ["logical-not", "bitwise-not", "negate", "absolute"]
NAMED = "sizeof alignof origin length addr loadaddr defined".split()
ATTRIBUTES = "none noload readonly dsect copy info overlay".split()
FLAG = ["false", "true"]
# words used by each kind: the others are 0
USED = collections.defaultdict(str)
USED |= {1: "a", 2: "ab", 29: "a", 37: "ab", 39: "abc", 50: "abc"} | {kind: "ab" for kind in range(30, 37)}
USED |= {kind: "ab" for kind in (40, 45, 46, 47, 52, 56, 59, 60)} | {kind: "a" for kind in (41, 42, 44, 51, 53)}
USED |= {49: "abc", 54: "abcd", 55: "abc", 62: "abcd", 63: "abc", 64: "abc", 65: "abcd"}

# sorts: expression; command of the top, of all three places, section, contents; the parts of commands
EXPR, TOP, ALL, SECTION, CONTENTS, FORMAT, REGION, PHDR, FLAGS, BEFORE, BEHIND, PATTERN, PARTS = range(13)


class Malformed(Exception):
    pass


class Tape:
    def __init__(self, script):
        self.script, self.stack = script, []

    def pop(self, n, *sorts):
        """The last n texts, all of these sorts."""
        if n > len(self.stack):
            raise Malformed("too few records before this one")
        found = self.stack[len(self.stack) - n :]
        del self.stack[len(self.stack) - n :]
        if any(sort not in sorts for sort, _ in found):
            raise Malformed("a record of a kind that cannot stand here")
        return [text for _, text in found]

    def push(self, sort, *words):
        self.stack.append((sort, "(" + " ".join(words) + ")"))

    def name(self, start, length):
        if start + length > len(self.script):
            raise Malformed("a name outside the script")
        return f"({start} {length})"

    def flag(self, word, most=1):
        if word > most:
            raise Malformed("a flag out of range")
        return word

    def assertion(self, sort, a, b, c):
        self.push(sort, "assert", *self.pop(1, EXPR), self.name(a, b), self.name(c, len(self.script) - c))
        if self.script[c : c + 1] != b"(":
            raise Malformed("no bracket of ASSERT")

    def record(self, kind, a, b, c, d):
        for word, used in zip((a, b, c, d), "abcd"):
            if word and used not in USED[kind]:
                raise Malformed(f"kind {kind} has a word {used}")
        if kind == 1:
            self.push(EXPR, "number", str(a))
        elif kind == 2:
            self.push(EXPR, "symbol", self.name(a, b))
        elif kind == 3:
            self.push(EXPR, "location-counter")
        elif 4 <= kind <= 23:
            self.push(EXPR, BINARY[kind - 4], *self.pop(2, EXPR))
        elif 24 <= kind <= 27:
            self.push(EXPR, UNARY[kind - 24], *self.pop(1, EXPR))
        elif kind == 28:
            self.push(EXPR, "ternary", *self.pop(3, EXPR))
        elif kind == 29 and a == 1:
            self.push(EXPR, "align", *self.pop(1, EXPR), "none")
        elif kind == 29 and a == 2:
            # ALIGN(a, b) is Align(b, Some(a))
            first, second = self.pop(2, EXPR)
            self.push(EXPR, "align", second, first)
        elif 30 <= kind <= 36:
            self.push(EXPR, NAMED[kind - 30], self.name(a, b))
        elif kind == 37:
            self.push(EXPR, "segment-start", self.name(a, b), *self.pop(1, EXPR))
        elif kind == 38:
            self.push(EXPR, "sizeof-headers")
        elif kind == 39:
            self.assertion(EXPR, a, b, c)
        elif kind == 40:
            self.push(TOP, "arg", self.name(a, b))
        elif kind in (41, 42):
            self.push(TOP, ["group", "as-needed"][kind - 41], *self.pop(a, TOP, ALL))
        elif kind == 43:
            self.push(TOP, "ignored")
        elif kind == 44:
            self.push(TOP, "sections", *self.pop(a, SECTION, ALL))
        elif kind in (45, 46):
            self.push(TOP, ["entry", "version"][kind - 45], self.name(a, b))
        elif kind == 47:
            self.push(ALL, "assign", self.name(a, b), *self.pop(1, EXPR))
        elif kind == 48:
            self.push(ALL, "set-location", *self.pop(1, EXPR))
        elif kind == 49:
            self.push(ALL, "provide", self.name(a, b), *self.pop(1, EXPR), FLAG[self.flag(c)])
        elif kind == 50:
            self.assertion(ALL, a, b, c)
        elif kind == 51:
            self.push(TOP, "memory", *self.pop(a, REGION))
        elif kind == 52:
            self.push(REGION, "region", self.name(a, b), *self.pop(2, EXPR))
        elif kind == 53:
            self.push(TOP, "phdrs", *self.pop(a, PHDR))
        elif kind == 54:
            flags = self.pop(d, FLAGS)
            hdr = self.flag(c, 3)
            # of flag clauses the last counts
            last = flags[-1] if flags else "none"
            self.push(PHDR, "phdr", self.name(a, b), *self.pop(1, EXPR), last, FLAG[hdr & 1], FLAG[hdr >> 1])
        elif kind == 55 and c in (0, 2):
            others = self.pop(c, FORMAT) or ["none", "none"]
            self.push(TOP, "output-format", self.name(a, b), *others)
        elif kind == 56:
            self.stack.append((FORMAT, self.name(a, b)))
        elif kind in (57, 58):
            self.stack.append((BEFORE, (kind, *self.pop(1, EXPR))))
        elif kind in (59, 60):
            self.stack.append((BEHIND, (kind, self.name(a, b))))
        elif kind == 61:
            self.stack.append((BEHIND, (kind, *self.pop(1, EXPR))))
        elif kind == 62:
            self.stack.append((PARTS, (self.flag(a), self.flag(b, 6), c, d)))
        elif kind == 63:
            [(start, attribute, before, behind)] = self.pop(1, PARTS)
            # of clauses the last of its kind counts, and all of `:`
            tail = self.pop(behind, BEHIND)
            contents = self.pop(c, CONTENTS, ALL)
            last = {57: "none", 58: "none", 60: "none", 61: "none"} | dict(self.pop(before, BEFORE)) | dict(tail)
            [start] = self.pop(start, EXPR) or ["none"]
            phdrs = "(" + " ".join(["phdrs", *[text for kind, text in tail if kind == 59]]) + ")"
            contents = "(" + " ".join(["contents", *contents]) + ")"
            self.push(
                SECTION, "section", self.name(a, b), contents, last[57], start, phdrs, last[58], last[60], last[61],
                ATTRIBUTES[attribute],
            )
        elif kind == 64:
            self.push(PATTERN, "pattern", self.name(a, b), FLAG[self.flag(c)])
        elif kind == 65:
            keep = self.flag(c, 3)
            if keep & 2 and (a or b):
                raise Malformed("a name beside the file `*`")
            self.push(
                CONTENTS, "matcher", FLAG[keep & 1], "none" if keep & 2 else self.name(a, b), *self.pop(d, PATTERN),
            )
        elif kind == 66:
            self.push(CONTENTS, "constructors")
        elif kind == 67:
            self.stack.append((FLAGS, *self.pop(1, EXPR)))
        else:
            raise Malformed(f"no record {kind} {a} {b} {c} {d}")


def tree(script, listing):
    """The line for a listing: `refused NUMBER`, or the tree."""
    first, *lines = listing.split("\n")
    words = first.split(" ")
    try:
        if words[0] == "refused":
            _, number, place = words
            if number not in "45" or int(place) > len(script) or lines:
                raise Malformed("no refusal of this script")
            return "refused " + number
        ok, records, commands = words
        if ok != "ok" or int(records) != len(lines):
            raise Malformed("a wrong number of records")
        tape = Tape(script)
        for line in lines:
            tape.record(*map(int, line.split(" ")))
        texts = tape.pop(int(commands), TOP, ALL)
        if tape.stack:
            raise Malformed("records left over")
        return "(" + " ".join(["script", *texts]) + ")"
    except (Malformed, ValueError) as error:
        return f"malformed: {error}"


def verdict(script, listing, wild):
    """What the two say: a word for the count, and the tree of the listing."""
    ours = tree(script, listing)
    if ours == "refused 5":
        return ("too deep, refused by wild" if wild == "refused" else "too deep, read by wild"), ours
    if ours == "refused 4" and wild == "refused":
        return "refused by both", ours
    return ("read alike" if ours == wild else "DIFFERENT"), ours
