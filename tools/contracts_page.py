#!/usr/bin/env python3
"""Prints what docs/DESIGN-PASS.md lists of signatures, clauses and definitions: contracts_page.py OLD NEW, two checkouts beside one another."""
import json
import re
import subprocess
import sys

old, new = sys.argv[1:3]
kit = "/opt/rattle/port/contracts.py"
d = json.loads(subprocess.run(["python3", kit, old, new, "--json"], capture_output=True, text=True).stdout)

def public(key):
    crate, path, *names = key.split(" ")
    text = ""
    for side in (old, new):
        try:
            text += open("%s/crates/%s/%s" % (side, crate, path)).read()
        except OSError:
            pass
    return re.search(r"pub fn %s\b" % re.escape(names[-1]), text) is not None


signatures = {k: (a, b) for k, a, b in d["signatures changed"]}
contracts = {k: (ra, ea, rb, eb) for k, ra, ea, rb, eb in d["contracts changed"]}


def clauses(kind, items):
    return ["    %s %s{ %s }" % (kind, name + " " if name else "", text) for name, text in items]


print("## Signatures and clauses of public functions, old and new\n")
print("`-` is old, `+` is new; what stands once did not change.\n\n```")
for key in sorted(set(signatures) | set(contracts)):
    if not public(key):
        continue
    print(key)
    if key in signatures:
        print("  - %s\n  + %s" % signatures[key])
    if key in contracts:
        ra, ea, rb, eb = contracts[key]
        for sign, lines in (("-", clauses("requires", ra) + clauses("ensures", ea)), ("+", clauses("requires", rb) + clauses("ensures", eb))):
            other = clauses("requires", rb) + clauses("ensures", eb) if sign == "-" else clauses("requires", ra) + clauses("ensures", ea)
            for line in lines:
                if line not in other:
                    print("  %s %s" % (sign, line.strip()))
print("```\n\n## Functions gone\n\n```")
for line in d["functions not found again"]:
    print(line)
print("```\n\n## Definitions changed\n\n```")
for crate, name, a, b in [(x[0], x[1], *([" ".join(y) if isinstance(y, list) else y for y in x[2:4]])) for x in d["definitions"]["changed"]]:
    print("%s %s\n  - %s\n  + %s" % (crate, name, a, b))
print("```\n\n## Definitions gone\n\n```")
for crate, name in d["definitions"]["gone"]:
    print(crate, name)
print("```")
