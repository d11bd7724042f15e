"""Prints the facts that stand in the contracts of three or more functions, and where.

Usage: python3 tools/repeated_clauses.py [FOLDER], FOLDER a checkout (default: the current folder).
A clause is cut at its products, and the name of a reference (`x.old`, `row.new`, `self.now`) does not count.
"""
import collections
import glob
import re
import sys

ROOT = sys.argv[1] if len(sys.argv) > 1 else "."
FUNCTION = re.compile(r"\bfn ([a-z_0-9]+)(.*?)\n\s*\{(?:\n|\})", re.S)
CLAUSE = re.compile(r"(requires|ensures)(?: [a-z_0-9]+)? \{(.*?)\}(?=\s*(?:\n|$))", re.S)
REFERENCE = re.compile(r"\b[a-z_]+\.(old|new|now|entry)\b")


def facts(contract):
    for kind, body in CLAUSE.findall(contract):
        for part in " ".join(body.split()).split(" × "):
            yield kind, REFERENCE.sub(r"_.\1", part.strip(" ()"))


def main():
    places = collections.defaultdict(list)
    for path in sorted(glob.glob(f"{ROOT}/crates/*/src/**/*.rt", recursive=True)):
        text = open(path, encoding="utf-8").read()
        crate = path.split("/crates/")[1].split("/")[0]
        for name, contract in FUNCTION.findall(text):
            for fact in facts(contract):
                places[fact].append(f"{crate}:{name}")
    for (kind, fact), where in sorted(places.items(), key=lambda item: (-len(item[1]), item[0])):
        if len(where) >= 3:
            print(f"{len(where):3} {kind} {fact}")
            print(f"      {' '.join(where)}")


main()
