#!/usr/bin/env python3
# Brings the repository's own definitions, lemmas, fields and constructors of specs/ and proofs/ to the spelling of today's Rattle:
# snake case for what was kebab or camel case. A lemma named after two definitions keeps the dash between them, as in length-padded.
# Names that Rattle makes from the source (goals, places, loops) and what src/ declares keep their spelling. It was run once, at the
# top of the repository, right after the kit's port.py. With --list it only prints the names and what they become.
import collections
import glob
import re
import sys

# A token of antt: a name may have letters, digits, dashes, underscores, primes and signs such as ≡.
TOKEN = re.compile(r"[^\s(){}\[\],.;:∷→λ×⌜⌝\"/\\]+")
HEAD = re.compile(r"^( *)((?:pub |abbrev |unfoldable |record |data )*)([^\s(){}:,.;=]+)( [^:=]*)? ?: ")
MADE = re.compile(r": (?:\([^)]*\) → )*(?:goal|Goals|given|rules)\b")
PLAIN = re.compile(r"[a-z][A-Za-z0-9'′]*(?:[-_][A-Za-z0-9'′]+)*$")
# Words of std after which lemmas are named.
WORDS = {"length", "take", "drop", "map", "sum", "append", "replicate", "slice_index", "slice_set"}
# Two lemmas that would have the name of a definition, and two named after a word that std now calls otherwise.
MENDED = {
    "values-at": "values-drop",
    "card-read-by": "card_read_by",
    "line-text": "written-content_of",
    "getD-laid": "slice_index-laid",
    "getD-spelled": "slice_index-spelled",
}


def snake(name):
    name = name.replace("-", "_")
    return re.sub(r"(?<=[a-z0-9])([A-Z])", lambda m: "_" + m[1].lower(), name)


def proof_files():
    return sorted(glob.glob("crates/*/specs/**/*.antt", recursive=True) + glob.glob("crates/*/proofs/**/*.antt", recursive=True))


def own_names():
    """The names that become others, each with whether it is a definition's, and the files that give it."""
    found, definitions = collections.defaultdict(set), set()
    for path in proof_files():
        answers = re.search(r"/(Answers|Invariants|Choices|Given)\.antt$", path)
        for line in open(path):
            if re.match(r"\s*(use|pub use|--|mod|pub mod|module|unfolding)\b", line) or line.startswith("--"):
                continue
            m = HEAD.match(line)
            if not m or not PLAIN.match(m[3]):
                continue
            if answers and MADE.search(line):
                continue
            if "abbrev" in m[2] or "unfoldable" in m[2]:
                definitions.add(snake(m[3]))
            if snake(m[3]) != m[3]:
                found[m[3]].add((path, m[1], m[2]))
    return found, definitions


def new_names():
    found, definitions = own_names()
    words = WORDS | definitions
    table = {}
    for name, places in found.items():
        new = snake(name)
        if all("abbrev" not in p[2] and "unfoldable" not in p[2] and (p[1] == "" or p[2] == "") for p in places):
            parts = name.split("-")
            for k in range(1, len(parts)):
                left, right = snake("-".join(parts[:k])), snake("-".join(parts[k:]))
                if left in words and right in words:
                    new = left + "-" + right
        table[name] = MENDED.get(name, new)
    return table


def respell(text, table):
    return "".join(table.get(m[0], m[0]) for m in re.finditer(r'"(?:[^"\\]|\\.)*"|' + TOKEN.pattern + r"|.|\n", text))


def main(argv):
    table = new_names()
    if "--list" in argv:
        for a in sorted(table):
            if a != table[a]:
                print(a, table[a])
        return
    for path in proof_files() + sorted(glob.glob("crates/*/src/**/*.rt", recursive=True)) + sorted(glob.glob("crates/*/must-fail/*.edit")):
        text = open(path).read()
        new = respell(text, table)
        if new != text:
            open(path, "w").write(new)


if __name__ == "__main__":
    main(sys.argv[1:])
