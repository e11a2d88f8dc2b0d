#!/usr/bin/env python3
"""Brings this repository's own names of definitions and lemmas to today's spelling, after port.py has run.

usage: python3 tools/respell.py            at the top of the repository, once

Words are in snake case: camel case and dashes become underscores. A lemma keeps its dashes where the name would fall together
with another one. An accessor that would take the name of the field that it reads ends in _of. Names of src/ stay, and so do the
variables and parameters of the published model, which stand under the source's own names.
"""
import collections
import glob
import os
import re
import sys

NAME = r"[A-Za-z_][A-Za-z0-9_'₀-₉ℕℤ-]*"
TOKEN = re.compile(NAME)
WORDS = r"(?:(?:abbrev|unfoldable|pub|data|record|axiom)\s+)"
DECLARED = re.compile(r"^\s*" + WORDS + r"*(" + NAME + r"(?:\s+" + NAME + r")*)\s*(?:\{[^}]*\}\s*)*:\s")
OPENED = re.compile(r"^\s*" + WORDS + r"+(" + NAME + r")")
# A lemma of a library that stands among the declarations.
KEPT = {"some-injective"}
# Variables of the published model, and what its operators name by LET or as a parameter.
SOURCE = {"followerHw", "leaderAndIsrRequests", "leaderEpoch", "leaderHw", "newControllerState", "quorumState", "replicaLog", "replicaState"}
# Fields of the published model that have the name of an accessor of the engine.
FIELDS = {"nextLeaderEpoch": "nextLeaderEpoch", "nextRecordId": "nextRecordId", "replicaCount": "replica_count"}
MODEL = "crates/published/specs/KafkaReplication.antt"
# An accessor that would have the name of the field that it reads.
ACCESSORS = {
    "replicaCount": "replica_count_of",
    "logSize": "log_size_of",
    "maxRecords": "max_records_of",
    "maxLeaderEpoch": "max_leader_epoch_of",
    "nextLeaderEpoch": "next_leader_epoch_of",
    "nextRecordId": "next_record_id_of",
}


def snake(name):
    return re.sub(r"(?<=[a-z0-9])([A-Z])", lambda m: "_" + m.group(1).lower(), name.replace("-", "_"))


def is_camel(name):
    return name[0].islower() and re.search(r"[a-z0-9][A-Z]", name) is not None


def read(path):
    with open(path, encoding="utf-8") as f:
        return f.read()


def declared():
    found = set()
    for path in glob.glob("crates/*/specs/**/*.antt", recursive=True) + glob.glob("crates/*/proofs/*.antt"):
        for line in read(path).splitlines():
            if line.lstrip().startswith("--"):
                continue
            m = DECLARED.match(line)
            if m:
                found |= set(m.group(1).split())
                continue
            m = OPENED.match(line)
            if m:
                found.add(m.group(1))
    return found


def spelling(names):
    """What each of our names is called from here on."""
    to = {}
    to["isIn"] = "is_in"
    to["quorumBefore"] = "quorum_before"
    definitions = [n for n in names if is_camel(n) and n not in SOURCE]
    lemmas = sorted(n for n in names if "-" in n and not is_camel(n) and n not in KEPT)
    for n in definitions:
        to[n] = ACCESSORS.get(n, snake(n))
    taken = collections.Counter(to.values())
    # A lemma that port.py had turned gives the name back to the definition.
    for n in definitions:
        if to[n] in names:
            to[to[n]] = to[n].replace("_", "-")
    kept = set(names) | set(to.values())
    for n in lemmas:
        if snake(n) not in kept:
            to[n] = snake(n)
    return to


def turn(text, to, dotted, model):
    """The text with each name that stands alone; behind a dot only where dotted says so."""
    def one(m):
        word = m.group(0)
        if word not in to:
            return word
        behind = m.start() > 0 and text[m.start() - 1] == "."
        if word in FIELDS and (behind or model or re.match(r"\s*=[^=]", text[m.end():])):
            return FIELDS[word]
        if not dotted and behind:
            return word
        return to[word]

    return TOKEN.sub(one, text)


def turn_page(text, to, names):
    def quoted(m):
        def one(w):
            word = w.group(0)
            if word in to:
                return to[word]
            if (is_camel(word) or "-" in word) and snake(word) in names:
                return to.get(snake(word), snake(word))
            return word

        return TOKEN.sub(one, m.group(0))

    return re.sub(r"`[^`\n]+`", quoted, text)


def main():
    if not os.path.isdir("crates"):
        raise SystemExit("run it at the top of the repository")
    names = declared()
    to = spelling(names)
    changed = 0
    for path in sorted(glob.glob("crates/**/*", recursive=True) + ["README.md", "CONTRIBUTING.md"] + glob.glob("docs/*.md") + glob.glob("interface/*.md") + glob.glob("cases/*.md")):
        if not os.path.isfile(path) or "/out/" in path:
            continue
        if path.endswith((".antt", ".rt", ".edit")):
            old = read(path)
            walk = re.search(r"/proofs/.+/", path) is not None
            new = turn(old, to, not walk, path == MODEL)
        elif path.endswith(".md"):
            old = read(path)
            new = turn_page(old, to, names)
        else:
            continue
        if new != old:
            with open(path, "w", encoding="utf-8") as f:
                f.write(new)
            changed += 1
    for n in sorted(to):
        print(n, to[n])
    print(len(to), "names,", changed, "files", file=sys.stderr)


if __name__ == "__main__":
    main()
