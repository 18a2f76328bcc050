#!/usr/bin/env python3
"""Brings the repository's own definitions, lemmas and record fields to today's spelling: a dash in a name of ours becomes an
underscore, and a fact keeps its capital without one. Names of the library, goals' names and names of the code stay.

Run once, at the top of the repository, after the kit's port.py. It prints each name that it turned, and each that would fall
together with another. `--list` prints and writes nothing."""
import collections
import glob
import re
import sys

NAME = r"[^\s:(){}=,;.\[\]`\"]+"
TOKEN = re.compile(r"[\w'◌-]+")


def files():
    return sorted(f for f in glob.glob("crates/**/*", recursive=True) if f.endswith((".antt", ".rt")) and "/out/" not in f)


def own_file(f):
    """specs/X.antt or proofs/X.antt: a file of ours, and no answers to goals."""
    return re.fullmatch(r"crates/\w+/(specs|proofs)/\w+\.antt", f)


def names_of(f, text):
    """The names that a file of ours defines: at the margin, and as fields or constructors."""
    for line in text.split("\n"):
        if line.startswith(("--", "use ", "mod ", "pub mod ", "unfolding ", "ruleset")):
            continue
        m = re.match(rf"(?:abbrev pub |unfoldable pub |pub |abbrev |unfoldable )?(?:record |data )?({NAME})\s*(?=[:({{])(.*)", line)
        if m:
            # a goal's answer is no name of ours
            if not own_file(f) and re.match(r":\s*\w+\." + re.escape(m.group(1)) + r"\s*$", m.group(2)):
                continue
            yield m.group(1)
        m = re.match(rf"\s+(?:abbrev pub |unfoldable pub |pub |abbrev |unfoldable )?(?:record |data )?({NAME})\s*(?:[({{][^:]*)?:\s", line)
        if m and own_file(f):
            yield m.group(1)


# Lemmas and definitions that would have the name of a function of the code.
LEM = {
    "arrival-floor", "broken-cost", "connection-of", "delay-cost", "departure-floor", "late-cost", "lateness-cost", "limits-kept", "never-for-ring", "never-ring",
    "number-or-none", "setting-of", "shown-costs-least", "track-of", "turned-cost", "worked-day",
}
# Lemmas whose dash joins two names of the library.
JOINED = {"get_or-append_right"}


def turned(name):
    if name in LEM:
        return name.replace("-", "_") + "_lem"
    if name[0].isupper():
        return "".join(p[:1].upper() + p[1:] for p in name.split("-"))
    return name.replace("-", "_")


def strip_comment(f, line):
    """The line's code and its comment."""
    at = line.find("//" if f.endswith(".rt") else "-- ")
    return (line, "") if at < 0 else (line[:at], line[at:])


def main():
    texts = {f: open(f, encoding="utf-8").read() for f in files()}
    where = collections.defaultdict(set)
    local = collections.defaultdict(set)
    for f, text in texts.items():
        if not f.endswith(".antt"):
            continue
        for n in names_of(f, text):
            if "-" in n and n not in JOINED and re.fullmatch(r"[\w'-]+", n):
                (where[n] if own_file(f) else local[f]).add(f if own_file(f) else n)
    every = set()
    for text in texts.values():
        every |= set(TOKEN.findall(text))
    together = {n: turned(n) for n in list(where) + [x for s in local.values() for x in s] if turned(n) in every}
    for n, t in sorted(together.items()):
        users = [f for f, text in texts.items() if re.search(rf"(?<![\w'-]){re.escape(t)}(?![\w'-])", text)]
        print("together:", n, "->", t, "|", " ".join(u.replace("crates/", "") for u in users[:6]))
    if "--list" in sys.argv:
        for n in sorted(where):
            print("turn:", n, "->", turned(n))
        return
    count = 0
    for f, text in texts.items():
        kept = set()
        for m in re.finditer(r"use Rattle\.std\.[\w.]+\.\{([^}]*)\}", text):
            kept |= {x.strip() for x in m.group(1).split(",")}
        mine = (set(where) | local[f]) - kept

        def one(m):
            nonlocal count
            n, before = m.group(0), line_text[: m.start()]
            if n not in mine or re.search(r"(?<![\w'])(c|w|goal|rules)\.$", before):
                return n
            count += 1
            return turned(n)

        lines = []
        for line in text.split("\n"):
            code, comment = strip_comment(f, line)
            line_text = code
            code = TOKEN.sub(one, code)
            comment = re.sub(r"`([^`]*)`", lambda q: "`" + TOKEN.sub(lambda m: turned(m.group(0)) if m.group(0) in mine else m.group(0), q.group(1)) + "`", comment)
            lines.append(code + comment)
        new = "\n".join(lines)
        if new != text:
            open(f, "w", encoding="utf-8").write(new)
    for n in sorted(where):
        print("turned:", n, "->", turned(n))
    print(count, "places")


main()
