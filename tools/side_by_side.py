"""Prints, for docs/DESIGN-PASS.md, what changed in public between a commit and the tree: signatures with their clauses, types, and the
definitions of specs/, old and new.

python3 tools/side_by_side.py REV
"""
import re
import sys

from places import tracked


def dedent(lines):
    """The lines without the blanks that all of them begin with."""
    width = min((len(line) - len(line.lstrip()) for line in lines if line.strip()), default=0)
    return "\n".join(line[width:] for line in lines)


def items_of_code(name, text):
    """Public functions with their clauses, and public types, by name."""
    crate = name.split("/")[1]
    lines = text.split("\n")
    inside, shared = "", False
    i = 0
    while i < len(lines):
        line = lines[i]
        head = re.match(r"(pub )?(impl|trait)\b(.*)\{$", line)
        if head:
            words = re.sub(r"<[^>]*>", "", head.group(3)).strip()
            shared = head.group(2) == "trait" or " for " in words
            inside = words.split(" for ")[-1].split(":")[0].strip()
        elif line == "}":
            inside, shared = "", False
        made = re.match(r"(    )?(pub )?fn (\w+)", line)
        if made and (made.group(2) or shared):
            block = []
            while i < len(lines):
                if lines[i].strip() == "{":
                    break
                block.append(re.sub(r" \{$", "", lines[i]))
                if lines[i].endswith("{") or lines[i].endswith(";"):
                    break
                i += 1
            yield ("fn", crate, (inside + "::" if inside else "") + made.group(3)), dedent(block)
        kind = re.match(r"pub (struct|enum) (\w+)", line)
        if kind:
            block = []
            while i < len(lines):
                if not lines[i].strip().startswith("//"):
                    block.append(lines[i])
                if lines[i] == "}":
                    break
                i += 1
            yield ("type", crate, kind.group(2)), dedent(block)
        i += 1


def items_of_specs(name, text):
    """Definitions of specs/, by name, without their comments."""
    crate = name.split("/")[1]
    for block in re.split(r"\n\s*\n", text):
        lines = [line for line in block.split("\n") if not line.strip().startswith("--") and not line.strip().startswith("use ")]
        at = next((k for k, line in enumerate(lines) if re.match(r"\s*(abbrev )?(pub )(record |data )?[\w]", line)), None)
        if at is None:
            continue
        lines = [line for line in lines[at:] if line.strip()]
        found = re.match(r"\s*(?:abbrev )?pub (?:record |data )?(\w+)", lines[0])
        if found and found.group(1) != "mod":
            yield ("definition", crate, found.group(1)), dedent(lines)


def all_items(rev):
    items = {}
    for name, text in tracked(rev):
        if not re.match(r"crates/\w+/(src/.*\.rt|specs/.*\.antt)$", name):
            continue
        for key, block in (items_of_code if name.endswith(".rt") else items_of_specs)(name, text):
            items[key] = block
    return items


def main():
    old, new = all_items(sys.argv[1]), all_items(None)
    moved = {}
    for key in set(old) - set(new):
        there = [k for k in new if k not in old and k[0] == key[0] and k[2] == key[2]]
        if len(there) == 1:
            moved[key] = there[0]
    for kind, title in (("fn", "Signatures and clauses"), ("type", "Types"), ("definition", "Definitions")):
        print(f"### {title}\n")
        for key in sorted(k for k in old if k[0] == kind):
            here = moved.get(key, key)
            if here not in new:
                continue
            if new[here] != old[key]:
                place = "" if here == key else f", now in `{here[1]}`"
                print(f"`{key[1]}` **{key[2]}**{place}\n\n```\n- " + old[key].replace("\n", "\n- ") + "\n+ " + new[here].replace("\n", "\n+ ") + "\n```\n")
        fresh = sorted(k for k in new if k[0] == kind and k not in old and k not in moved.values())
        if fresh:
            print("New: " + ", ".join(f"`{k[1]}::{k[2]}`" for k in fresh) + ".\n")
        gone = sorted(k for k in old if k[0] == kind and k not in new and k not in moved)
        if gone:
            print("Gone: " + ", ".join(f"`{k[1]}::{k[2]}`" for k in gone) + ".\n")


main()
