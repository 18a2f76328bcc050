"""Counts the places of the code that an older Rattle's forms would have needed. docs/DESIGN-PASS.md says what each row means.

python3 tools/places.py [REV]    the tree as it stands, or as it stood at a commit
"""
import re
import subprocess
import sys

ROWS = [
    ("1", "enums of the program with the shape of an option", r"^(pub )?enum (Words|Chosen)\b"),
    ("1", "a number that stands for none or unmarked", r"NO_ARC|past > 0|= 0; 64\]|0u16; 64"),
    ("1", "a side or a state as a number or a flag", r"side: u16|side == 0|is_open: bool|work: bool"),
    ("2", "plain twins, by their names", r"fn (draft_view|open_view|work_listed|lay_out|count_orders|tracks_stored|runs_stored|connections_stored|"
     r"floor_over|duration_over|read_two|read_four|read_signed|book_code|book_width|lateness_cost|broken_cost|turned_cost|"
     r"admit_track|admit_run|admit_connection|admit_preset|admit_switch|admit_report|admit_hold|admit_release|put_track|put_connection|put_run|"
     r"put_unused|add_orders_of|turned_of|no_duration|duration_fits|with_report|with_hold)\b"),
    ("2", "the guard of sizes, written out", r"as u64 \+ .* as u64 > SIZE_LIMIT"),
    ("3", "loops that count an index", r"^\s*(for [a-z_]+ in [^{]*\.\.|while )"),
    ("4", "reading or printing a value by hand", r"impl Written for|fn number\(word"),
    ("4", "an order written out", r"self\.(value|seconds) <=? b\."),
    ("4", "a fault wrapped by hand", r"(CallFault|PlanFault)::(Plan|Network)\(fault\)\)"),
    ("5", "lent records as separate parameters", r"^\s*tracks: &"),
    ("5", "ring memory as a parameter", r"^\s*ring: (&mut|usize)"),
    ("5", "one of the arrays of a layout as a parameter", r"\b(counts|sums|befores): (&|usize)"),
    ("5", "working times or marks as a parameter", r"^\s*(tables|marks): (&|usize)"),
    ("5", "what must hold of an argument", r"^\s*requires\b"),
    ("6", "a place beside the arcs that are listed so far", r"\bm: usize|start: usize,$"),
    ("7", "closures and bounds on functions", r"\bFn(Once|Mut)?\(|\bdyn "),
]


def tracked(rev):
    """The name and the text of each tracked file of the crates."""
    if rev:
        names = subprocess.run(["git", "ls-tree", "-r", "--name-only", rev, "crates"], capture_output=True, text=True, check=True).stdout.split()
    else:
        names = subprocess.run(["git", "ls-files", "crates"], capture_output=True, text=True, check=True).stdout.split()
    for name in names:
        if rev:
            yield name, subprocess.run(["git", "show", f"{rev}:{name}"], capture_output=True, text=True, check=True).stdout
        else:
            yield name, open(name, encoding="utf-8").read()


def sources(rev):
    """The kind, the name and the text of each source, spec and proof."""
    for name, text in tracked(rev):
        kind = name.split("/")[2] if name.count("/") > 2 else ""
        if kind in ("src", "specs", "proofs"):
            yield kind, name, text


def main():
    rev = sys.argv[1] if len(sys.argv) > 1 else None
    found = list(sources(rev))
    for point, what, pattern in ROWS:
        hits = [line for kind, _, text in found if kind == "src" for line in text.split("\n") if re.search(pattern, line)]
        print(f"{point}  {len(hits):4}  {what}")
    for kind in ("src", "specs", "proofs"):
        lines = sum(text.count("\n") for k, _, text in found if k == kind)
        print(f"    {lines:5}  lines of {kind}")
    answers = [text for k, name, text in found if k == "proofs" and name.endswith("Answers.antt")]
    print(f"8  {len(answers):4}  files of answers, {sum(text.count(chr(10)) for text in answers)} lines")


if __name__ == "__main__":
    main()
