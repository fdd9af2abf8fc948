"""Compares what `show` prints of packets that a Linux kernel labelled with what their senders said, packet by packet.

    python3 .ci/kernel.py [PROGRAM]

PROGRAM is asked for each capture of tests/kernel, `./netlabel` if left out. The label that is wanted is the sender's, in
the numbers of the wire, and not what was read of the option. A packet of which no sender said anything (neighbour discovery, the kernel's own
answers to a ping) is compared with what another reader, tshark, reads. Prints each packet that differs and how many are alike; the status is
1 where one differs.
"""
import csv
import pathlib
import subprocess
import sys

TOP = pathlib.Path(__file__).resolve().parent.parent
FOLDER = TOP / "tests" / "kernel"
CIPSO_AT, CALIPSO_AT = 20, 42
# DOI 19 translates: the wire's number for each local one, as the tables of the sending kernel had it.
LEVELS = {19: {0: 10, 1: 20, 2: 30, 3: 255, 5: 0}}
CATEGORIES = {19: {0: 239, 1: 0, 2: 7, 3: 8, 10: 100, 11: 101, 12: 102}}
MOST_RANGES = 7


def numbers_of(text):
    """The categories of a column: numbers, `c1,c3` or `c1.c5`, or `-` for none."""
    found = set()
    for term in text.replace("c", "").split(","):
        first, _, last = term.replace("-", ".").partition(".")
        if first:
            found |= set(range(int(first), int(last or first) + 1))
    return found


def runs_of(categories):
    """The maximal runs, ascending."""
    runs = []
    for category in sorted(categories):
        if runs and runs[-1][1] + 1 == category:
            runs[-1][1] = category
        else:
            runs.append([category, category])
    return runs


def label_text(level, categories):
    """A label's written form."""
    terms = []
    for first, last in runs_of(categories):
        terms += [f"c{first}.c{last}"] if last > first + 1 else [f"c{number}" for number in range(first, last + 1)]
    return ":".join([f"s{level}", ",".join(terms)] if terms else [f"s{level}"])


def wanted(row):
    """What `show` has to print behind the packet's number."""
    if row["option_hex"] == "-":
        return "unlbl"
    level, categories, doi = int(row["wire_level"]), numbers_of(row["wire_categories"]), int(row["wire_doi"])
    if row["verdict"].startswith("agree"):
        doi, level, categories = int(row["doi"]), int(row["local_level"]), numbers_of(row["local_categories"])
        level = LEVELS.get(doi, {}).get(level, level)
        categories = {CATEGORIES.get(doi, {}).get(category, category) for category in categories}
    tag = row["wire_tag"]
    if tag == "calipso":
        return f"calipso doi {doi} {label_text(level, categories)} octet {CALIPSO_AT}"
    if tag == "5" and len(runs_of(categories)) > MOST_RANGES:
        return f"BadOption octet {CIPSO_AT + 6}"  # the tag's type: no tag 5 has as many octets
    return f"cipsov4 doi {doi} tag {tag} {label_text(level, categories)} octet {CIPSO_AT}"


def rows_of(path):
    """What is known of each packet of a capture."""
    with path.with_suffix(".labels.tsv").open() as file:
        return list(csv.DictReader(file, delimiter="\t"))


def report_of(rows):
    """The lines that `show` has to print of a capture."""
    return [f"packet {row['frame']} {wanted(row)}" for row in rows] + [f"end packets {len(rows)}"]


def printed_by(program, captures):
    """The report of each capture, by its name."""
    return {name: subprocess.run([program, "show", name], cwd=FOLDER, capture_output=True, text=True).stdout for name in captures}


def compare(reports):
    """How many packets are alike, of how many no sender said anything, how many are refused as they should; and each that differs."""
    alike, unsaid, refused, failures = 0, 0, 0, []
    for path in sorted(FOLDER.glob("*.pcap")):
        rows = rows_of(path)
        lines = report_of(rows)
        found = reports.get(path.name, "").splitlines()
        failures += [f"{path.name}: wanted {line!r}, printed {seen!r}" for line, seen in zip(lines, found + [""] * len(lines)) if line != seen]
        failures += [f"{path.name}: printed {line!r} too" for line in found[len(lines):]]
        for row, line, seen in zip(rows, lines, found):
            alike += line == seen
            unsaid += line == seen and not row["verdict"].startswith("agree")
            refused += line == seen and "BadOption" in line
    return alike, unsaid, refused, failures


def main():
    captures = sorted(path.name for path in FOLDER.glob("*.pcap"))
    program = pathlib.Path(sys.argv[1]).resolve() if len(sys.argv) > 1 else TOP / "netlabel"
    alike, unsaid, refused, failures = compare(printed_by(program, captures))
    print(*failures, sep="\n", end="\n" if failures else "")
    print(f"packets of a Linux kernel, in {len(captures)} captures: {alike} as wanted ({refused} of them refused by a rule of docs/profile.md, "
          f"{unsaid} compared with tshark alone), {len(failures)} not")
    return 1 if failures or not captures else 0


if __name__ == "__main__":
    sys.exit(main())
