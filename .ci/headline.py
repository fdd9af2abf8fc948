"""The clause and the tables of docs/headline.md, by what `.ci/trusted.py --from netlabel` counts.

    python3 .ci/headline.py [--write]

Prints each of these lines that is false and each that the page lacks, and fails where there is one; `--write` puts the page right. In the table under
the heading of a part, a row has the crates or modules of crates that it speaks of, what to look for in them, and how many definitions and lines they add. One
that comes to a part gets a row of its own, in which somebody has to say what to look for.
"""
import collections
import pathlib
import re
import sys
from typing import NamedTuple

sys.dont_write_bytecode = True
import trusted

TOP = pathlib.Path(__file__).resolve().parent.parent
PAGE = "docs/headline.md"
FUNCTION = "netlabel"


def cells_of(line):
    return [cell.strip() for cell in line.strip().strip("|").split("|")]


def line_of(*cells):
    return f"| {' | '.join(f'{cell:,}' if isinstance(cell, int) else cell for cell in cells)} |"


class Counts(NamedTuple):
    """The clause, the parts of its reading, how many definitions each has with the frame alone, and what is named beside them."""

    clause: str
    parts: dict
    alone: dict
    beside: tuple


def counted(house, function=FUNCTION):
    reading = trusted.Reading(house, function)
    parts = reading.parts()
    alone = {part: trusted.counts(*reading.parts(part).values())[0] for part in reading.commands}
    return Counts(f"    ensures {{{reading.clauses[-1].text}}}\n", parts, alone, trusted.beside(house, parts))


def summary(counts):
    """A row for each part, and one for all."""
    for part, files in counts.parts.items():
        definitions, files, lines = trusted.counts(files)
        yield line_of(f"[{part}](#{part})", definitions, files, lines, counts.alone.get(part, definitions))
    definitions, files, lines = trusted.counts(*counts.parts.values())
    yield line_of("all", definitions, files, lines, definitions)


def named_beside(types, words):
    files = {where.split(":")[0] for where, _name in types}
    yield line_of("types and constants of the code", f"{len(types)} in {len(files)} files")
    for crate, own in words.items():
        yield line_of(f"words of the kit's `{crate}`", len(own))


def home(file):
    """The crate of a file, or its module with a folder of definitions of its own, and the file's name there."""
    _crates, crate, part, *names = pathlib.PurePosixPath(file).with_suffix("").parts
    if len(names) > 1 and (TOP / "crates" / crate / "src" / f"{names[0]}.rt").exists():
        crate = f"{crate}/{names.pop(0)}"
    return crate, "/".join(names if part == "specs" else [part, *names])


def by_home(files):
    homes = {}
    for file, definitions in files.items():
        homes.setdefault(home(file)[0], {})[file] = definitions
    return homes


def names_of(name, files):
    """The crate or module with its files."""
    return f"`{name}` {', '.join(home(file)[1] for file in files)}"


def part_rows(rows, files):
    """The rows of a part: of those there are, the crates that the part has and what is said of them, and one for each crate that has none."""
    homes = by_home(files)
    left, said = list(homes), []
    for named, text in ((cells_of(row)[0], cells_of(row)[1]) for row in rows):
        said.append(([name for name in left if f"`{name}`" in named], text))
        left = [name for name in left if name not in said[-1][0]]
    said += [([name], "") for name in left]
    for names, text in sorted(filter(lambda row: row[0], said), key=lambda row: list(homes).index(row[0][0])):
        definitions, _files, lines = trusted.counts(*(homes[name] for name in names))
        yield line_of("; ".join(names_of(name, homes[name]) for name in names), text, definitions, lines)


def written(page, counts):
    """The page with the clause and its tables as they have to be."""

    def table(match):
        headings = re.findall(r"^## `?(\w+)", page[:match.start()], re.M)
        head, rule, *rows = match[0].splitlines()
        if cells_of(head)[0] == "Part":
            rows = summary(counts)
        elif cells_of(head)[0] == "Named beside":
            rows = named_beside(*counts.beside)
        elif headings and headings[-1].lower() in counts.parts:
            rows = part_rows(rows, counts.parts[headings[-1].lower()])
        return "\n".join([head, rule, *rows, ""])

    page = re.sub(r"^    ensures \{.*\n(?:    .*\n)*", lambda match: counts.clause, page, count=1, flags=re.M)
    return re.sub(r"^(?:\|.*\n)+", table, page, flags=re.M)


def faults(page, counts):
    """What is wrong with the page."""
    lines, wanted = page.splitlines(), written(page, counts).splitlines()
    spare = collections.Counter(lines) - collections.Counter(wanted)
    for number, line in enumerate(lines, 1):
        if spare[line]:
            spare[line] -= 1
            yield f"{PAGE}:{number}: false: {line}"
        elif line.startswith("|") and "" in cells_of(line):
            yield f"{PAGE}:{number}: doesn't say what to look for: {line}"
    yield from (f"{PAGE}: lacks: {line}" for line in collections.Counter(wanted) - collections.Counter(lines))
    if sorted(lines) == sorted(wanted) and lines != wanted:
        yield f"{PAGE}: its rows aren't in reading order"
    yield from (f"{PAGE}: no part on {part}" for part in counts.parts if not re.search(rf"^## `?{part}\b", page, re.M | re.I))


def main():
    page = (TOP / PAGE).read_text(encoding="utf-8")
    counts = counted(trusted.House(TOP))
    if "--write" in sys.argv:
        page = written(page, counts)
        (TOP / PAGE).write_text(page, encoding="utf-8")
    found = list(faults(page, counts))
    print("\n".join(found) or f"{PAGE} is as .ci/trusted.py counts")
    return 1 if found else 0


if __name__ == "__main__":
    sys.exit(main())
