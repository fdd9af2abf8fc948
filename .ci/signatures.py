"""Two rules on the functions of `crates/*/src`: at most seven arguments each, and clauses of at most 100 columns."""
import re

ARGUMENTS = 7
COLUMNS = 100

# Functions that programs outside of this repository call as they are, each with what its arguments are.
FIXED = {
    ("label_flow", "walk"): "a viewer, a flow, a packet with its worker and number, room for what is sent, the gate and memory",
    ("label_flow", "round"): "both sides of a board with the last version, a flow, its feed, the gate, memory and threads",
}
FUNCTION = re.compile(r'^[ \t]*(?:pub(?:\([^)]*\))? )?(?:const |extern "C" )?fn (\w+)', re.M)
CLAUSE = re.compile(r"^[ \t]*(?:requires|ensures|(?:ghost )?invariant)\b[^{}\n]*\{", re.M)
OPENING, CLOSING = "([{<", ")]}>"


def parts(text, start):
    """What stands between commas in the brackets that open at this place, and the place behind them."""
    depth, found = 0, [""]
    for place in range(start, len(text)):
        letter = text[place]
        if letter in CLOSING and text[place - 1 : place + 1] not in ("->", "=>"):
            depth -= 1
            if not depth:
                return [part for part in found if part.strip()], place + 1
        if letter == "," and depth == 1:
            found.append("")
        elif depth:
            found[-1] += letter
        depth += letter in OPENING
    return found, len(text)


def functions(text):
    """Each function with its line and its number of arguments, `self` counted too."""
    for found in FUNCTION.finditer(text):
        place = found.end()
        if text.startswith("<", place):
            _generics, place = parts(text, place)
        yield text.count("\n", 0, found.start(1)) + 1, found.group(1), len(parts(text, place)[0])


def clause_lines(text):
    """The lines of clauses and invariants by their numbers."""
    for found in CLAUSE.finditer(text):
        depth, end = 1, found.end()
        while depth and end < len(text):
            depth += (text[end] == "{") - (text[end] == "}")
            end += 1
        start = text.rfind("\n", 0, found.start()) + 1
        first = text.count("\n", 0, start) + 1
        yield from enumerate(text[start:end].split("\n"), first)


def faults(sources):
    """What is wrong in these sources, by names like crates/NAME/src/FILE.rt."""
    for name, text in sources.items():
        crate = name.split("/")[1]
        text = re.sub(r"//[^\n]*", "", text)
        for line, function, count in functions(text):
            if count > ARGUMENTS and (crate, function) not in FIXED:
                yield f"{name}:{line}: {function} has {count} arguments, more than {ARGUMENTS}"
        for line, clause in clause_lines(text):
            if len(clause.rstrip()) > COLUMNS:
                yield f"{name}:{line}: a line of a clause has more than {COLUMNS} columns"
