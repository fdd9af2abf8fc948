"""What a reader has to believe: the definitions that public clauses cite, directly or through other definitions.

    python3 .ci/trusted.py [--repo DIR] [--why WORD] [--cited] [CRATE..]
    python3 .ci/trusted.py [--repo DIR] --from FUNCTION [--command COMMAND] [--bare] [--beside]

Fails, with file, line and word,
- where a cited definition stands in `specs/inside/` or in `proofs/`, and where one that no public clause cites stands in `specs/`;
- where a proof, a definition or a clause cites another crate's `proofs` (but the terms of its laws, in `proofs.Law`,
  and the shared lemmas of `octet_grammar` in `mls_label`) or another crate's `specs.inside`;
- where a module `laws` isn't public, and where a name means two things in trusted text and `.ci/one-name.txt` doesn't agree to it.
It prints the trusted lines of each crate. Declared types (`specs.declared`) are code. `--why WORD` tells who cites a word, `--cited`
lists the trusted definitions. Findings and lines are those of the crates named, or of all; citations are followed through all.

`--from FUNCTION` prints the definitions that this function's public clauses cite, directly or through others, in reading order: files in the order in which a
walk from the clause comes to them, which goes to the end of what a definition cites before its next word, and in a file the definitions as they stand there.
What belongs to one command stands apart: an equation whose pattern names the command's constructor, and the text behind it. What all commands share, the
frame, comes first, then what each command adds to those before it. `--command` keeps to the frame and to one command, `--bare` to definitions without a
comment, above them or inside; `--beside` lists as well what they name that is no definition: types and constants of the code, and words of the kit. Lines are
those of definitions, without comments, blank lines and imports.
"""
import argparse
import collections
import pathlib
import re
import sys

sys.dont_write_bytecode = True
from house import ANTT_NOISE, RT_NOISE, Crate, line_at, tokens_of, without

SHARED_LEMMAS = ("mls_label", "proofs.octet_grammar")
# The commands in the order in which they are read best; one that isn't here comes last.
READING = ["show", "judge", "check", "agree", "run", "make"]
FRAME = "frame"


class House:
    """All crates, and which definition cites which."""

    def __init__(self, repo):
        self.repo = repo
        names = re.findall(r"^(\w+)[^:\n]*:", (repo / "crates.txt").read_text(), re.M)
        self.crates = {name: Crate(repo, repo / "crates" / name) for name in names if (repo / "crates" / name / "src").is_dir()}
        self.modules = {module.path: module for crate in self.crates.values() for module in crate.modules}

    def resolve(self, path):
        """The definition that a path leads to, if it is one of a crate and no declared type."""
        for size in range(len(path) - 1, 1, -1):
            if module := self.modules.get(path[:size]):
                if path[size] in module.exports:
                    return self.resolve((*module.exports[path[size]], *path[size + 1:]))
                return module.find(path[size])
        return None

    def cited(self, text, scope, module=None):
        """The definitions that a term cites, each with its place in the term."""
        for parts, place in tokens_of(text):
            if module and (found := module.find(parts[0])):
                yield found, place
                continue
            paths = [()] if parts[0] == "Rattle" else scope.find(parts[0])
            behind = parts if parts[0] == "Rattle" else parts[1:]
            for path in paths:
                if found := self.resolve(path) or self.resolve((*path, *behind)):
                    yield found, place

    def cited_by(self, definition):
        """The definitions that a definition cites, part by part, each part with its pattern."""
        module = definition.module
        for pattern, text in definition.parts():
            yield pattern, [found for found, _place in self.cited(text, module.scope, module)]

    def closure(self):
        """Each definition that public clauses cite, with who cites it first: a definition, or a clause with its place."""
        reached = {}
        for crate in self.crates.values():
            for clause in crate.public_clauses:
                for found, place in self.cited(clause.text, clause.scope):
                    reached.setdefault(found, f"{clause.file}:{clause.line + line_at(clause.text, place) - 1} ({clause.what})")
        todo = collections.deque(reached)
        while todo:
            definition = todo.popleft()
            for found in (found for _pattern, part in self.cited_by(definition) for found in part):
                if found not in reached:
                    reached[found] = definition
                    todo.append(found)
        return reached

    def cited_directly(self):
        """The definitions that public clauses themselves cite."""
        return {found for crate in self.crates.values() for clause in crate.public_clauses for found, _place in self.cited(clause.text, clause.scope)}

    def lines(self, reached, name):
        """The trusted lines of a crate, its comments apart, and how many definitions they are."""
        own = [definition for definition in reached if definition.module.crate == name]
        return sum(d.size for d in own), sum(d.comments for d in own), len(own)


# --- what is wrong --------------------------------------------------------------------------------------------------


def chain(reached, definition):
    """Who cites it, from the definition back to a clause."""
    links, by = [], reached[definition]
    while by in reached:
        links.append(by.name)
        by = reached[by]
    return ", ".join([*links, by])


def hidden_laws(crate):
    for source in crate.sources.values() if not crate.is_program else ():
        is_public, line = source.modules.get("laws", (True, 0))
        if not is_public:
            yield f"{source.file}:{line}: `laws`: the module of laws isn't public"


def misplaced(crate, reached):
    for definition in (definition for module in crate.modules for definition in module.definitions.values()):
        if definition in reached and not definition.module.is_trusted():
            yield f"{definition.where}: `{definition.name}`: stands inside, and is cited by {chain(reached, definition)}"
        if definition not in reached and definition.module.is_trusted():
            yield f"{definition.where}: `{definition.name}`: stands in specs/, and no public clause cites it"


def forbidden(house, crate):
    """Citations of what another crate keeps to itself."""
    for path in sorted([*crate.folder.rglob("*.antt"), *crate.folder.rglob("*.rt")]):
        if "out" in path.relative_to(crate.folder).parts:
            continue
        text = without(ANTT_NOISE if path.suffix == ".antt" else RT_NOISE, path.read_text(encoding="utf-8"))
        for match in re.finditer(r"\bRattle\.(\w+)\.(proofs\b(?:\.\w+)*|specs\.(?:\w+\.)*inside\b[.\w]*)", text):
            other, what = match.groups()
            is_law = re.fullmatch(r"proofs\.(\w+\.)?Law", what)
            is_shared = is_law or (other == SHARED_LEMMAS[0] and what.startswith(SHARED_LEMMAS[1]))
            if other in house.crates.keys() - {crate.name} and not is_shared:
                yield f"{path.relative_to(house.repo)}:{line_at(text, match.start())}: `{match[0].rstrip('.')}`: {crate.name} cites what {other} keeps to itself"


def ambiguous(house, wanted, reached):
    """A word means one thing over all crates, or the exceptions have it."""
    file = house.repo / ".ci/one-name.txt"
    agreed = set(re.findall(r"^([^#\s]\S*)", file.read_text(), re.M)) if file.exists() else set()
    by_name = collections.defaultdict(list)
    for definition in reached:
        by_name[definition.name].append(definition)
    for name, found in sorted(by_name.items()):
        if len(found) > 1 and name not in agreed and wanted & {definition.module.crate for definition in found}:
            yield f"`{name}` means {len(found)} things: {', '.join(definition.where for definition in found)}"


def findings(house, wanted, reached):
    crates = [crate for name, crate in house.crates.items() if name in wanted]
    for crate in crates:
        yield from hidden_laws(crate)
        yield from misplaced(crate, reached)
    for crate in crates:
        yield from forbidden(house, crate)
    yield from ambiguous(house, wanted, reached)


# --- the way from one clause ----------------------------------------------------------------------------------------


class Reading:
    """What the public clauses of one function reach, in parts: the frame, and what each command adds."""

    def __init__(self, house, function):
        self.house, self.clauses, self.variants, self.known = house, [], set(), {}
        for crate in house.crates.values():
            if found := [clause for clause in crate.public_clauses if clause.what.startswith(f"{function},")]:
                self.clauses += found
                self.variants.add(("Rattle", crate.name, "specs", "declared", "command", "Command", "TheVariants"))
        named = {name for definition in self.walk() for commands, _found in self.cases(definition) for name in commands}
        self.commands = [name for name in READING if name in named] + sorted(named - set(READING))

    def commands_in(self, pattern, scope):
        """The commands whose constructors a pattern names."""
        for parts, _place in tokens_of(pattern):
            for path in ((*path, *parts[1:]) for path in scope.find(parts[0])):
                if path[:-1] in self.variants:
                    yield path[-1].lower()

    def cases(self, definition):
        """What each part of a definition cites, with the commands that its pattern names."""
        if definition not in self.known:
            scope = definition.module.scope
            self.known[definition] = [(set(self.commands_in(pattern, scope)), found) for pattern, found in self.house.cited_by(definition)]
        return self.known[definition]

    def walk(self, commands=None):
        """The definitions that the clauses reach, the first citation first and to its end, with the cases of these commands alone, or of all."""
        reached, ways = {}, [iter([found for clause in self.clauses for found, _place in self.house.cited(clause.text, clause.scope)])]
        while ways:
            definition = next(ways[-1], None)
            if definition is None:
                ways.pop()
            elif definition not in reached:
                reached[definition] = None
                ways.append(iter([found for named, part in self.cases(definition) if commands is None or named <= commands for found in part]))
        return list(reached)

    def parts(self, command=None, is_wanted=lambda definition: True):
        """The definitions of each part by file, those of a command without what came before."""
        found, before = {}, set()
        for part in [FRAME, *([command] if command else self.commands)]:
            files = found[part] = {}
            reached = self.walk({part, *found})
            for definition in reached:
                if definition not in before and is_wanted(definition):
                    files.setdefault(definition.module.file, []).append(definition)
            before.update(reached)
            for own in files.values():
                own.sort(key=lambda definition: definition.line)
        return found


def beside(house, parts):
    """What the definitions name that is no definition of a crate: types and constants of the code, each with its place, and the words of the kit by crate."""
    definitions = [definition for files in parts.values() for own in files.values() for definition in own]
    types, words = set(), collections.defaultdict(set)
    for definition in definitions:
        for word, _place in (token for _pattern, text in definition.parts() for token in tokens_of(text)):
            for path in definition.module.scope.find(word[0]):
                if path[1] not in house.crates:
                    words[path[1]].add(path[-1] if len(path) > 4 else word[-1])
                elif path[3:4] == ("declared",):
                    types.add(house.crates[path[1]].declared(path[4:]))
    return sorted(types), words


def counts(*parts):
    """How many definitions these parts have, in how many files, and with how many lines."""
    definitions = [definition for files in parts for own in files.values() for definition in own]
    return len(definitions), len({definition.module.file for definition in definitions}), sum(definition.size for definition in definitions)


def print_reading(parts):
    for part, files in parts.items():
        print(f"{part}:")
        for file, own in files.items():
            number, _files, lines = counts({file: own})
            print(f"  {file}: definitions {number}, lines {lines}")
            for definition in own:
                print(f"    {definition.where}: {definition.name}")
        print()
    print(f"{'part':<10}{'definitions':>13}{'files':>7}{'lines':>7}")
    for part, files in [*((part, [files]) for part, files in parts.items()), ("all", parts.values())]:
        print("{:<10}{:>13}{:>7}{:>7}".format(part, *counts(*files)))


def print_beside(types, words):
    print("\ntypes and constants of the code:")
    for where, name in types:
        print(f"  {where}: {name}")
    print("words of the kit:")
    for crate, own in words.items():
        print(f"  {crate}: {', '.join(sorted(own))}")


# --- the command ----------------------------------------------------------------------------------------------------


def print_trusted(house, wanted, reached):
    rows = {name: house.lines(reached, name) for name in house.crates if name in wanted}
    print(f"{'crate':<18}{'trusted lines':>14}{'comments':>10}{'definitions':>13}")
    for name, row in [*rows.items(), ("all", [sum(column) for column in zip(*rows.values())])]:
        print("{:<18}{:>14}{:>10}{:>13}".format(name, *row))
    print()


def print_why(house, word, reached):
    for definition in (module.definitions[word] for module in house.modules.values() if word in module.definitions):
        print(f"{definition.where}: {'cited by ' + chain(reached, definition) if definition in reached else 'no public clause cites it'}")


def options():
    form = argparse.ArgumentParser(description=__doc__, formatter_class=argparse.RawDescriptionHelpFormatter)
    form.add_argument("--repo", type=pathlib.Path, default=pathlib.Path(__file__).resolve().parent.parent)
    form.add_argument("--why", metavar="WORD")
    form.add_argument("--cited", action="store_true")
    form.add_argument("--from", dest="start", metavar="FUNCTION")
    form.add_argument("--command", metavar="COMMAND")
    form.add_argument("--bare", action="store_true")
    form.add_argument("--beside", action="store_true")
    form.add_argument("crates", nargs="*")
    return form.parse_args()


def main():
    asked = options()
    house = House(asked.repo.resolve())
    if asked.start:
        reading = Reading(house, asked.start)
        if not reading.clauses:
            sys.exit(f"no public clause of a function `{asked.start}`")
        if asked.command and asked.command not in reading.commands:
            sys.exit(f"no such command: {asked.command}, but {', '.join(reading.commands)}")
        parts = reading.parts(asked.command, lambda definition: not (asked.bare and definition.comments))
        print_reading(parts)
        if asked.beside:
            print_beside(*beside(house, parts))
        return 0
    wanted = set(asked.crates or house.crates)
    if unknown := wanted - set(house.crates):
        sys.exit(f"no such crate: {', '.join(sorted(unknown))}")
    reached = house.closure()
    if asked.why:
        print_why(house, asked.why, reached)
        return 0
    if asked.cited:
        for definition in sorted(reached, key=lambda definition: (definition.module.file, definition.line)):
            if definition.module.crate in wanted:
                print(f"{definition.where}: {definition.name}")
    print_trusted(house, wanted, reached)
    found = list(findings(house, wanted, reached))
    print("\n".join(found) or "trusted text stands apart")
    return 1 if found else 0


if __name__ == "__main__":
    sys.exit(main())
