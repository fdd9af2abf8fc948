"""The crates as `.ci/trusted.py` reads them: the definitions of `specs/` and `proofs/`, and the clauses of `src/` that other crates can rely on."""
import collections
import functools
import re

ANTT_NOISE = re.compile(r'--[^\n]*|"(?:\\.|[^"\\])*"')
RT_NOISE = re.compile(r'//[^\n]*|/\*.*?\*/|b?r(#*)".*?"\1|b?"(?:\\.|[^"\\])*"|b?\'(?:\\(?:x[0-9a-fA-F]{2}|u\{[^}]*\}|.)|[^\\\'])\'', re.S)
WORD = re.compile(r"[A-Za-z_][A-Za-z0-9_]*")
TOKEN = re.compile(r"[^\s(){}\[\],;]+")


def without(noise, text):
    """The text with spaces in place of comments and literals, lines kept."""
    return noise.sub(lambda match: re.sub(r"[^\n]", " ", match[0]), text)


def line_at(text, place):
    return text.count("\n", 0, place) + 1


def tokens_of(text):
    """The words of a term, each split at its dots, with their places."""
    for match in TOKEN.finditer(text):
        parts = [part.strip("«»") for part in match[0].lstrip("λ¬.").split(".")]
        if parts[0]:
            yield parts, match.start()


# --- definitions ----------------------------------------------------------------------------------------------------


def imports_of(statement):
    """What one `use` of definitions brings in, each as its local name and the parts of its path."""
    statement = " ".join(statement.split())
    if match := re.fullmatch(r"([^\s{]+)\.\s*\{(.*)\}", statement):
        for item in filter(None, map(str.strip, match[2].split(","))):
            name, _, alias = item.partition(" as ")
            yield alias or name, (*match[1].split("."), name)
    elif match := re.fullmatch(r"(\S+)(?: as (\S+))?", statement):
        yield match[2] or match[1].rpartition(".")[2], tuple(match[1].split("."))


class Scope:
    """The names that `use` lines bring in; those of an inner block come first. A name such as `◌+◌` is found by the signs between its places too,
    and `◌>>=◌` by the arrow of a `do`, which cites it."""

    def __init__(self, outer=None):
        self.outer, self.paths = outer, collections.defaultdict(list)

    def add(self, statement):
        for name, path in imports_of(statement):
            for word in {name, *filter(None, name.split("◌")), *["←"] * (name == "◌>>=◌")}:
                self.paths[word].append(path)

    def find(self, word):
        return self.paths.get(word) or (self.outer.find(word) if self.outer else [])


class Definition:
    def __init__(self, name, module, line, block):
        self.name, self.module, self.line = name, module, line
        self.block = block  # the head of the module block around it, whose parameters are its own too
        self.opens_block = False
        self.lines, self.comments = [], 0

    @property
    def where(self):
        return f"{self.module.file}:{self.line}"

    @property
    def size(self):
        """Its lines; the head of a block counts once, with the first definition in it."""
        return len(self.lines) + self.opens_block

    def parts(self):
        """Its text in parts, each with its pattern: its head with what belongs to it, and each equation behind that."""
        yield "", self.block
        starts = [number for number, line in enumerate(self.lines) if number and not line[0].isspace()]
        for start, stop in zip([0, *starts], [*starts, len(self.lines)]):
            text = "\n".join(self.lines[start:stop])
            yield text.partition(" = ")[0] if start else "", text


USE = re.compile(r"\s*(pub\s+)?use\s+(.*)")
HEAD = re.compile(r"((?:(?:abbrev|unfoldable|axiom|pub)\s+)*)(record\s+|data\s+)?(\S+?)(\s*[({:].*|\s+.*)?$")


def name_declared(line):
    """The name that a line in the first column declares, or None where it is an equation of the definition above."""
    words, kind, name, rest = HEAD.match(line).groups(default="")
    if words or kind or re.match(r"\s*(\{[^}]*\}\s*)?:", rest):
        return name.strip("«»")
    return None


class Module:
    """A file of specs/ or proofs/ with its imports and its definitions."""

    def __init__(self, crate, path, file, text):
        self.crate, self.path, self.file = crate, path, file
        self.scope, self.exports = Scope(), {}
        self.definitions, self.constructors = {}, {}
        self.read(text)

    def read(self, text):
        current, comments, opened, block, counted = None, 0, "", "", ""
        for number, (whole, line) in enumerate(zip(text.split("\n"), without(ANTT_NOISE, text).split("\n")), 1):
            if line.strip() and not line.startswith("  "):
                block = line if re.match(r"module\s", line) else ""
            elif block and whole.startswith("  "):
                whole, line = whole[2:], line[2:]
            if opened or USE.match(line):
                opened += " " + line
                if opened.count("{") <= opened.count("}"):
                    self.add_use(opened)
                    opened = ""
                current, comments = None, 0
            elif not line.strip():
                comments = comments + 1 if whole.strip() else 0
                if comments and current and whole.startswith(" "):
                    current.comments += comments
                    comments = 0
            elif re.match(r"(pub\s+)?mod\s|module\s|open\s|infix|ruleset", line):
                current, comments = None, 0
            else:
                name = None if line[0].isspace() else name_declared(line)
                if name and name not in self.definitions:
                    current = self.definitions[name] = Definition(name, self, number, block)
                    current.opens_block = block not in ("", counted)
                    counted = block or counted
                if current:
                    self.add_line(current, line, comments)
                comments = 0

    def add_use(self, text):
        public, statement = USE.match(text).groups()
        self.scope.add(statement)
        if public:
            self.exports.update(imports_of(statement))

    def add_line(self, definition, line, comments):
        definition.lines.append(line)
        definition.comments += comments
        if re.match(r"(pub\s+)?data\b", definition.lines[0]) and (match := re.match(r"\s+(?:pub\s+)?([^\s:]+)\s*:", line)):
            self.constructors[match[1]] = definition

    def find(self, word):
        return self.definitions.get(word) or self.constructors.get(word)

    def is_trusted(self):
        """It is of specs/, and of no folder `inside` there."""
        return self.path[2:3] == ("specs",) and "inside" not in self.path[3:]


# --- source ---------------------------------------------------------------------------------------------------------


class Clause:
    def __init__(self, file, line, what, text, scope):
        self.file, self.line, self.what, self.text, self.scope = file, line, what, text, scope


class Item:
    """A function, a type, a trait or a model. `owner` is the type or trait that it belongs to and is seen with; `face` names the types that are seen with it."""

    def __init__(self, kind, name, owner, is_public, face="", clauses=()):
        self.kind, self.name, self.owner, self.is_public, self.face, self.clauses = kind, name, owner, is_public, face, list(clauses)


def balanced(text, place):
    """The place behind the bracket that closes the one at this place."""
    opening, depth = text[place], 0
    closing = {"{": "}", "(": ")", "[": "]"}[opening]
    for match in re.compile(f"[{re.escape(opening + closing)}]").finditer(text, place):
        depth += 1 if match[0] == opening else -1
        if depth == 0:
            return match.end()
    return len(text)


def without_generics(header):
    """The header of an `impl` without its own parameters and conditions."""
    header, depth = header.strip(), 0
    for place, sign in enumerate(header if header.startswith("<") else ""):
        depth += (sign == "<") - (sign == ">" and header[place - 1] != "-")
        if depth == 0:
            return without_generics(header[place + 1:])
    return re.sub(r"\s+where\b.*", "", header, flags=re.S)


def seen_part(kind, text):
    """What can be seen of a type from outside of the crate: an enum, or a struct's public fields."""
    if kind == "enum":
        return text
    return re.split(r"[{(]", text, maxsplit=1)[0] + " ".join(re.findall(r"\bpub\s+(?!\()([^,}]*)", text))


ITEM = re.compile(r"(?:(pub)\b(\s*\([^)]*\))?\s*)?(?:(?:const|async|unsafe|extern)\s+(?=fn\b|impl\b|trait\b))?(\w+)")
TEST = re.compile(r"\[\s*(cfg\s*\(\s*test\s*\)|test\b)")
FUNCTION_PART = re.compile(r"\b(?:requires|ensures|decreases|ghost)\b\*?\s*[^\s{:]*\s*:?\s*\{|[(\[{;]")
GHOST = re.compile(r"\s*(\w+)[^:={;]*[:=]\s*\{")


class Source:
    """One file of src/: its items, the modules that it names, and what it exports."""

    def __init__(self, file, text):
        self.file, self.text = file, without(RT_NOISE, text)
        self.items, self.modules, self.exports = [], {}, []
        self.read(0, len(self.text), Scope(), None, None)

    def skip_to(self, place, stops):
        """The next of these signs outside of brackets."""
        while place < len(self.text) and self.text[place] not in stops:
            place = balanced(self.text, place) if self.text[place] in "{([" else place + 1
        return place

    def end_of(self, place):
        """The place behind the item: its block, or the semicolon."""
        stop = self.skip_to(place, ";{")
        return balanced(self.text, stop) if self.text[stop:stop + 1] == "{" else stop + 1

    def clause(self, brace, what, scope):
        text = self.text[brace + 1:balanced(self.text, brace) - 1]
        return Clause(self.file, line_at(self.text, brace), what, text, scope)

    def read(self, place, end, scope, owner, trait):
        """Reads the items of a block; `owner` is the type of an `impl` or the trait around them, `trait` the name of the trait that an `impl` is of."""
        is_test = False
        while place < end:
            if self.text[place] == "#":
                start = self.text.index("[", place)
                is_test = is_test or bool(TEST.match(self.text, start))
                place = balanced(self.text, start)
            elif match := ITEM.match(self.text, place):
                is_public = bool(match[1]) and not match[2]
                place = self.read_item(match[3], match.end(), is_public, is_test, scope, owner, trait)
                is_test = False
            else:
                place += 1

    def read_item(self, word, place, is_public, is_test, scope, owner, trait):
        """Reads the item whose first word ends here, and gives the place behind it."""
        if word == "ghost":
            return self.read_ghost(place, scope, owner, trait)
        end = self.skip_to(place, ";") + 1 if word in ("use", "const", "static", "type") else self.end_of(place)
        name = WORD.search(self.text, place)
        if word == "fn":
            return self.read_function(place, name[0], is_public, is_test, scope, owner, trait)
        if word == "use" and is_public:
            self.exports.append(self.text[place:end - 1])
        elif word == "mod" and not is_test and self.text[end - 1] == ";":
            self.modules[name[0]] = is_public, line_at(self.text, place)
        elif word in ("struct", "enum"):
            ghosts = re.compile(r"\bghost\s+(\w+)\s*:\s*\{").finditer(self.text, place, end)
            clauses = [self.clause(match.end() - 1, f"ghost {match[1]} of {name[0]}", scope) for match in ghosts]
            self.items.append(Item("type", name[0], None, is_public, seen_part(word, self.text[place:end]), clauses))
        elif word == "trait":
            made = Item("type", name[0], None, is_public, self.text[place:self.skip_to(place, "{")])
            self.items.append(made)
            self.read(self.skip_to(place, "{") + 1, end - 1, Scope(scope), made, None)
        elif word == "impl" and not is_test:
            self.read_impl(place, end, scope)
        return end

    def read_impl(self, place, end, scope):
        start = self.skip_to(place, "{")
        of_trait, _, of_type = without_generics(self.text[place:start]).rpartition(" for ")
        names, traits = WORD.findall(of_type), WORD.findall(of_trait.partition("<")[0])
        is_path = "::" in of_type.partition("<")[0]
        self.read(start + 1, end - 1, Scope(scope), (names or [""])[-1 if is_path else 0], traits[-1] if traits else None)

    def read_ghost(self, place, scope, owner, trait):
        """Reads what stands behind `ghost`: imports, a member of a trait, or what a type is seen as."""
        if match := re.compile(r"\s*use\b([^;]*);").match(self.text, place):
            scope.add(match[1])
            return match.end()
        match = GHOST.match(self.text, place)
        if not match:
            return self.skip_to(place, ";") + 1
        if isinstance(owner, Item):
            owner.clauses.append(self.clause(match.end() - 1, f"ghost {match[1]} of {owner.name}", scope))
        elif match[1] == "Value" and trait == "Model" and owner:
            self.items.append(Item("model", "", owner, True, clauses=[self.clause(match.end() - 1, f"ghost Value of {owner}", scope)]))
        return self.skip_to(balanced(self.text, match.end() - 1), ";") + 1

    def read_function(self, place, name, is_public, is_test, scope, owner, trait):
        """Reads a function's signature and its clauses; its body is passed over."""
        made = Item("function", name, owner, is_public)
        if isinstance(owner, Item):
            made.owner, made.is_public = owner.name, True
        elif owner is not None:
            made.is_public = is_public or bool(trait)
        while match := FUNCTION_PART.search(self.text, place):
            made.face += self.text[place:match.start()]
            last, place = match.end() - 1, match.end()
            if match[0] == ";":
                break
            place = balanced(self.text, last)
            if match[0] == "{":
                break
            if match[0] in "([":
                made.face += self.text[last:place]
            else:
                what = " ".join(match[0].rstrip("{ :\n").replace("*", "").split())
                made.clauses.append(self.clause(last, f"{name}, {what}", scope))
        if not is_test:
            self.items.append(made)
        return place


# --- a crate --------------------------------------------------------------------------------------------------------


def paths_of(statement):
    """The paths of a `use` in code, each as a list of names."""
    if match := re.fullmatch(r"(.*?)::\s*\{(.*)\}", statement.strip(), re.S):
        return [match[1].split("::") + [name.strip()] for name in match[2].split(",") if name.strip()]
    return [statement.partition(" as ")[0].strip().split("::")]


class Crate:
    def __init__(self, repo, folder):
        self.name, self.folder = folder.name, folder
        self.modules = [self.module(repo, path) for part in ("specs", "proofs") for path in sorted((folder / part).rglob("*.antt"))]
        self.is_program = not (folder / "src/lib.rt").exists()
        self.sources = {}
        self.read(repo, folder / ("src/main.rt" if self.is_program else "src/lib.rt"), ())

    def module(self, repo, path):
        names = [name for name in path.relative_to(self.folder).with_suffix("").parts if name != "Lib"]
        return Module(self.name, ("Rattle", self.name, *names), path.relative_to(repo).as_posix(), path.read_text(encoding="utf-8"))

    def read(self, repo, path, names):
        """Reads a file of the code and those of the modules that it names."""
        if path.exists():
            source = self.sources[names] = Source(path.relative_to(repo).as_posix(), path.read_text(encoding="utf-8"))
            folder = path.with_suffix("") if names else path.parent
            for inner in source.modules:
                self.read(repo, folder / f"{inner}.rt", (*names, inner))

    def declared(self, path):
        """The place and the name of a type, or of a file's constants, that a path behind `specs.declared` leads to."""
        for size in range(len(path) - 1, -1, -1):
            if source := self.sources.get(path[:size]):
                found = re.search(rf"\b(?:struct|enum)\s+{path[size]}\b", source.text)
                return f"{source.file}:{line_at(source.text, found.start()) if found else 1}", path[size]
        return None

    def exported(self, names=()):
        """The items of the crate that can be named from outside: those of public modules and what these export. All of a program's `main.rt` counts."""
        source = self.sources.get(names)
        for item in source.items if source else []:
            if not item.owner and (item.is_public or self.is_program):
                yield item
        for path in [path for statement in source.exports for path in paths_of(statement)] if source else []:
            inner = self.sources.get(tuple(path[1:-1]) if path[0] == "crate" else (*names, *path[:-1]))
            yield from (item for item in inner.items if not item.owner and path[-1] in (item.name, "*")) if inner else ()
        for inner, (is_public, _line) in source.modules.items() if source else ():
            if is_public:
                yield from self.exported((*names, inner))

    @functools.cached_property
    def public_clauses(self):
        """The clauses that other crates can rely on: of what is exported, of each type that it names, and of what belongs to such a type."""
        by_name, by_owner = collections.defaultdict(list), collections.defaultdict(list)
        for item in (item for source in self.sources.values() for item in source.items):
            if item.owner:
                by_owner[item.owner].append(item)
            elif item.kind == "type":
                by_name[item.name].append(item)
        seen, todo = {}, list(self.exported())
        while todo:
            item = todo.pop()
            if item not in seen:
                seen[item] = None
                for name in dict.fromkeys([item.name, *WORD.findall(item.face)]):
                    if name in by_name:
                        todo += by_name[name] + [member for member in by_owner[name] if member.is_public]
        return [clause for item in seen for clause in item.clauses]
