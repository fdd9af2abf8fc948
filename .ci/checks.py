"""The repository's own checks: links, citations, rows of docs/proved.md, docs/promises.md and docs/headline.md, signatures, trusted text, and calls of
the proved program (not with --pages: none is built then)."""
import pathlib
import re
import subprocess
import sys

sys.dont_write_bytecode = True
import calls
import headline
import signatures
import trusted

top = pathlib.Path(__file__).resolve().parent.parent
tracked = subprocess.run(["git", "ls-files"], cwd=top, capture_output=True, text=True, check=True).stdout.split("\n")
texts = {name: (top / name).read_text(encoding="utf-8", errors="replace") for name in tracked if name and (top / name).is_file()}
failures = []

# An example's folder has files of the repository and what .gitignore names one by one, the captures that a call there makes: an input is never among these.
ignored = {line for line in texts[".gitignore"].splitlines() if line.startswith("/examples/")}
others = subprocess.run(["git", "ls-files", "--others", "examples"], cwd=top, capture_output=True, text=True, check=True).stdout.splitlines()
failures += [f"{name}: stands there, and isn't in the repository" for name in others if f"/{name}" not in ignored]
failures += [f".gitignore: {line}: no example makes it" for line in sorted(ignored - {"/examples/c/labels"}) if not [*top.glob(re.sub(r"([^/]+)$", r"wanted*/\1", line[1:]))]]

# A reader has this repository alone: no number of a paper, no path of a machine.
cited = re.compile(
    r"(?<![\w./-])(?:document 0\d|0[1-4], [A-K]\b|0[1-4] §\s?\d+|§\s?\d+|[RWLD]\d{1,2}\b|T[1-5][a-d]\b|rows? \d{1,2}\b)"
    r"|/(?:work|opt/rattle)/|\.\./shared"
)
for name, text in texts.items():
    if name.startswith(".ci/") or name.endswith((".bin", ".pcap")):
        continue
    for number, line in enumerate(text.splitlines(), 1):
        if found := cited.search(line):
            failures.append(f"{name}:{number}: cites what a reader doesn't have: {found.group(0)!r}")

# Links between pages lead to files.
for name, text in texts.items():
    if name.endswith(".md"):
        for target in re.findall(r"\]\(([^)#\s]+)(?:#[^)]*)?\)", text):
            if "://" not in target and not (top / name).parent.joinpath(target).exists():
                failures.append(f"{name}: broken link: {target}")

# Each crate has its row, but those of tests.
uses = {line.split(":")[0].split()[0]: line.split(":")[1].split() for line in texts["crates.txt"].splitlines() if ":" in line and not line.startswith("#")}
crates = list(uses)
for crate in crates:
    if not crate.endswith("_tests") and not re.search(rf"^## `{crate}`", texts["docs/proved.md"], re.M):
        failures.append(f"docs/proved.md: no part on `{crate}`")

# A crate's files name no crate of the repository but those that its line of crates.txt has: a check finds that only once all below is proved.
for name, text in texts.items():
    if found := re.match(r"crates/(\w+)/.*\.(?:rt|antt)$", name):
        named = set(re.findall(r"^\s*(?:ghost )?use Rattle\.(\w+)\.", text, re.M)) & set(crates)
        lacking = named - {found.group(1), *uses[found.group(1)]}
        failures += [f"{name}: names {crate}, which its crate's line of crates.txt lacks" for crate in sorted(lacking)]

# And its line has no library that none of its files names: rt follows each path through these lines again and again.
for crate, libraries in uses.items():
    own = "".join(text for name, text in texts.items() if re.match(rf"crates/{crate}/(?:src|specs|proofs)/.*\.(?:rt|antt)$", name))
    failures += [f"crates.txt: no file of {crate} names {library}" for library in libraries if not re.search(rf"\b{library}(?:::|\.)", own)]

# `rt all`, by which `prove` proves, stops at a link.
failures += [f"{path.name} is a link" for path in sorted(top.iterdir()) if path.is_symlink()]

# Tests alone name test material, so that nobody has to believe it.
for name, text in texts.items():
    if re.match(r"crates/(?!worked_|\w+_tests/)\w+/(?:src/(?!tests[./])|specs/|proofs/(?!tests/)).*\.(?:rt|antt)$", name):
        failures += [f"{name}: names {crate}, which is for tests alone" for crate in sorted(set(re.findall(r"\bworked_(?:values|networks)\b", text)))]

# Functions have few arguments, and clauses short lines.
failures += signatures.faults({name: text for name, text in texts.items() if re.match(r"crates/\w+/src/.*\.rt$", name)})

# docs/promises.md goes through what the one call ensures: each field of `CallEnds` stands in a row, those of its records one by one, and no row names another.
ends = texts["crates/call_report/specs/CallEnds.antt"]
fields = {record: dict(re.findall(r"^  pub (\w+) : (.+)$", body, re.M)) for record, body in re.findall(r"^pub record (\w+)[^\n]* where\n((?:  .*\n)+)", ends, re.M)}
promised = set()
for field, said in fields["CallEnds"].items():
    parts = [part for word in said.split() for part in fields.get(word, [])]
    promised |= {f"{field}.{part}" for part in parts} or {field}
rows = [line.strip("|").split("|") for line in texts["docs/promises.md"].splitlines() if line.startswith("|")]
said_of = {field for row in rows if len(row) == 3 for field in re.findall(r"`([\w.]+)`", row[2])}
failures += [f"docs/promises.md: no row has `{field}` of CallEnds" for field in sorted(promised - said_of)]
failures += [f"docs/promises.md: CallEnds has no `{field}`" for field in sorted(said_of - promised)]

# Trusted text stands apart.
trusted_run = subprocess.run([sys.executable, top / ".ci/trusted.py"], capture_output=True, text=True)
print(trusted_run.stdout.split("\n\n")[0])
if trusted_run.returncode:
    failures += [line for line in (trusted_run.stdout.partition("\n\n")[2] + trusted_run.stderr).splitlines() if line]

# docs/headline.md has what the clause of `netlabel` reaches, part by part, as it is counted.
house = trusted.House(top)
failures += headline.faults(texts["docs/headline.md"], headline.counted(house))

# docs/model.md has each word that a public clause cites, in a row with its file; the words of a row stand in the row's files; and it
# has the trusted lines of each crate.
model = texts["docs/model.md"].splitlines()
named = set()
for number, line in enumerate(model, 1):
    cells = [cell.strip() for cell in line.strip("|").split("|")]
    files = re.findall(r"`(\w+/specs/[\w/]+\.antt)`", line)
    if not line.startswith("|") or len(cells) < 3 or not files:
        continue
    for word in re.findall(r"`([^`/]+)`", cells[1]):
        homes = [file for file in files for module in house.modules.values() if module.file == f"crates/{file}" and word in module.definitions]
        if not homes:
            failures.append(f"docs/model.md:{number}: `{word}` doesn't stand in {', '.join(files)}")
        named |= {(word, home) for home in homes}
    for path in re.findall(r"`((?:src|proofs)/[\w/]+\.(?:rt|antt))`", line):
        if not (top / "crates" / files[0].split("/")[0] / path).exists():
            failures.append(f"docs/model.md:{number}: {files[0].split('/')[0]} has no {path}")
for definition in sorted(house.cited_directly(), key=lambda d: d.where):
    if (definition.name, definition.module.file.removeprefix("crates/")) not in named:
        failures.append(f"docs/model.md: no row has `{definition.name}` of {definition.module.file.removeprefix('crates/')}")
reached = house.closure()
for crate in house.crates:
    lines, _comments, definitions = house.lines(reached, crate)
    if definitions and not re.search(rf"^\| `{crate}` \| {lines} \|", texts["docs/model.md"], re.M):
        failures.append(f"docs/model.md: no row says that `{crate}` has {lines} trusted lines")
for path in sorted(set(re.findall(r"`(\w+/(?:src|proofs|specs)/[\w/]+\.(?:rt|antt))`", "\n".join(texts[name] for name in texts if name.startswith("docs/") or name in ("README.md", "CONTRIBUTING.md"))))):
    if not (top / "crates" / path).exists():
        failures.append(f"a page names crates/{path}, which isn't there")


# The examples, captures that are made, and what is promised of names of files, each in a folder of its own, by the proved programs.
def calls_of_proved():
    made = [*calls.examples(), *calls.kernel_captures(), *calls.NAMES, *calls.OF_REPORT, *calls.MAKING, *calls.PCAPNG, *calls.BORDER, *calls.AUDITS]
    made += [*calls.LONG, *calls.LONG_BORDER, *calls.LONG_AUDITS]
    with calls.installed({program: calls.proved(program) for program in {call.program for call in made}}) as scripts:
        return [fault for call in made for fault in calls.made(call, scripts)]


if "--pages" not in sys.argv:
    if subprocess.run([top / "prove", *sorted({call.program for call in calls.examples()})]).returncode:
        failures.append("the programs aren't proved and built, so none of their calls was made")
    else:
        failures += calls_of_proved()

print("\n".join(failures) or "the repository's own checks passed")
sys.exit(1 if failures else 0)
