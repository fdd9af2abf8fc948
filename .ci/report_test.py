"""`netlabel_report json` and `csv` of every report of `run` and `check` among the examples, read by Python's own json and csv, against what the report says,
field by field; then of each with its script, where that is right. What report and script say is read here by docs/formats.md and docs/scripts.md alone. Prints
`N passed, M failed`.

    python3 .ci/report_test.py [--proved]

By the proved program, or else by the unproved one.
"""
import csv
import io
import json
import os
import pathlib
import subprocess
import sys

sys.dont_write_bytecode = True
TOP = pathlib.Path(__file__).resolve().parent.parent
import calls

COLUMNS = ("report line step node answer lines flow input number became label receiver carrier denial name octet category cause hop versions packets passed denied "
           "capture kind at limit most nodes commands flows text").split()
WITH_OCTET = {"BadHeader", "BadOption", "UnknownDoi", "TagNotAllowed", "AlreadyLabelled"}


def packet_of(words):
    """What a packet's line says."""
    flow, number = map(int, words[1].split("."))
    said = {"line": "packet", "flow": flow, "number": number, "became": words[2]}
    rest = words[3:]
    if words[2] == "delivered":
        said.update(label=rest[0], receiver=rest[2])
    elif words[2] == "sent":
        said.update(carrier=rest[0])
    else:
        said.update(denial=int(rest[0]), name=rest[1])
        if rest[1] in WITH_OCTET:
            said["octet"] = int(rest[3])
        elif rest[1] == "CategoryUnmapped":
            said["category"] = int(rest[3])
        elif rest[1] == "NotCrossable":
            said["cause"] = rest[2]
        said.update(hop=int(rest[rest.index("hop") + 1]), node=rest[rest.index("node") + 1])
    said["versions"] = [] if words[-1] == "-" else [int(version) for version in words[-1].split(",")]
    return said


def line_of(words):
    """What another line says."""
    if words[0] == "command":
        said = {"line": "command", "step": int(words[1]), "node": words[2], "answer": words[3]}
        return {**said, "lines": int(words[4])} if words[3] == "listed" else said
    if words[0] == "flow":
        return {"line": "flow", "flow": int(words[1]), "input": words[2]}
    if words[0] == "end":
        return {"line": "end", "flow": int(words[1]), "packets": int(words[3]), "passed": int(words[5]), "denied": int(words[7])}
    if words[0] == "capture":
        return {"line": "capture", "capture": int(words[1]), "octet": int(words[3]), "kind": words[4]}
    if words[0] == "limit":
        return {"line": "limit", "limit": words[1], "most": int(words[2])}
    if words[0] == "script":
        return {"line": "script", "at": int(words[2]), "octet": int(words[4]), "kind": words[5]}
    if words[0] == "ok":
        return {"line": "ok", "nodes": int(words[1]), "commands": int(words[3]), "flows": int(words[5])}
    return {"line": words[0]}


def commands_of(script):
    """The numbers of the lines of a script that are commands."""
    found = []
    for number, line in enumerate(script.split("\n"), 1):
        words = line.split()
        if words and not words[0].startswith("#") and words[0] not in ("node", "reading", "flow"):
            found.append(number)
    return found


def records(report, text, commands=None):
    """A record for each line of the report of this number, with the line of each command where the script's commands are given."""
    listed, told = 0, []
    for line in text.splitlines():
        if listed:
            listed -= 1
            told.append({"report": report, "line": "listed", "text": line[2:]})
            continue
        words = line.split(" ")
        said = packet_of(words) if words[0] == "packet" else line_of(words)
        listed = said.get("lines", 0)
        if commands is not None and said["line"] == "command":
            said["at"] = commands[said["step"] - 1]
        told.append({"report": report, **said})
    if not told or told[-1]["line"] not in ("done", "ok", "capture", "limit", "script"):
        told.append({"report": report, "line": "unfinished"})
    return told


def cell_of(value):
    if isinstance(value, list):
        return ",".join(map(str, value)) if value else "-"
    return "" if value is None else str(value)


def report_files():
    """The reports of `run` and `check` among the examples, each with its script."""
    files = []
    for words in calls.some(TOP, "examples/*/words*"):
        end = words.name[len("words"):]
        program = words.parent / f"program{end}"
        said = words.read_text().split("\n")
        if said[0] in ("run", "check") and (not program.exists() or program.read_text().strip() == "netlabel"):
            files.append((words.parent / f"report{end}", words.parent / said[1]))
    return files


def read_json(text):
    return [json.loads(line) for line in text.splitlines()]


def read_csv(text):
    return list(csv.reader(io.StringIO(text)))


def cells_of(wanted):
    return [COLUMNS, *([cell_of(record.get(column)) for column in COLUMNS] for record in wanted)]


def questions():
    """The words of each call, how what it prints is read, and what is wanted."""
    files = report_files()
    texts = [report.read_text() for report, _ in files]
    names = [str(report.relative_to(TOP)) for report, _ in files]
    wanted = [record for number, text in enumerate(texts, 1) for record in records(number, text)]
    asked = [(["json", *names], read_json, wanted), (["csv", *names], read_csv, cells_of(wanted))]
    for (_, script), text, name in zip(files, texts, names):
        if text.startswith("script "):
            continue
        by_script = ["-s", str(script.relative_to(TOP))]
        wanted = records(1, text, commands_of(script.read_text()))
        asked += [([*by_script, "json", name], read_json, wanted), ([*by_script, "csv", name], read_csv, cells_of(wanted))]
    return asked


def answers_of(program, asked):
    """The status and what is printed, of each call of a program."""
    for words in asked:
        ran = subprocess.run([program, *words], stdin=subprocess.DEVNULL, capture_output=True)
        yield ran.returncode, ran.stdout


def differs(words, status, told, wanted):
    """Whether a call told something else than what is wanted, which is said."""
    if status == 0 and told == wanted:
        return False
    other = next(((a, b) for a, b in zip(told, wanted) if a != b), (len(told), len(wanted)))
    print(f"failed: {' '.join(words)}: status {status}, told and wanted {other}")
    return True


def main(is_proved=False):
    os.chdir(TOP)
    program = calls.proved("netlabel_report") if is_proved else calls.unproved("netlabel_report")
    asked = questions()
    calls_made = [words for words, _, _ in asked]
    answers = answers_of(program, calls_made)
    failed = [differs(words, status, read(printed.decode()), wanted) for (words, read, wanted), (status, printed) in zip(asked, answers)]
    print(f"{failed.count(False)} passed, {failed.count(True)} failed")
    return 1 if any(failed) else 0


if __name__ == "__main__":
    sys.exit(main("--proved" in sys.argv))
