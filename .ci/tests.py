"""Runs all tests within minutes, before any proof: see `WHAT`. Ends with a line `N passed, M failed`, and with 0 where nothing failed.

    python3 .ci/tests.py [--jobs N] [--only WORD] [--proved]
"""
import argparse
import concurrent.futures
import contextlib
import os
import pathlib
import re
import shutil
import subprocess
import sys
import tempfile
import threading
import time
from typing import Callable, List, NamedTuple

sys.dont_write_bytecode = True
TOP = pathlib.Path(__file__).resolve().parent.parent
import calls

WHAT = """Runs every crate's tests, every example, the captures of a Linux kernel and the promises on names of files, compiled with checks;
and the checks of the pages and of the trusted text. It proves nothing, tries no must-fail edit, and runs no proved program: `.ci/run` does that."""

# The repository's own checks: scripts with an exit status, each with its words.
SCRIPTS = {
    "pages and trusted text": ["checks.py", "--pages"],
    "what is trusted, over a small repository": ["trusted_test.py"],
    "rules on signatures": ["signatures_test.py"],
    "installing": ["install_test.py"],
    "netlabel and prove with a stand-in for rt": ["scripts_test.py"],
}
PROGRAMS = ["netlabel", "netlabel_cover", "netlabel_audit", "ripso_border", "netlabel_report"]
SECONDS = 600
# The status of `netlabel` where it has no program to run.
NO_PROGRAM = 125


class Result(NamedTuple):
    passed: int
    failures: List[str]
    untested: List[str] = []


class Check(NamedTuple):
    name: str
    run: Callable[[], Result]


def called(words, cwd=TOP, **how):
    return subprocess.run(words, cwd=cwd, stdin=subprocess.DEVNULL, stdout=subprocess.PIPE, stderr=subprocess.PIPE, **how)


def without_hints(folder):
    """The environment for tests of crates. Beside each try rt starts, by `sh`, a check whose one answer is a hint on names, which `rt check` gives
    as well. That would take a third of the time of all, so `sh` does nothing there."""
    (pathlib.Path(folder) / "sh").symlink_to("/bin/false")
    return {**os.environ, "PATH": f"{folder}:{os.environ['PATH']}"}


def of_calls(found):
    """The result of calls, from what is wrong with each."""
    return Result(sum(not wrong for wrong in found), [fault for wrong in found for fault in wrong])


# --- crates -----------------------------------------------------------------------------------------------------------------------------------


def crates_with_tests():
    lines = (TOP / "crates.txt").read_text().splitlines()
    names = [re.split(r"[ :]", line)[0] for line in lines if re.match(r"[a-z]", line)]
    return [name for name in names if any("#[test]" in file.read_text() for file in (TOP / "crates" / name / "src").rglob("*.rt"))]


def crate_tests(name, environment):
    ran = called(["rt", "try", "--test", "--steps", "1", "--seconds", str(SECONDS)], cwd=TOP / "crates" / name, env=environment)
    text = (ran.stdout + ran.stderr).decode(errors="replace")
    counts = re.search(r"^test result: ok\. (\d+) passed; 0 failed", text, re.M)
    if counts and re.search(r"^run=ended status=0 ", text, re.M):
        return Result(int(counts[1]), [])
    return Result(0, [f"{name}: its tests fail or give no answer:\n  " + "\n  ".join(text.splitlines()[-12:])])


# --- calls of the program ---------------------------------------------------------------------------------------------------------------------


def calls_of(program):
    """The calls that are made before any proof."""
    made = [*calls.examples(), *calls.kernel_captures(), *calls.NAMES, *calls.OF_REPORT, *calls.MAKING, *calls.PCAPNG, *calls.BORDER, *calls.AUDITS]
    return [call for call in made if call.program == program]


def all_calls(program):
    """Each call of a program, which is built once and kept."""
    with calls.installed({program: calls.unproved(program)}) as scripts:
        return of_calls([calls.made(call, scripts) for call in calls_of(program)])


def through_a_link():
    """`netlabel` itself, by a link to it, from another folder whose name has a space."""
    call = calls.example(TOP / "examples/crossing/words")
    with tempfile.TemporaryDirectory(prefix="a folder ") as made:
        folder, link = pathlib.Path(made) / "of captures", pathlib.Path(made) / "netlabel"
        folder.mkdir()
        link.symlink_to(TOP / "netlabel")
        call.prepare(folder)
        before = calls.held(folder)
        ran = called(["../netlabel", *call.words], cwd=folder)
        said = b"".join(line for line in ran.stderr.splitlines(True) if b"unproved" not in line)
        return of_calls([calls.faults(call, ran.returncode, ran.stdout, said, before, calls.held(folder))])


def without_what_it_needs():
    """`netlabel` says what is missing: the repository round it, or `rt`."""
    found = []
    with tempfile.TemporaryDirectory() as made:
        folder = pathlib.Path(made)
        for tool in ("awk", "cut", "find", "grep", "mkdir", "readlink", "sed", "sh", "sha256sum", "sort"):
            (folder / tool).symlink_to(subprocess.check_output(["which", tool], text=True).strip())
        (folder / "netlabel").write_bytes((TOP / "netlabel").read_bytes())
        main = folder / "crates/netlabel_run/src/main.rt"
        main.parent.mkdir(parents=True)
        main.write_text("")
        (folder / "crates.txt").write_text("netlabel_run:\n")
        for missing in ("has neither the netlabel repository nor its programs", "rt isn't on the path"):
            ran = called(["/bin/sh", folder / "netlabel", "show", "x"], env={"PATH": made})
            is_told = ran.returncode == NO_PROGRAM and not ran.stdout and missing in ran.stderr.decode()
            found.append([] if is_told else [f"netlabel doesn't say what is missing ({missing}): {ran}"])
            shutil.copytree(TOP / "lib", folder / "lib", dirs_exist_ok=True)
    return of_calls(found)


def script(words):
    ran = called([sys.executable, TOP / ".ci" / words[0], *words[1:]])
    text = (ran.stdout + ran.stderr).decode(errors="replace")
    if ran.returncode:
        return Result(0, [f"{' '.join(words)}:\n{text.rstrip()}"])
    return Result(1, [], [line for line in text.splitlines() if "not tested" in line])


# --- all of them ------------------------------------------------------------------------------------------------------------------------------


def checks(with_proved, environment):
    """What takes long comes first."""
    if with_proved:
        yield Check("calls of the proved program", lambda: script(["checks.py"]))
    yield Check("examples, captures of a kernel, captures that are made, names of files", lambda: all_calls("netlabel"))
    for program in PROGRAMS[1:]:
        if calls_of(program):
            yield Check(f"calls of {program}", lambda program=program: all_calls(program))
    yield Check("netlabel by a link", through_a_link)
    # `rt ci` runs these too, proved.
    for name in [] if with_proved else reversed(crates_with_tests()):
        yield Check(name, lambda name=name: crate_tests(name, environment))
    yield Check("netlabel without what it needs", without_what_it_needs)
    yield Check("the library for C", lambda: script(["c_test.py", *["--build"] * with_proved]))
    yield Check("reports of the examples as JSON and as CSV", lambda: script(["report_test.py", *["--proved"] * with_proved]))
    yield Check("failing calls", lambda: script(["failures_test.py", *["--proved"] * with_proved]))
    yield Check("captures through pipes", lambda: script(["pipes_test.py", *["--proved"] * with_proved]))
    for name, words in SCRIPTS.items():
        yield Check(name, lambda words=words: script(words))


def timed(check):
    start = time.monotonic()
    try:
        result = check.run()
    except Exception as error:
        result = Result(0, [f"{check.name}: {error!r}"])
    return result, time.monotonic() - start


def main():
    form = argparse.ArgumentParser(description=WHAT)
    form.add_argument("--jobs", type=int, default=len(os.sched_getaffinity(0)), help="so many at a time; as many as processors, if left out")
    form.add_argument("--proved", action="store_true", help="after `rt ci`, which ran the crates' tests: the calls of the proved program in their place, which is proved and built where it isn't")
    form.add_argument("--only", default="", metavar="WORD", help="those with this word in their names")
    words = form.parse_args()
    print(WHAT, flush=True)
    passed, failures = 0, []
    with tempfile.TemporaryDirectory() as folder, concurrent.futures.ThreadPoolExecutor(words.jobs) as pool:
        wanted = [check for check in checks(words.proved, without_hints(folder)) if words.only in check.name]
        begun = {pool.submit(timed, check): check for check in wanted}
        for done in concurrent.futures.as_completed(begun):
            result, seconds = done.result()
            passed += result.passed
            failures += result.failures
            summary = f"{begun[done].name}: {result.passed} passed, {len(result.failures)} failed, {seconds:.0f} s"
            print(summary, *result.untested, *result.failures, sep="\n", flush=True)
    print(f"{passed} passed, {len(failures)} failed")
    return 1 if failures or not passed else 0


if __name__ == "__main__":
    sys.exit(main())
