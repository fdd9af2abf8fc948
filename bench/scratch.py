"""A scratch copy of the repository, or of an earlier state of it, with one more crate: a benchmark program.

A program's text stands in the benchmark's Python file, since source of a crate stands under crates/ alone. What the working tree
has already proved (crates/*/out) is copied too, so that only the rest is proved again.
"""
import os
import pathlib
import shutil
import subprocess
import tarfile
import tempfile

TOP = pathlib.Path(__file__).resolve().parent.parent
CRATE = "bench_program"


def copied(folder, commit=None):
    """Copies crates/, crates.txt and HANDLES of the working tree, or of a commit, to this folder, and answers it."""
    folder.mkdir(parents=True)
    if commit:
        packed = subprocess.run(["git", "archive", commit, "crates", "crates.txt", "HANDLES"], cwd=TOP, capture_output=True, check=True).stdout
        with tempfile.TemporaryFile() as file:
            file.write(packed)
            file.seek(0)
            tarfile.open(fileobj=file).extractall(folder, filter="data")
        for out in TOP.glob("crates/*/out"):
            if (folder / "crates" / out.parent.name).is_dir():
                shutil.copytree(out, folder / "crates" / out.parent.name / "out", symlinks=True)
    else:
        shutil.copytree(TOP / "crates", folder / "crates", symlinks=True)
        for name in ("crates.txt", "HANDLES"):
            shutil.copy(TOP / name, folder)
    return folder


def built(folder, source, uses, proofs=None):
    """Adds the program with this text and these proof files, which uses these crates, proves and builds it, and answers where it lies."""
    crate = folder / "crates" / CRATE
    for name, text in {"src/main.rt": source, **{f"proofs/{name}": text for name, text in (proofs or {}).items()}}.items():
        (crate / name).parent.mkdir(parents=True, exist_ok=True)
        (crate / name).write_text(text)
    with (folder / "crates.txt").open("a") as crates:
        crates.write(f"{CRATE}: {uses}\n")
    run = subprocess.run(["rt", "run", "--", "--nothing"], cwd=crate, capture_output=True, text=True, stdin=subprocess.DEVNULL)
    program = crate / "out" / CRATE
    if not os.access(program, os.X_OK):
        raise SystemExit(f"the benchmark wasn't built:\n{run.stdout[-3000:]}{run.stderr[-3000:]}")
    return program


def load():
    """How busy the machine is: its load average over one minute, and its processors."""
    return f"load average {os.getloadavg()[0]:.1f} on {os.cpu_count()} processors"
