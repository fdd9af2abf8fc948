"""Tests of the library for C, by programs in C that link it: examples/c, the example of docs/library.md, and .ci/c_edges.c. Prints `N passed, M failed`.

    python3 .ci/c_test.py [--build]

The lines of examples/c are compared octet by octet with those of `netlabel show`. What can't be tried here is said to be left out: without a C compiler all
but the numbers of the header, without libpcap examples/c, and all where the library isn't built, or is older than its sources. `--build` proves and builds it.
"""
import os
import pathlib
import re
import shutil
import subprocess
import sys
import tempfile

sys.dont_write_bytecode = True
import calls

TOP = pathlib.Path(__file__).resolve().parent.parent
CRATE = TOP / "crates" / "netlabel_codec"
LIBRARY = CRATE / "out" / "libnetlabel_codec.a"
HEADER = TOP / "include" / "netlabel.h"
STRICT = ["-O2", "-g", "-Wall", "-Wextra", "-Werror"]
SANITIZED = ["-fsanitize=address,undefined", "-fno-sanitize-recover=undefined"]
# What `show` prints of each worked packet behind its number.
WORKED = {
    "PLAIN_4": "unlbl", "BITMAP_16": "cipsov4 doi 16 tag 1 s2:c1,c3 octet 20", "BITMAP_8": "cipsov4 doi 8 tag 1 s2:c1,c3 octet 20",
    "LIST_10": "cipsov4 doi 10 tag 2 s12:c4,c5 octet 20", "LABELLED_4": "cipsov4 doi 16 tag 1 s2:c1,c3 octet 20",
    "BEHIND_4": "cipsov4 doi 16 tag 1 s2:c1,c3 octet 21", "WRONG_SUM_4": "BadHeader octet 10", "CUT_4": "BadHeader octet 2",
    "MISALIGNED_4": "BadOption octet 28", "PLAIN_6": "unlbl", "CALIPSO_9": "calipso doi 9 s2:c1,c3 octet 42", "ALERT_6": "unlbl",
}
# Lower crates whose constants the header repeats, each with the header's name.
REPEATED = {
    "crates/mls_label/src/cat_set.rt": ("MOST_RUNS", "MOST_RUNS"),
    "crates/cipso_option/src/bounds.rt": ("MOST_OCTETS", "MOST_CIPSO"),
    "crates/calipso_option/src/bounds.rt": ("MOST_OCTETS", "MOST_CALIPSO"),
}
results = []


def tell(name, wrong):
    """What is wrong with something, if anything is."""
    results.append(not wrong)
    if wrong:
        print(f"failed: {name}: {wrong}")


def ran(words, **how):
    return subprocess.run(words, stdin=subprocess.DEVNULL, stdout=subprocess.PIPE, stderr=subprocess.PIPE, **how)


def faults_of(run):
    return "" if run.returncode == 0 and not run.stderr else f"status {run.returncode}: {run.stderr.decode(errors='replace')[-2000:]}"


# --- the header -------------------------------------------------------------------------------------------------------------------------------


def constant(file, name):
    return int(re.search(rf"^pub const {name}: \w+ = (\d+);", (TOP / file).read_text(), re.M)[1])


def code_constants():
    """The numbers that the code has for what the header names."""
    statuses = re.findall(r"Status::(\w+) => (\d+),", (CRATE / "src/status.rt").read_text())
    found = {re.sub(r"(?<!^)(?=[A-Z])", "_", name).upper(): int(number) for name, number in statuses}
    found.update({name: constant("crates/netlabel_codec/src/told.rt", name) for name in ("NONE", "CIPSO", "CALIPSO")})
    found.update({ours: constant(file, name) for file, (name, ours) in REPEATED.items()})
    return found


def test_numbers():
    named = {name: int(number) for name, number in re.findall(r"^#define NETLABEL_(\w+) (\d+)\b", HEADER.read_text(), re.M)}
    ours = code_constants()
    tell("the numbers of the header", "" if named == ours else f"{sorted(named.items() ^ ours.items())} differ from the code's")


# --- programs ---------------------------------------------------------------------------------------------------------------------------------


def compiled(name, source, folder, flags=()):
    """A program that links the library, or None; what the compiler said is a failure."""
    program = folder / name
    built = ran(["cc", *STRICT, *flags, f"-I{HEADER.parent}", source, LIBRARY, *(["-lpcap"] if name.startswith("labels") else []), "-o", program])
    tell(f"{name} compiles", faults_of(built))
    return program if built.returncode == 0 else None


def shown(labels, capture, report):
    run = ran([labels, capture])
    return faults_of(run) or ("" if run.stdout == report else f"printed {run.stdout[:2000]!r} for {report[:2000]!r}")


def worked_capture(folder):
    """A capture of the worked packets, each of which has its line here, with the report of it."""
    text = (TOP / "crates/worked_values/src/packets.rt").read_text()
    packets = {name: bytes.fromhex(digits) for name, digits in re.findall(r'pub const (\w+): &str =\s*"([0-9a-f]+)";', text) if name != "CAPTURE_HEAD"}
    tell("each worked packet has its line", "" if packets.keys() == WORKED.keys() else f"{packets.keys() ^ WORKED.keys()}")
    names = [name for name in packets if name in WORKED]
    path = folder / "worked.pcap"
    path.write_bytes(calls.capture([packets[name] for name in names], link=101))
    lines = [f"packet {number} {WORKED[name]}\n" for number, name in enumerate(names, 1)]
    return path, "".join([*lines, f"end packets {len(names)}\n"]).encode()


def test_labels(folder):
    """The lines of examples/c and of `netlabel show` are the same."""
    flags = {"labels": [], "labels-sanitized": SANITIZED}
    for name in flags:
        labels = compiled(name, TOP / "examples/c/labels.c", folder, flags[name])
        if not labels:
            continue
        capture, report = worked_capture(folder)
        tell(f"{name} of the worked packets", shown(labels, capture, report))
        for call in [*calls.examples(), *calls.kernel_captures()]:
            # libpcap reads no pcapng capture whose interfaces are of different kinds, as that of the example.
            if call.words[0] == b"show" and call.words[1].endswith(b".pcap") and not call.status:
                with tempfile.TemporaryDirectory() as made:
                    call.prepare(pathlib.Path(made))
                    tell(f"{name} of {call.name}", shown(labels, pathlib.Path(made) / os.fsdecode(call.words[1]), call.report))


def test_edges(folder):
    for name, flags in {"edges": [], "edges-sanitized": SANITIZED}.items():
        if program := compiled(name, TOP / ".ci/c_edges.c", folder, flags):
            tell(f"calls at the edges of memory ({name})", faults_of(ran([program])))


def test_page(folder):
    """The program of docs/library.md prints what the page says."""
    page = (TOP / "docs/library.md").read_text()
    source, printed = re.search(r"```c\n(.*?)```.*?```text\n(.*?)```", page, re.S).groups()
    (folder / "page.c").write_text(source)
    if program := compiled("page", folder / "page.c", folder, SANITIZED):
        run = ran([program])
        tell("the program of docs/library.md", faults_of(run) or ("" if run.stdout.decode() == printed else f"printed {run.stdout!r}"))


def is_current():
    """The library is built, and nothing of its crate or of a crate below is newer."""
    if not LIBRARY.exists():
        return False
    lines = re.findall(r"^(\w+)[^:\n]*:(.*)$", (TOP / "crates.txt").read_text(), re.M)
    uses = {name: below.split() for name, below in lines}
    crates, todo = set(), ["netlabel_codec"]
    while todo:
        name = todo.pop()
        if name in uses and name not in crates:
            crates.add(name)
            todo += uses[name]
    sources = [path for name in crates for part in ("src", "specs", "proofs") for path in (TOP / "crates" / name / part).rglob("*") if path.is_file()]
    return max(path.stat().st_mtime for path in sources if "tests" not in path.parts and path.name != "tests.rt") <= LIBRARY.stat().st_mtime


def build():
    """Proves and builds the library; what `rt` leaves as it was is as new as the sources that it read."""
    run = ran(["rt", "lib"], cwd=CRATE)
    text = run.stdout.decode(errors="replace")
    tell("rt lib", "" if run.returncode == 0 and LIBRARY.exists() else text[-2000:])
    if run.returncode == 0 and LIBRARY.exists():
        os.utime(LIBRARY)


def main():
    test_numbers()
    if "--build" in sys.argv:
        build()
    if not is_current():
        print("not tested: programs in C, since the library isn't built, or a source is newer: rt lib in crates/netlabel_codec proves and builds it")
    elif not shutil.which("cc"):
        print("not tested: programs in C, since there is no C compiler (cc)")
    else:
        with tempfile.TemporaryDirectory() as made:
            folder = pathlib.Path(made)
            test_edges(folder)
            test_page(folder)
            (folder / "pcap.c").write_text("#include <pcap/pcap.h>\nint main(void) { return !pcap_lib_version(); }\n")
            if ran(["cc", folder / "pcap.c", "-lpcap", "-o", folder / "pcap"]).returncode:
                print("not tested: examples/c, since libpcap and its headers aren't there")
            else:
                test_labels(folder)
    print(f"{sum(results)} passed, {len(results) - sum(results)} failed")
    return 0 if all(results) else 1


if __name__ == "__main__":
    sys.exit(main())
