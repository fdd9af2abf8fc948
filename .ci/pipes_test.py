"""Captures that come through a pipe, in pieces of 1, 7 and 4,096 octets: `show`, `run` and `ripso_border` print what they print of a file, and end alike. Then a feeder
that pauses, whose packets are shown before it goes on, and pipes that can't be read twice. Prints `N passed, M failed`.

    python3 .ci/pipes_test.py [--proved]

By the proved programs, or else by unproved ones: both are called as they are installed.
"""
import os
import pathlib
import re
import subprocess
import sys
import tempfile
import threading
import time

sys.dont_write_bytecode = True
import calls
import made_captures

PROGRAMS = ["netlabel", "ripso_border", "netlabel_audit"]
PIECES = [1, 7, 4096]
# A capture that is larger is fed in larger pieces alone.
MOST_OCTETS = 20000
TWICE = "it is a pipe, which is read once, from its beginning to its end"
results = []


def tell(name, passed, detail=""):
    results.append(bool(passed))
    if not passed:
        print(f"failed: {name}: {detail}")


def read_by(call, folder):
    """The captures that a call reads, each once; none where it reads one twice, or none."""
    words = [os.fsdecode(word) for word in call.words]
    if call.program == "netlabel" and words[:1] == ["show"]:
        return words[1:2]
    if call.program == "ripso_border" and len(words) == 5:
        return words[3:4]
    if call.program == "netlabel" and words[:1] == ["run"] and (folder / words[1]).is_file():
        found = re.findall(r"^\s*flow\s+(\S+)", (folder / words[1]).read_text(errors="replace"), re.M)
        return found if len({*map(str, map((folder / ".").joinpath, found))}) == len(found) else []
    return []


def feed(pipe, octets, piece, pause=0.0):
    """Writes octets into a pipe, in pieces, from a thread of its own. Who doesn't read them to their end is no fault."""

    def write():
        try:
            with open(pipe, "wb", buffering=0) as end:
                for at in range(0, len(octets), piece):
                    end.write(octets[at : at + piece])
                    time.sleep(pause)
        except BrokenPipeError:
            pass

    thread = threading.Thread(target=write, daemon=True)
    thread.start()
    return thread


def through_pipes(call, scripts, piece):
    """A call whose captures come through pipes of their names. It gives None where it can't be made so."""
    with tempfile.TemporaryDirectory() as name:
        folder = pathlib.Path(name)
        call.prepare(folder)
        read = [folder / each for each in read_by(call, folder)]
        if not read or not all(each.is_file() and not each.is_symlink() and each.stat().st_nlink == 1 for each in read):
            return None
        octets = [each.read_bytes() for each in read]
        if piece < 4096 and sum(map(len, octets)) > MOST_OCTETS:
            return None
        for each, held in zip(read, octets):
            each.unlink()
            os.mkfifo(each)
            feed(each, held, piece)
        ran = subprocess.run([scripts / call.program, *call.words], cwd=folder, stdin=subprocess.DEVNULL, capture_output=True, timeout=120)
        made = {name: held for name, held in calls.held(folder).items() if name in call.left}
        return ran.returncode, ran.stdout, made


def test_rows(scripts):
    """Each call of the tables that reads its captures once. Where it ends before it has read them, nothing is said of them."""
    count = 0
    for call in [*calls.examples(), *calls.kernel_captures(), *calls.PCAPNG, *calls.BORDER]:
        for piece in PIECES if call.program in PROGRAMS and call.status in (0, 5) else []:
            found = through_pipes(call, scripts, piece)
            if found is None:
                continue
            count += 1
            tell(f"{call.name}, in pieces of {piece}", found == (call.status, call.report, call.left), found)
    tell("some sixty calls", count > 60, count)


def test_long_blocks(scripts, folder):
    """Blocks of pcapng that are longer than a window, before and after packets, whole and cut."""
    long = made_captures.block(0x80000001, bytes(200000))
    frame = made_captures.enhanced(5, calls.ARP)
    large = made_captures.enhanced(5, bytes(250000))
    for name, octets in {
        "a long block": calls.TWO_INTERFACES + long + frame,
        "a long packet": calls.TWO_INTERFACES + large + frame + large,
        "a long packet, cut": calls.TWO_INTERFACES + frame + large[:200000],
        "a long block, cut": calls.TWO_INTERFACES + frame + long[:70000],
        "a long block with another trailer": calls.TWO_INTERFACES + frame + long[:-1] + b"x",
    }.items():
        (folder / "m").write_bytes(octets)
        of_file = subprocess.run([scripts / "netlabel", "show", folder / "m"], capture_output=True)
        for piece in (1000, 65536):
            with subprocess.Popen([scripts / "netlabel", "show", "/dev/stdin"], stdin=subprocess.PIPE, stdout=subprocess.PIPE) as run:
                threading.Thread(target=lambda run=run: (run.stdin.write(octets), run.stdin.close()), daemon=True).start()
                printed = run.stdout.read()
            tell(f"{name}, by pieces of {piece}", (run.returncode, printed) == (of_file.returncode, of_file.stdout) and printed, (run.returncode, printed[:300]))


def test_pauses(scripts, folder):
    """The line of each packet comes before the feeder goes on."""
    octets = {"libpcap": calls.capture([calls.ARP] * 3), "pcapng": calls.TWO_INTERFACES + made_captures.enhanced(5, calls.ARP) * 3}
    for name, held in octets.items():
        with subprocess.Popen([scripts / "netlabel", "show", "/dev/stdin"], stdin=subprocess.PIPE, stdout=subprocess.PIPE) as run:
            size = len(made_captures.enhanced(5, calls.ARP)) if name == "pcapng" else 16 + len(calls.ARP)
            run.stdin.write(held[: len(held) - 3 * size])
            for number in range(1, 4):
                start = len(held) - (4 - number) * size
                run.stdin.write(held[start : start + size])
                run.stdin.flush()
                tell(f"{name}: packet {number} is shown in time", run.stdout.readline() == b"packet %d NotIp\n" % number)
            run.stdin.close()
            tell(f"{name}: its end", run.stdout.read() == b"end packets 3\n")


def test_twice(scripts, folder):
    """A pipe is read once: a second beginning is a failed read."""
    (folder / "s").write_bytes(calls.script("pipe -", "pipe -"))
    (folder / "other").write_bytes(calls.script("pipe -", "b.pcap -", "pipe -"))
    (folder / "b.pcap").write_bytes(calls.capture([calls.ARP]))
    (folder / "r").write_bytes(calls.WHOLE.replace(b"b.pcap", b"pipe") + b"done\n")
    (folder / "once").write_bytes(calls.script("pipe -"))
    for name, words in {"two flows": ["run", "s"], "two flows with another between": ["run", "other"], "an audit": ["once", "r", "4"]}.items():
        program = "netlabel" if words[0] == "run" else "netlabel_audit"
        os.mkfifo(folder / "pipe")
        feed(folder / "pipe", calls.capture([calls.ARP] * 3), 4096)
        ran = subprocess.run([scripts / program, *words], cwd=folder, stdin=subprocess.DEVNULL, capture_output=True, timeout=60)
        tell(f"a pipe for {name}", ran.returncode == 3 and ran.stderr.decode() == f"{program}: pipe: {TWICE}\n", ran)
        (folder / "pipe").unlink()


def main(find):
    with calls.installed({program: find(program) for program in PROGRAMS}) as scripts, tempfile.TemporaryDirectory() as name:
        test_rows(scripts)
        for test in (test_long_blocks, test_pauses, test_twice):
            test(scripts, pathlib.Path(name))
    print(f"{results.count(True)} passed, {results.count(False)} failed")
    return 0 if all(results) else 1


if __name__ == "__main__":
    sys.exit(main(calls.proved if "--proved" in sys.argv else calls.unproved))
