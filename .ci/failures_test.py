"""Calls that fail for what stands round them, or don't: rights, a full disk, what standard output is, signals, interrupted calls, outputs that are exchanged. Each has
its status, what it prints, and the line on standard error; the other failing calls stand in `calls.py`. Prints `N passed, M failed`.

    python3 .ci/failures_test.py [--proved]

By the proved programs, or else by unproved ones: both are called as they are installed.
"""
import contextlib
import errno
import os
import pathlib
import re
import resource
import shutil
import signal
import subprocess
import sys
import tempfile
import time

sys.dont_write_bytecode = True
import calls

PROGRAMS = ["netlabel", "netlabel_report", "ripso_border"]
# A user without rights, where the caller may become one.
NOBODY = 65534
UNWRITTEN = "standard output couldn't be written"
UNWRITTEN_OR_OUTPUT = "standard output or an output couldn't be written"
# A node that delivers what `make` makes.
NODE = """node a
cipsov4 add pass doi:16 tags:1,2,5
map add default protocol:cipsov4,16
receiver add address:10.0.0.2 domain:t level:s0-s255:c0.c65534
"""
results = []


def tell(name, passed, detail=""):
    results.append(bool(passed))
    if not passed:
        print(f"failed: {name}: {detail}")


class House:
    """The installed programs, and a folder with two captures and a script of one flow, which everybody may write."""

    def __init__(self, scripts, folder):
        self.scripts, self.folder = scripts, folder
        for name in ("b.pcap", "c.pcap"):
            (folder / name).write_bytes(calls.capture([calls.ARP]))
        (folder / "s").write_bytes(calls.script("b.pcap o.pcap"))
        (folder / "r").write_bytes(calls.WHOLE + b"done\n")
        folder.chmod(0o777)

    def call(self, program, *words, **how):
        """What a call gives: its status, what it prints, and what standard error says."""
        how = {"stdout": subprocess.PIPE, **how}
        ran = subprocess.run([self.scripts / program, *words], cwd=self.folder, stdin=subprocess.DEVNULL, stderr=subprocess.PIPE, **how)
        return ran.returncode, ran.stdout, ran.stderr.decode()

    def fails(self, name, program, words, status, why, report=b"", **how):
        """A call ends with this status, and says why."""
        found = self.call(program, *words, **how)
        tell(name, found == (status, report, f"{program}: {why}\n" if why else ""), found)


def test_output(house):
    """Standard output takes nothing, or nobody reads it."""
    with open("/dev/full", "wb") as full:
        for words in (["show", "b.pcap"], ["check", "s"], ["agree", "s", "1"], ["judge", "16", "s2", "b.pcap"]):
            house.fails(f"a full disk: {words[0]}", "netlabel", words, 4, UNWRITTEN, None, stdout=full)
        house.fails("a full disk: run", "netlabel", ["run", "s"], 4, UNWRITTEN_OR_OUTPUT, None, stdout=full)
        house.fails("a full disk: reports", "netlabel_report", ["summary", "r"], 4, UNWRITTEN, None, stdout=full)
        usage = "these words are in no form: see man netlabel (netlabel " + (calls.TOP / "VERSION").read_text().strip() + ", proved)"
        house.fails("a full disk: words that are in no form", "netlabel", ["help"], 1, usage, None, stdout=full)
    reader, writer = os.pipe()
    os.close(reader)
    house.fails("a pipe that nobody reads", "netlabel", ["show", "b.pcap"], 4, UNWRITTEN, None, stdout=writer)
    os.close(writer)


def test_rights(house):
    """What a user without rights can't read or make."""
    if os.getuid() != 0:
        return print("not tested: only root can become a user without rights")
    closed = house.folder / "closed"
    closed.mkdir(mode=0o700)
    for name in ("mine", "old"):
        shutil.copy(house.folder / "b.pcap", house.folder / name)
    (house.folder / "mine").chmod(0o600)
    (house.folder / "old").chmod(0o444)
    (house.folder / "later").write_bytes(calls.script("b.pcap o.pcap", "mine -"))
    other = {"user": NOBODY, "group": NOBODY, "extra_groups": []}
    refused = "Permission denied"
    house.fails("a capture that isn't the caller's", "netlabel", ["show", "mine"], 3, f"mine: {refused}", **other)
    house.fails("a script in a closed folder", "netlabel", ["check", "closed/s"], 3, f"closed/s: {refused}", **other)
    house.fails("an output that can't be written", "netlabel", ["make", "7", "3", "old"], 3, f"old: {refused}", **other)
    house.fails("an output in a closed folder", "netlabel", ["make", "7", "3", "closed/o"], 3, f"closed/o: {refused}", **other)
    house.folder.chmod(0o755)
    house.fails("an output in a folder that isn't the caller's", "netlabel", ["make", "7", "3", "o"], 3, "o: its folder can't be written", **other)
    house.folder.chmod(0o777)
    (house.folder / "o.pcap").unlink()
    house.fails("an input of a later flow", "netlabel", ["run", "later"], 3, f"mine: {refused}", calls.WHOLE + b"flow 2 mine\n", **other)
    house.fails("a report that isn't the caller's", "netlabel_report", ["summary", "r", "mine"], 3, f"mine: {refused}", None, stdout=subprocess.DEVNULL, **other)
    (house.folder / "border").write_bytes(calls.BORDER_SCRIPT)
    house.fails("an output of a border", "ripso_border", ["in", "border", "16", "b.pcap", "old"], 3, f"old: {refused}", **other)


@contextlib.contextmanager
def small_disk(folder):
    """A file system of one page below this folder, where the caller may have one."""
    folder.mkdir()
    mounted = subprocess.run(["mount", "-t", "tmpfs", "-o", "size=4k", "none", folder], capture_output=True).returncode == 0
    try:
        yield mounted
    finally:
        if mounted:
            subprocess.run(["umount", folder], check=True)


def make(house, packets, name="m.pcap"):
    """A capture of so many packets, which `receive` at the node of `labelled` delivers."""
    status, _, said = house.call("netlabel", "make", "7", str(packets), name)
    if status:
        raise RuntimeError(said)
    return house.folder / name


def test_disk(house):
    """A disk that is full in the middle of an output, or at its last octets: of 200 packets all wait for the one append at the flow's end."""
    make(house, 200)
    (house.folder / "last").write_text(NODE + "flow m.pcap disk/o.pcap receive:a,e\n")
    with small_disk(house.folder / "disk") as is_there:
        if not is_there:
            return print("not tested: no small file system can be mounted here, so no disk was full")
        house.fails("a full disk: a capture that is made", "netlabel", ["make", "7", "3000", "disk/o.pcap"], 4, UNWRITTEN_OR_OUTPUT)
        status, report, _ = house.call("netlabel", "run", "last")
        tell("a full disk at the last append", status == 4 and report.count(b"\npacket ") == 200 and b"\nend" not in report, (status, report[-200:]))


def limited(octets):
    """What a process does first that may write so many octets to a file."""
    return lambda: resource.setrlimit(resource.RLIMIT_FSIZE, (octets, octets))


def test_limit(house):
    """A limit on the size of files ends no program by a signal."""
    house.fails("a file past the limit on sizes", "netlabel", ["make", "7", "1000", "limited.pcap"], 4, UNWRITTEN_OR_OUTPUT, preexec_fn=limited(1024))
    with (house.folder / "printed").open("wb") as printed:
        make(house, 60)
        house.fails("a report past the limit on sizes", "netlabel", ["show", "m.pcap"], 4, UNWRITTEN, None, stdout=printed, preexec_fn=limited(1024))


def edges(folder):
    """The library of `edges.c`, where there is a compiler."""
    if not shutil.which("cc"):
        return None
    library = folder / "edges.so"
    subprocess.run(["cc", "-shared", "-fPIC", "-O1", "-o", library, pathlib.Path(__file__).with_name("edges.c"), "-ldl"], check=True)
    return library


def test_edges(house):
    """Calls that are interrupted, and errors that come late."""
    library = edges(house.folder)
    if not library:
        return print("not tested: there is no C compiler, so no call was interrupted and no error came late")
    make(house, 3000)
    (house.folder / "labelled").write_text(NODE + "flow m.pcap o.pcap receive:a,e\n")
    whole = house.call("netlabel", "run", "labelled")
    output = (house.folder / "o.pcap").read_bytes()
    loaded = {**os.environ, "LD_PRELOAD": str(library), "ASAN_OPTIONS": "detect_leaks=0:verify_asan_link_order=0"}
    found = house.call("netlabel", "run", "labelled", env={**loaded, "EDGES_INTERRUPT": "1"})
    tell("reads and writes that are interrupted", found == whole and (house.folder / "o.pcap").read_bytes() == output, (found[0], found[2]))
    for number in (errno.EIO, errno.ENOSPC):
        status, report, said = house.call("netlabel", "run", "labelled", env={**loaded, "EDGES_LATE": str(number)})
        wanted = [line for line in whole[1].splitlines(True) if not re.match(rb"end|done", line)]
        tell(f"{errno.errorcode[number]} that comes late", status == 4 and report == b"".join(wanted), (status, report[-200:], said))
        status, report, _ = house.call("netlabel", "make", "7", "60", "late.pcap", env={**loaded, "EDGES_LATE": str(number)})
        tell(f"{errno.errorcode[number]} that comes late in make", (status, report) == (4, b""), (status, report))


@contextlib.contextmanager
def half_way(house):
    """A call of `run` that has read half of a capture, and has made its output: the process, and the pipe that the other half goes to."""
    octets = make(house, 3000).read_bytes()
    pipe = house.folder / "half"
    os.mkfifo(pipe)
    (house.folder / "halves").write_text(NODE + "flow half o.pcap receive:a,e\n")
    output = house.folder / "o.pcap"
    output.unlink(missing_ok=True)
    report = (house.folder / "report").open("wb")
    with report, subprocess.Popen([house.scripts / "netlabel", "run", "halves"], cwd=house.folder, stdin=subprocess.DEVNULL, stdout=report, stderr=subprocess.PIPE) as begun:
        with pipe.open("wb") as feeder:
            feeder.write(octets[: len(octets) // 2])
            feeder.flush()
            while not output.exists() or not output.stat().st_size:
                time.sleep(0.05)
            yield begun, lambda: (feeder.write(octets[len(octets) // 2 :]), feeder.close())
    pipe.unlink()


def exchanged(house, name, put):
    """What is put under an output's name meanwhile receives nothing: the file that was made has all packets."""
    with half_way(house) as (begun, feed):
        output, first = house.folder / "o.pcap", house.folder / "first.pcap"
        output.rename(first)
        put(output)
        feed()
        status = begun.wait(timeout=60)
    shown = [house.call("netlabel", "show", path)[1] for path in ("m.pcap", "first.pcap")]
    tell(f"an output that is exchanged for {name}", status == 0 and shown[0] == shown[1] and shown[0].count(b"\n") > 3000, (status, [text[-100:] for text in shown]))
    return output


def test_exchange(house):
    """An output is the file that it was, whatever has its name meanwhile."""
    victim = house.folder / "victim"
    victim.write_bytes(b"kept")
    exchanged(house, "a link", lambda output: output.symlink_to(victim)).unlink()
    tell("what the link leads to", victim.read_bytes() == b"kept")
    exchanged(house, "a pipe", os.mkfifo).unlink()
    folder = exchanged(house, "a folder", lambda output: output.mkdir())
    tell("the folder", not list(folder.iterdir()))
    folder.rmdir()


def test_second_call(house):
    """An output that another call makes can't be made, nor emptied."""
    with half_way(house) as (begun, feed):
        before = (house.folder / "o.pcap").read_bytes()
        house.fails("an output that another call makes", "netlabel", ["make", "7", "3", "o.pcap"], 3, "o.pcap: another call makes it")
        tell("what that holds", (house.folder / "o.pcap").read_bytes().startswith(before))
        feed()
        tell("the call that makes it", begun.wait(timeout=60) == 0)


def enter(folder):
    """What a process does first that has this folder as its root."""
    return lambda: (os.chroot(folder), os.chdir("/"))


def test_no_devices(house):
    """Where neither /dev nor /proc is there, an output isn't the file that the report goes to."""
    if os.getuid() != 0:
        return print("not tested: only root can have another root folder, without devices")
    top = house.folder / "top"
    program = house.scripts.parent / "libexec/netlabel/netlabel"
    listed = subprocess.run(["ldd", program], capture_output=True, text=True).stdout
    for file in [program, *re.findall(r"(/\S+) \(0x", listed)]:
        (top / str(file)[1:]).parent.mkdir(parents=True, exist_ok=True)
        shutil.copy(file, top / str(file)[1:])
    for name in ("b.pcap", "s"):
        shutil.copy(house.folder / name, top)
    ran = {}
    for output in ("o.pcap", "other.pcap"):
        with (top / output).open("wb") as printed:
            how = {"stdin": subprocess.DEVNULL, "stdout": printed, "stderr": subprocess.DEVNULL, "env": {"ASAN_OPTIONS": "detect_leaks=0"}}
            ran[output] = subprocess.run([program, "run", "s"], preexec_fn=enter(top), **how).returncode
    tell("standard output without devices", ran["o.pcap"] == 3 and (top / "o.pcap").read_bytes() == b"flow 1 b.pcap\n", ran)


def heed_signals():
    """Takes signals as they come: whoever runs these tests may ignore some, as a shell does for what it runs in the background."""
    for number in (signal.SIGINT, signal.SIGTERM, signal.SIGHUP):
        signal.signal(number, signal.SIG_DFL)


@contextlib.contextmanager
def waiting(house, **how):
    """A call that waits for a pipe, once the program has begun."""
    os.mkfifo(house.folder / "pipe")
    quiet = {"stdin": subprocess.DEVNULL, "stdout": subprocess.DEVNULL, "stderr": subprocess.DEVNULL}
    with subprocess.Popen([house.scripts / "netlabel", "show", "pipe"], cwd=house.folder, preexec_fn=heed_signals, **quiet, **how) as begun:
        try:
            while not running(house):
                time.sleep(0.1)
            yield begun
        finally:
            begun.kill()
    (house.folder / "pipe").unlink()


def running(house):
    """The installed programs that run: the numbers of their processes."""
    found = []
    for words in pathlib.Path("/proc").glob("[0-9]*/cmdline"):
        with contextlib.suppress(OSError):
            if words.read_bytes().startswith(os.fsencode(house.scripts.parent / "libexec")):
                found.append(int(words.parent.name))
    return found


def has_ended(house):
    """Whether no program runs, within five seconds."""
    for _ in range(50):
        if not running(house):
            return True
        time.sleep(0.1)
    return False


def test_signals(house):
    """A signal to the script ends the program too, and one that ends the program ends the script."""
    for number in (signal.SIGTERM, signal.SIGKILL, signal.SIGHUP):
        with waiting(house) as begun:
            begun.send_signal(number)
            tell(f"{number.name} to the script", begun.wait(timeout=10) == -number and has_ended(house), begun.returncode)
    with waiting(house, start_new_session=True) as begun:
        os.killpg(begun.pid, signal.SIGINT)
        tell("Ctrl-C", begun.wait(timeout=10) == -signal.SIGINT and has_ended(house), begun.returncode)
    with waiting(house) as begun:
        os.kill(*running(house), signal.SIGUSR1)
        tell("a program that a signal ends", begun.wait(timeout=10) == -signal.SIGUSR1, begun.returncode)


def main(find):
    with calls.installed({program: find(program) for program in PROGRAMS}) as scripts, tempfile.TemporaryDirectory() as name:
        house = House(scripts, pathlib.Path(name))
        for test in (test_output, test_rights, test_disk, test_limit, test_edges, test_exchange, test_second_call, test_no_devices, test_signals):
            test(house)
    print(f"{results.count(True)} passed, {results.count(False)} failed")
    return 0 if all(results) else 1


if __name__ == "__main__":
    sys.exit(main(calls.proved if "--proved" in sys.argv else calls.unproved))
