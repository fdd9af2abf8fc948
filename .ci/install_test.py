"""Tests of install.sh, its man pages and completions, with stand-ins for proved programs and the library in a copy of what they need. Prints
`N passed, M failed`."""
import os
import pathlib
import re
import shlex
import shutil
import subprocess
import sys
import tempfile

TOP = pathlib.Path(__file__).resolve().parent.parent
PARTS = ["install.sh", "lib", "include", "completions", "docs", "examples", "VERSION", "LICENSE", "LICENSE-MIT", "LICENSE-APACHE", "README.md", "CHANGELOG.md", "CONTRIBUTING.md", "netlabel", "netlabel_cover", "netlabel_audit", "netlabel_report", "ripso_border"]
INSTALLED = ["libexec/netlabel/run.sh", "libexec/netlabel/netlabel", "libexec/netlabel/netlabel_report", "bin/netlabel", "share/man/man1/netlabel.1", "share/bash-completion/completions/netlabel", "share/zsh/site-functions/_netlabel",
             "bin/netlabel_cover", "share/man/man1/netlabel_cover.1", "share/bash-completion/completions/netlabel_cover",
             "share/zsh/site-functions/_netlabel_cover", "bin/ripso_border", "share/man/man1/ripso_border.1",
             "share/bash-completion/completions/ripso_border", "share/zsh/site-functions/_ripso_border",
             "bin/netlabel_audit", "share/man/man1/netlabel_audit.1", "share/bash-completion/completions/netlabel_audit",
             "share/zsh/site-functions/_netlabel_audit",
             "bin/netlabel_report", "share/man/man1/netlabel_report.1",
             "share/bash-completion/completions/netlabel_report", "share/zsh/site-functions/_netlabel_report", "lib/libnetlabel_codec.a", "lib/pkgconfig/netlabel.pc", "include/netlabel.h",
             "share/man/man3/netlabel.3", "share/doc/netlabel/docs/guide.md", "share/doc/netlabel/LICENSE-MIT", "share/doc/netlabel/examples/site/site"]
# The crates of the programs, with the names that these are called by.
PROGRAMS = {"netlabel_run": "netlabel", "netlabel_cover": "netlabel_cover", "netlabel_audit": "netlabel_audit", "ripso_border_run": "ripso_border", "netlabel_report": "netlabel_report"}
LIBRARY = "netlabel_codec"
# What stands on the line, and the words that complete it, in a folder with the files below.
MADE_IN_PLACE = ["crossing/far.pcap", "ripso-border/passed.pcap", "c/labels"]
FILES = ["site", "site.pcap", "with blank", "-dash", "at:noon", "sub/one.pcap"]
COMPLETED = {
    "netlabel ": "agree check judge make run show", "netlabel s": "show", "netlabel show s": "site site.pcap sub", "netlabel run site": "site site.pcap",
    "netlabel run site ": "-w", "netlabel run site -w 1": "1 10 11 12 13 14 15 16", "netlabel judge ": "", "netlabel judge 16 s2:c0.c5 si": "site site.pcap",
    "netlabel make 7 ": "", "netlabel make 7 3 si": "site site.pcap", "netlabel agree si": "site site.pcap", "netlabel agree site ": "", "netlabel show sub/": "sub/one.pcap", "netlabel show w": "", "netlabel show site ": "", "netlabel frob s": "",
    "netlabel_report ": "-e -s csv denied json summary", "netlabel_report -e ": "-s csv denied json summary", "netlabel_report s": "summary", "netlabel_report -s si": "site site.pcap",
    "netlabel_report -e -s si": "site site.pcap", "netlabel_report -s site ": "csv denied json summary", "netlabel_report -e -s site j": "json", "netlabel_report -s site csv si": "site site.pcap", "netlabel_report -e json si": "site site.pcap",
    "netlabel_report denied site sub/": "sub/one.pcap", "netlabel_report csv -": "",
    "netlabel_cover si": "site site.pcap", "netlabel_cover sub/": "sub/one.pcap", "netlabel_cover -": "", "netlabel_cover site ": "",
    "ripso_border ": "in out", "ripso_border o": "out", "ripso_border in si": "site site.pcap", "ripso_border in site ": "",
    "ripso_border out site 16 sub/": "sub/one.pcap", "ripso_border in site 16 site.pcap s": "site site.pcap sub", "ripso_border in site 16 site.pcap o ": "",
    "netlabel_audit si": "site site.pcap", "netlabel_audit site si": "site site.pcap", "netlabel_audit site site 1": "1 10 11 12 13 14 15 16", "netlabel_audit site site 1 ": "",
    "netlabel show at:": "noon", "netlabel agree at:noon ": "", "netlabel_audit at:noon s": "site site.pcap sub", "netlabel_audit at:noon at:n": "noon", "netlabel_audit at:noon at:noon 2": "2",
    "netlabel_cover at:": "noon", "netlabel_report -s at:noon ": "csv denied json summary", "netlabel_report denied at:": "noon", "ripso_border in at:noon 16 at:": "noon",
}
BASH = r"""
. "$1"; complete -p "$3" >/dev/null || exit 9
COMP_LINE=$2 COMP_POINT=${#2}
# bash makes a word of each colon, and of what stands on its two sides
COMP_WORDS=(); for word in ${2//:/ : }; do COMP_WORDS+=("$word"); done
[[ $2 == *" " ]] && COMP_WORDS+=("")
COMP_CWORD=$((${#COMP_WORDS[@]} - 1)) "_$3"; printf '%s\n' "${COMPREPLY[@]}"
"""
results = []


def tell(name, passed, detail=""):
    results.append(passed)
    if not passed:
        print(f"failed: {name}: {detail}")


def run(*words, **how):
    return subprocess.run([str(word) for word in words], capture_output=True, text=True, **how)


def held(folder):
    return sorted(str(path.relative_to(folder)) for path in folder.rglob("*") if path.is_file())


def build(tree, crate):
    """A stand-in for the built program of a crate, which says whose it is."""
    program = tree / "crates" / crate / "out" / crate
    program.parent.mkdir()
    program.write_text(f"#!/bin/sh\necho {crate}\n")
    program.chmod(0o755)


# What stands in for the library: one call, and a program that makes it.
ONE_CALL = """#include "netlabel.h"
uint32_t netlabel_read_cipso(const uint8_t *octets, size_t length, struct netlabel_run *runs, size_t room, struct netlabel_label *label)
{
    (void)octets, (void)runs, (void)label;
    return (uint32_t)(length + room);
}
"""
CALLER = """#include <netlabel.h>
int main(void)
{
    struct netlabel_run runs[1];
    struct netlabel_label label;
    return netlabel_read_cipso((const uint8_t *)"", 1, runs, 1, &label) != 2;
}
"""


def build_library(tree):
    """A stand-in for the library; without a C compiler it is empty."""
    out = tree / "crates" / LIBRARY / "out"
    out.mkdir()
    library = out / f"lib{LIBRARY}.a"
    if not shutil.which("cc") or not shutil.which("ar"):
        return library.write_text("")
    (out / "call.c").write_text(ONE_CALL)
    made = run("cc", "-c", f"-I{tree}/include", out / "call.c", "-o", out / "call.o")
    tell("the stand-in for the library compiles", made.returncode == 0 and run("ar", "rc", library, out / "call.o").returncode == 0, made.stderr)


def test_library(tree, made):
    """A program in C finds header and library by pkg-config, below a prefix whose name is no plain word for sed."""
    if not all(shutil.which(tool) for tool in ("cc", "ar", "pkg-config")):
        return print("not tested: a C compiler, ar or pkg-config isn't on the path, so no program was linked by pkg-config")
    prefix = made / "a&b|c"
    run(tree / "install.sh", prefix)
    place = {**os.environ, "PKG_CONFIG_PATH": f"{prefix}/lib/pkgconfig"}
    version = run("pkg-config", "--modversion", "netlabel", env=place)
    tell("pkg-config knows the version", version.stdout == (TOP / "VERSION").read_text(), version)
    flags = shlex.split(run("pkg-config", "--cflags", "--libs", "netlabel", env=place).stdout)
    (made / "caller.c").write_text(CALLER)
    linked = run("cc", made / "caller.c", *flags, "-o", made / "caller")
    tell("a program in C links by pkg-config", linked.returncode == 0 and run(made / "caller").returncode == 0, f"{flags} {linked.stderr}")


def test_install(tree, made):
    prefix = made / "opt"
    for crate in PROGRAMS:
        refused = run(tree / "install.sh", prefix)
        tell(f"refuses where {crate} isn't proved", refused.returncode == 1 and "prove" in refused.stderr and not prefix.exists(), refused.stderr)
        build(tree, crate)
    refused = run(tree / "install.sh", prefix)
    tell("refuses where the library isn't proved", refused.returncode == 1 and LIBRARY in refused.stderr and not prefix.exists(), refused.stderr)
    build_library(tree)
    source = tree / "crates/netlabel_run/src/newer.rt"
    source.write_text("")
    os.utime(source, (2**32, 2**32))
    refused = run(tree / "install.sh", prefix)
    tell("refuses where a source is newer", refused.returncode == 1 and not prefix.exists(), refused.stderr)
    source.unlink()
    blocked = made / "blocked"
    blocked.write_text("")
    refused = run(tree / "install.sh", blocked)
    tell("refuses where it can't write", refused.returncode == 1 and "Nothing was changed" in refused.stderr, refused.stderr)
    tell("refuses a relative prefix", run(tree / "install.sh", "opt", cwd=made).returncode == 2)
    for made_in_place in MADE_IN_PLACE:
        (tree / "examples" / made_in_place).write_text("made in place")
    done = run(tree / "install.sh", "/usr", env={**os.environ, "DESTDIR": str(prefix)}, umask=0o077)
    there = held(prefix / "usr") if done.returncode == 0 else []
    closed = [path.relative_to(prefix) for path in prefix.rglob("*") if path.is_dir() and path.stat().st_mode & 0o777 != 0o755]
    tell("everybody may read the folders", bool(there) and not closed, closed)
    for made_in_place in MADE_IN_PLACE:
        tell(f"leaves out {made_in_place}, made in place", f"share/doc/netlabel/examples/{made_in_place}" not in there)
    tell("takes the inputs of examples", "share/doc/netlabel/examples/ripso-border/inside.pcap" in there)
    tell("puts each file below DESTDIR", all(name in there for name in INSTALLED), done.stderr)
    tell("leaves no half file", not strays(prefix / "usr", there))
    for crate, name in PROGRAMS.items():
        tell(f"{name} runs", run(prefix / "usr/bin" / name).stdout == f"{crate}\n")
    tell("no other program is there", len(list((prefix / "usr/bin").iterdir())) == len(PROGRAMS))
    version = (TOP / "VERSION").read_text().strip()
    for page in ("man1/netlabel.1", "man1/netlabel_cover.1", "man1/netlabel_audit.1", "man1/netlabel_report.1", "man1/ripso_border.1", "man3/netlabel.3"):
        tell(f"{page} has the version", f'"netlabel {version}"' in (prefix / "usr/share/man" / page).read_text())
    tell("pkg-config's file has the prefix without DESTDIR", (prefix / "usr/lib/pkgconfig/netlabel.pc").read_text().startswith("prefix=/usr\n"))
    run(tree / "install.sh", "--uninstall", "/usr", env={**os.environ, "DESTDIR": str(prefix)})
    tell("takes all away again", held(prefix) == [], held(prefix))


def strays(prefix, there):
    """Files that installing doesn't make."""
    named = re.compile(r"bin/\w+|libexec/netlabel/[\w.]+|lib/(pkgconfig/)?[\w.]+|include/netlabel\.h|share/(man/man[13]|bash-completion/completions|zsh/site-functions)/[\w.]+|share/doc/netlabel/.*")
    return [name for name in there if not named.fullmatch(name) or (re.search(r"\.\w{8}$", name) and not (TOP / name.removeprefix("share/doc/netlabel/")).exists())]


def test_odd_places(tree, made):
    """A link that is planted isn't followed, what fails leaves no half file, and odd names are refused in words."""
    prefix, victim = made / "planted", made / "victim"
    victim.write_text("kept")
    (prefix / "bin").mkdir(parents=True)
    for name in ("netlabel", "netlabel.new"):
        (prefix / "bin" / name).symlink_to(victim)
    done = run(tree / "install.sh", prefix)
    tell("no link that stands there is followed", done.returncode == 0 and victim.read_text() == "kept" and not (prefix / "bin/netlabel").is_symlink(), done.stderr)
    tools = made / "failing"
    tools.mkdir()
    (tools / "chmod").write_text('#!/bin/sh\nfor word; do case $word in */bin/ripso_border*) exit 1 ;; esac; done\nexec /bin/chmod "$@"\n')
    (tools / "chmod").chmod(0o755)
    failed = run(tree / "install.sh", made / "half", env={**os.environ, "PATH": f"{tools}:{os.environ['PATH']}"})
    tell("what fails leaves no half file", failed.returncode == 1 and not strays(made / "half", held(made / "half")), f"{failed} {held(made / 'half')}")
    for word, environment, wanted in ((f"{made}/a\nb", {}, "control character"), ("/usr", {"DESTDIR": "-d"}, "no absolute folder"), ("/usr", {"DESTDIR": f"{made}/a\nb"}, "control character")):
        refused = run(tree / "install.sh", word, env={**os.environ, **environment})
        tell(f"{word!r} {environment} is refused", refused.returncode == 1 and wanted in refused.stderr and "Nothing was changed" in refused.stderr, refused)
    refused = run(tree / "install.sh", "--uninstall", made / "nowhere")
    tell("nothing is taken away where nothing is", refused.returncode == 1 and "no file of netlabel" in refused.stderr and not refused.stdout, refused)


def test_pages():
    if not shutil.which("groff"):
        return print("not tested: groff isn't on the path, so the man pages' markup was skipped")
    for page in sorted((TOP / "docs").glob("*.[13]")):
        seen = run("groff", "-man", "-ww", "-z", page)
        tell(f"{page.name} has no warning", seen.returncode == 0 and not seen.stderr, seen.stderr)


def test_completions(folder):
    for line, wanted in COMPLETED.items():
        program = line.split()[0]
        seen = run("bash", "-c", BASH, "bash", TOP / f"completions/{program}.bash", line, program, cwd=folder)
        tell(f"bash completes {line!r}", sorted(seen.stdout.split()) == wanted.split(), f"{seen.stdout!r} {seen.stderr}")
    if not shutil.which("zsh"):
        return print("not tested: zsh isn't on the path, so the text of its completion was skipped")
    for completion in sorted((TOP / "completions").glob("*.zsh")):
        seen = run("zsh", "-n", completion)
        tell(f"zsh reads {completion.name}", seen.returncode == 0 and not seen.stderr, seen.stderr)


def main():
    with tempfile.TemporaryDirectory() as room:
        made = pathlib.Path(room)
        # Only folders of the repository that are named `tests` hold tests.
        tree = made / "tests" / "tree"
        tree.mkdir(parents=True)
        for part in PARTS:
            source = TOP / part
            shutil.copytree(source, tree / part) if source.is_dir() else shutil.copy(source, tree / part)
        for crate in [*PROGRAMS, LIBRARY, "ground"]:
            (tree / "crates" / crate / "src").mkdir(parents=True)
            (tree / "crates" / crate / "src" / ("main.rt" if crate in PROGRAMS else "lib.rt")).write_text("")
        (tree / "crates.txt").write_text("".join(f"{crate}: ground\n" for crate in [*PROGRAMS, f"{LIBRARY} staticlib"]) + "ground:\n")
        test_install(tree, made)
        test_library(tree, made)
        test_odd_places(tree, made)
        test_pages()
        folder = made / "files"
        for name in FILES:
            (folder / name).parent.mkdir(parents=True, exist_ok=True)
            (folder / name).write_text("")
        test_completions(folder)
    print(f"{results.count(True)} passed, {results.count(False)} failed")
    return 0 if all(results) else 1


if __name__ == "__main__":
    sys.exit(main())
