"""Tests of `.ci/trusted.py` and `.ci/headline.py` over a small repository of their own: each finding, and what one clause reaches. Prints `N passed, M failed`."""
import pathlib
import re
import subprocess
import sys
import tempfile

sys.dont_write_bytecode = True
import headline
import house
import trusted

TOOL = pathlib.Path(__file__).resolve().parent / "trusted.py"
results = []

# Three crates. What is found in them stands once for each finding, beside what is right and looks like it.
TREE = {
    ".ci/one-name.txt": "# agreed\nIsAgreed two of them are one\n",
    "crates.txt": "# crate: those below\nground:\nmls_label:\nupper: ground mls_label\n",
    "crates/mls_label/src/lib.rt": "//! Lemmas alone.\n\npub mod octet_grammar;\n",
    "crates/mls_label/src/octet_grammar.rt": "//! Octets.\n",
    "crates/mls_label/proofs/octet_grammar/Fronts.antt": "abbrev pub shared : ℕ\nshared = 0\n",
    "crates/mls_label/specs/octet_grammar/inside/Own.antt": "abbrev pub own : ℕ\nown = 0\n",
    "crates/ground/src/lib.rt": """//! Reads.
mod label;
mod laws;
mod reading;

pub use label::{Label, Sink};
pub use reading::read;
#[cfg(test)]
mod tests;
""",
    "crates/ground/src/laws.rt": """ghost use Rattle.ground.specs.Text.{IsUnread};

pub fn law()
    ensures { IsUnread 0 }
{
}
""",
    "crates/ground/src/tests.rt": """impl Level {
    ghost use Rattle.ground.specs.inside.Hidden.{is_private};

    pub fn helper()
        ensures { is_private }
    {
    }
}
""",
    "crates/ground/src/label.rt": """/// A label, seen as a number.
pub struct Label {
    pub level: Level,
    kept: Kept,
}

impl Model for Label {
    ghost use Rattle.ground.specs.Label.{LabelValue};

    ghost Value = { LabelValue };

    ghost view = { λ l. l.kept };
}

pub enum Level {
    Low,
}

impl Level {
    ghost use Rattle.ground.specs.Label.{IsLevel, has_rank};
    ghost use Rattle.ground.specs.inside.Hidden.{is_private};

    pub fn rank(&self) -> u8
        requires { has_rank self.now }
        ensures rank { IsLevel result }
    {
        self.hidden()
    }

    fn hidden(&self) -> u8
        ensures { is_private }
    {
        0
    }

    pub(crate) fn shared(&self) -> u8
        ensures { is_private }
    {
        0
    }
}

struct Kept;

impl Kept {
    ghost use Rattle.ground.specs.inside.Hidden.{is_private};

    pub fn number(&self) -> u8
        ensures { is_private }
    {
        0
    }
}

pub trait Sink {
    ghost use Rattle.ground.specs.Label.{SinkState, Takes};

    ghost state: { Self → SinkState };

    fn take(&mut self)
        ensures { Takes self.old };
}
""",
    "crates/ground/src/reading.rt": """ghost use Rattle.ground.specs.Text.{IsText};
ghost use Rattle.ground.specs.inside.Hidden.{is_private};

/// `ensures { is_private }` is a comment here.
pub extern "C" fn read(text: &str) -> Result<u8, Label>
    ensures ok { IsText text.now result }
{
    step("ensures { is_private }")
}

pub(crate) fn step(text: &str) -> u8
    ensures { is_private }
{
    0
}
""",
    "crates/ground/specs/Label.antt": """-- Labels.
pub record LabelValue : Type 0 where
  pub level : ℕ

abbrev pub IsLevel : ℕ → Type 0
IsLevel n = n ≡ 0

abbrev pub has_rank : ℕ → Type 0
has_rank n = ⊥

-- two fields, and one comment inside
pub record SinkState : Type 0 where
  pub tells : ℕ
  -- all of it
  pub written : ℕ

abbrev pub Takes : ℕ → Type 0
Takes state = ⊥
""",
    "crates/ground/specs/Text.antt": """-- Texts.
use Rattle.std.specs.Prelude.{ℕ, ◌≡◌}
use Rattle.ground.specs.inside.Hidden.{IsHidden}
use Rattle.ground.proofs.Lemma.{
  is_proved,
}

-- a text with this value
abbrev pub IsText : List ℕ → ℕ → Type 0
IsText text value = IsHidden text × (is_proved value ≡ value)

abbrev pub IsUnread : ℕ → Type 0
IsUnread n = ⊥

-- nobody cites it
abbrev pub IsLost : ℕ → Type 0
IsLost n = ⊥

abbrev pub IsShared : ℕ → Type 0
IsShared n = ⊥

abbrev pub IsAgreed : ℕ → Type 0
IsAgreed n = ⊥

-- the parameter
abbrev pub Limit : Type 0
Limit = ℕ

-- what stands in a block has its parameter
module _ (limit : Limit) where
  abbrev pub is_short : ℕ → Type 0
  is_short n = IsShared n

  abbrev pub is_long : ℕ → Type 0
  is_long n = IsAgreed n
""",
    "crates/ground/specs/inside/Hidden.antt": """-- What private clauses cite.
abbrev pub IsHidden : List ℕ → Type 0
IsHidden text = ⊥

abbrev pub is_private : Type 0
is_private = ⊥
""",
    "crates/ground/proofs/Lemma.antt": "abbrev pub is_proved : ℕ → ℕ\nis_proved n = n\n",
    "crates/ground/proofs/Law.antt": "abbrev pub law : ℕ\nlaw = 0\n",
    "crates/ground/out/Old.antt": "use Rattle.upper.proofs.Uses.{used}\n",
    "crates/upper/src/lib.rt": "mod command;\npub mod laws;\nmod top;\n\npub use crate::top::{\n    answer,\n};\n",
    "crates/upper/src/command.rt": "pub(crate) enum Command {\n    Show,\n    Check,\n    Run,\n}\n",
    "crates/upper/src/laws.rt": "pub fn law()\n    ensures { Rattle.upper.specs.Answer.IsShared 0 }\n{\n}\n",
    "crates/upper/src/top.rt": """ghost use Rattle.upper.specs.declared.command.Command.{Command as Asked};
ghost use Rattle.upper.specs.Answer.{IsAnswer};
ghost use Rattle.mls_label.specs.octet_grammar.inside.Own.{own};

pub fn answer() -> u8
    requires { ⊤ }
    ensures { (asked : Option Asked) × IsAnswer asked result }
{
    0
}
""",
    "crates/upper/specs/Answer.antt": """-- What a call answers.
use Rattle.upper.specs.declared.command.Command.{Command}
use Rattle.upper.specs.declared.command.Command.TheVariants.{Show, Check}
use Rattle.upper.specs.declared.command.Command.TheVariants as asked
use Rattle.upper.specs.All.{Says, upper_says, shown}
use Rattle.ground.specs.Text.{is_short, is_long}
use Rattle.ground.specs.Text as text
use Rattle.ground.specs.inside.Hidden.{is_private}

-- the same word as one of ground's
abbrev pub IsShared : ℕ → Type 0
IsShared n = IsAgreed n

abbrev pub IsAgreed : ℕ → Type 0
IsAgreed n = ⊥

-- cases of its own
abbrev pub HasReport : Option Command → ℕ → Type 0
HasReport None result = IsUsage result
HasReport (Some (Show file)) result = shown
    file result
HasReport (Some (Check file)) result = is_short 0 result
HasReport (Some (asked.Run file workers)) result = is_long 0 result

abbrev pub IsUsage : ℕ → Type 0
IsUsage result = result ≡ 1

-- both ways to say what a command does
pub record IsAnswer (request : Option Command) (result : ℕ) : Type 0 where
  pub has : HasReport request result
  pub says : Says.status (upper_says request) ≡ result × (text.IsText [] result → ⊥)
""",
    "crates/upper/specs/All.antt": "pub use Rattle.upper.specs.Says.{Says, upper_says, shown}\n",
    "crates/upper/specs/Says.antt": """-- A record for each command, and one dispatcher.
use Rattle.upper.specs.declared.command.Command.TheVariants as asked

pub record Says : Type 0 where
  pub status : ℕ

abbrev pub show_says : Says
show_says = record { status = known }

-- each command
abbrev pub upper_says : Option Command → Says
upper_says None = record { status = 1 }
upper_says (Some (asked.Show file)) = show_says
upper_says (Some (asked.Check file)) = check_says
upper_says (Some (asked.Run file workers)) = run_says workers

abbrev pub check_says : Says
check_says = record { status = known }

pub data Ran : ℕ → Type 0 where
  once : Ran 1

abbrev pub run_says : ℕ → Says
run_says once = record { status = 3 }

-- shared by two of them
abbrev pub known : ℕ
known = 2

abbrev pub shown : List ℕ → ℕ → Type 0
shown file result = ⊥
""",
    "crates/upper/proofs/Uses.antt": """-- Rattle.ground.proofs.Lemma is named in a comment
use Rattle.ground.proofs.Lemma.{is_proved}
use Rattle.ground.proofs.Law.{law}
use Rattle.mls_label.proofs.octet_grammar.Fronts.{shared}
use Rattle.upper.proofs.Own.{other}
""",
}

# Each finding of the docstring of trusted.py, once.
FINDINGS = [
    "crates/ground/src/lib.rt:3: `laws`: the module of laws isn't public",
    "crates/ground/specs/Text.antt:12: `IsUnread`: stands in specs/, and no public clause cites it",
    "crates/ground/specs/Text.antt:16: `IsLost`: stands in specs/, and no public clause cites it",
    "crates/ground/specs/inside/Hidden.antt:2: `IsHidden`: stands inside, and is cited by IsText, crates/ground/src/reading.rt:6 (read, ensures ok)",
    "crates/ground/proofs/Lemma.antt:1: `is_proved`: stands inside, and is cited by IsText, crates/ground/src/reading.rt:6 (read, ensures ok)",
    "crates/upper/proofs/Uses.antt:2: `Rattle.ground.proofs.Lemma`: upper cites what ground keeps to itself",
    "crates/upper/specs/Answer.antt:8: `Rattle.ground.specs.inside.Hidden`: upper cites what ground keeps to itself",
    "crates/upper/src/top.rt:3: `Rattle.mls_label.specs.octet_grammar.inside.Own`: upper cites what mls_label keeps to itself",
    "`IsShared` means 2 things: crates/upper/specs/Answer.antt:11, crates/ground/specs/Text.antt:19",
]
COUNTS = {"ground": "28 6 13", "mls_label": "0 0 0", "upper": "34 5 13", "all": "62 11 26"}
CITED = {
    "ground/proofs/Lemma.antt": "1 is_proved",
    "ground/specs/Label.antt": "2 LabelValue 5 IsLevel 8 has_rank 12 SinkState 17 Takes",
    "ground/specs/Text.antt": "9 IsText 19 IsShared 22 IsAgreed 26 Limit 31 is_short 34 is_long",
    "ground/specs/inside/Hidden.antt": "2 IsHidden",
    "upper/specs/Answer.antt": "11 IsShared 14 IsAgreed 18 HasReport 25 IsUsage 29 IsAnswer",
    "upper/specs/Says.antt": "4 Says 7 show_says 11 upper_says 17 check_says 20 Ran 23 run_says 27 known 30 shown",
}

FRAME = """\
frame:
  crates/upper/specs/Answer.antt: definitions 3, lines 11
    crates/upper/specs/Answer.antt:18: HasReport
    crates/upper/specs/Answer.antt:25: IsUsage
    crates/upper/specs/Answer.antt:29: IsAnswer
  crates/upper/specs/Says.antt: definitions 2, lines 7
    crates/upper/specs/Says.antt:4: Says
    crates/upper/specs/Says.antt:11: upper_says
  crates/ground/specs/Text.antt: definitions 1, lines 2
    crates/ground/specs/Text.antt:9: IsText
  crates/ground/specs/inside/Hidden.antt: definitions 1, lines 2
    crates/ground/specs/inside/Hidden.antt:2: IsHidden
  crates/ground/proofs/Lemma.antt: definitions 1, lines 2
    crates/ground/proofs/Lemma.antt:1: is_proved

"""
SHOW = """\
show:
  crates/upper/specs/Says.antt: definitions 3, lines 6
    crates/upper/specs/Says.antt:7: show_says
    crates/upper/specs/Says.antt:27: known
    crates/upper/specs/Says.antt:30: shown

"""
CHECK = """\
check:
  crates/ground/specs/Text.antt: definitions 3, lines 7
    crates/ground/specs/Text.antt:19: IsShared
    crates/ground/specs/Text.antt:26: Limit
    crates/ground/specs/Text.antt:31: is_short
  crates/upper/specs/Says.antt: definitions 1, lines 2
    crates/upper/specs/Says.antt:17: check_says

"""
RUN = """\
run:
  crates/ground/specs/Text.antt: definitions 2, lines 4
    crates/ground/specs/Text.antt:22: IsAgreed
    crates/ground/specs/Text.antt:34: is_long
  crates/upper/specs/Says.antt: definitions 2, lines 4
    crates/upper/specs/Says.antt:20: Ran
    crates/upper/specs/Says.antt:23: run_says

"""
ALL = """\
part        definitions  files  lines
frame                 8      5     24
show                  3      1      6
check                 4      2      9
run                   4      2      8
all                  19      5     47
"""
# The same for `check` alone, and what has no comment for `show`.
CHECK_ALONE = """\
part        definitions  files  lines
frame                 8      5     24
check                 5      2     11
all                  13      5     35
"""
BARE = """\
frame:
  crates/upper/specs/Answer.antt: definitions 1, lines 2
    crates/upper/specs/Answer.antt:25: IsUsage
  crates/upper/specs/Says.antt: definitions 1, lines 2
    crates/upper/specs/Says.antt:4: Says
  crates/ground/proofs/Lemma.antt: definitions 1, lines 2
    crates/ground/proofs/Lemma.antt:1: is_proved

show:
  crates/upper/specs/Says.antt: definitions 2, lines 4
    crates/upper/specs/Says.antt:7: show_says
    crates/upper/specs/Says.antt:30: shown

part        definitions  files  lines
frame                 3      3      6
show                  2      1      4
all                   5      3     10
"""

PAGE = """\
# Page

    ensures { old
        text }

    another block

| Part | Definitions | Files | Lines | With the frame alone |
|---|---|---|---|---|

| Named beside | Number |
|---|---|

## Frame

| Files | What to look for | Definitions | Lines |
|---|---|---|---|
| `ground` Text; `gone` Text | the ground | 4 | 6 |
| `upper` Answer | the answer | 0 | 0 |

## `show`

| Files | What to look for | Definitions | Lines |
|---|---|---|---|
| `gone` Old | what was there | 1 | 1 |
| `upper` Says | the record | 3 | 6 |

## `check`

| Files | What to look for | Definitions | Lines |
|---|---|---|---|
| `ground`, `upper` | the test | 0 | 0 |

## `run`

| Files | What to look for | Definitions | Lines |
|---|---|---|---|
| `ground`, `upper` | the way | 0 | 0 |

## Other

| Crate | Number |
|---|---|
| `ground` | 1 |
"""
WRITTEN = """\
# Page

    ensures { (asked : Option Asked) × IsAnswer asked result }

    another block

| Part | Definitions | Files | Lines | With the frame alone |
|---|---|---|---|---|
| [frame](#frame) | 8 | 5 | 24 | 8 |
| [show](#show) | 3 | 1 | 6 | 11 |
| [check](#check) | 4 | 2 | 9 | 13 |
| [run](#run) | 4 | 2 | 8 | 13 |
| all | 19 | 5 | 47 | 19 |

| Named beside | Number |
|---|---|
| types and constants of the code | 1 in 1 files |
| words of the kit's `std` | 2 |

## Frame

| Files | What to look for | Definitions | Lines |
|---|---|---|---|
| `upper` Answer, Says | the answer | 5 | 18 |
| `ground` Text, inside/Hidden, proofs/Lemma | the ground | 3 | 6 |

## `show`

| Files | What to look for | Definitions | Lines |
|---|---|---|---|
| `upper` Says | the record | 3 | 6 |

## `check`

| Files | What to look for | Definitions | Lines |
|---|---|---|---|
| `ground` Text; `upper` Says | the test | 4 | 9 |

## `run`

| Files | What to look for | Definitions | Lines |
|---|---|---|---|
| `ground` Text; `upper` Says | the way | 4 | 8 |

## Other

| Crate | Number |
|---|---|
| `ground` | 1 |
"""


def tell(name, seen, wanted):
    results.append(seen == wanted)
    if seen != wanted:
        print(f"failed: {name}:\n{seen}\nwanted:\n{wanted}")


def called(repo, *words):
    ran = subprocess.run([sys.executable, TOOL, "--repo", repo, *words], capture_output=True, text=True)
    return ran.returncode, ran.stdout + ran.stderr


def test_findings(repo):
    status, printed = called(repo)
    counts, _, found = printed.partition("\n\n")
    tell("each finding once", (status, found.splitlines()), (1, FINDINGS))
    tell("trusted lines", {name: " ".join(row) for name, *row in map(str.split, counts.splitlines()[1:])}, COUNTS)
    tell("findings of one crate", called(repo, "mls_label")[1].splitlines()[-1], "trusted text stands apart")
    cited = [line.removeprefix("crates/") for line in called(repo, "--cited")[1].split("crate ")[0].splitlines()]
    wanted = [f"{file}:{line}: {name}" for file, words in CITED.items() for line, name in zip(words.split()[::2], words.split()[1::2])]
    tell("cited definitions", cited, wanted)
    tell("who cites a word", called(repo, "--why", "known")[1], "crates/upper/specs/Says.antt:27: cited by show_says, upper_says, IsAnswer, crates/upper/src/top.rt:7 (answer, ensures)\n")
    tell("who cites a lost word", called(repo, "--why", "IsLost")[1], "crates/ground/specs/Text.antt:16: no public clause cites it\n")


def test_reading(repo):
    tell("what a clause reaches", called(repo, "--from", "answer"), (0, FRAME + SHOW + CHECK + RUN + ALL))
    alone = CHECK.replace("definitions 1, lines 2\n    crates/upper/specs/Says.antt:17: check_says", "definitions 2, lines 4\n    crates/upper/specs/Says.antt:17: check_says\n    crates/upper/specs/Says.antt:27: known")
    tell("what it reaches of one command", called(repo, "--from", "answer", "--command", "check"), (0, FRAME + alone + CHECK_ALONE))
    tell("what has no comment", called(repo, "--from", "answer", "--command", "show", "--bare"), (0, BARE))
    beside = "types and constants of the code:\n  crates/upper/src/command.rt:1: Command\nwords of the kit:\n  std: ℕ, ◌≡◌\n"
    tell("what is named beside", called(repo, "--from", "answer", "--beside")[1].partition("\n\n" + ALL)[2].lstrip("\n"), beside)
    tell("a clause without commands", called(repo, "--from", "read")[1].splitlines()[-1].split(), ["all", "3", "3", "6"])


def test_refusals(repo):
    tell("no such function", called(repo, "--from", "step"), (1, "no public clause of a function `step`\n"))
    tell("no such command", called(repo, "--from", "answer", "--command", "judge"), (1, "no such command: judge, but show, check, run\n"))
    tell("no such crate", called(repo, "nowhere"), (1, "no such crate: nowhere\n"))


def test_arrow():
    scope = house.Scope()
    scope.add("Rattle.ground.specs.Steps.{◌>>=◌}")
    tell("the arrow of a do", scope.find("←"), [("Rattle", "ground", "specs", "Steps", "◌>>=◌")])


def test_page(repo):
    counts = headline.counted(trusted.House(repo), "answer")
    tell("the page's tables", headline.written(PAGE, counts), WRITTEN)
    tell("a right page", faults_of(WRITTEN, counts), [])
    row = "| `upper` Says | the record | 3 | 6 |"
    tell("a false number", faults_of(WRITTEN.replace(row, row.replace("3", "4")), counts), [f"false: {row.replace('3', '4')}", f"lacks: {row}"])
    tell("another clause", faults_of(WRITTEN.replace("× IsAnswer", "× IsOther"), counts),
         ["false:     ensures { (asked : Option Asked) × IsOther asked result }", "lacks:     ensures { (asked : Option Asked) × IsAnswer asked result }"])
    tell("a row that is gone", faults_of(WRITTEN.replace(row + "\n", ""), counts), ["lacks: | `upper` Says |  | 3 | 6 |"])
    tell("a crate that a part doesn't have", faults_of(WRITTEN.replace(row, row + "\n| `gone` Old | what was there | 1 | 1 |"), counts), ["false: | `gone` Old | what was there | 1 | 1 |"])
    tell("a row twice", faults_of(WRITTEN.replace(row, row + "\n" + row), counts), [f"false: {row}"])
    first, second = "| `upper` Answer, Says | the answer | 5 | 18 |", "| `ground` Text, inside/Hidden, proofs/Lemma | the ground | 3 | 6 |"
    tell("rows out of order", faults_of(WRITTEN.replace(f"{first}\n{second}", f"{second}\n{first}"), counts), ["its rows aren't in reading order"])
    tell("nothing said of a crate", faults_of(WRITTEN.replace("the record", ""), counts), ["doesn't say what to look for: | `upper` Says |  | 3 | 6 |"])
    tell("a part that isn't there", faults_of(WRITTEN.replace("## `show`", "## Shown"), counts), ["no part on show"])


def faults_of(page, counts):
    """What is wrong with a page, without the places."""
    return [re.sub(r"^docs/headline\.md(:\d+)?: ", "", fault) for fault in headline.faults(page, counts)]


def main():
    with tempfile.TemporaryDirectory() as folder:
        repo = pathlib.Path(folder)
        for name, text in TREE.items():
            (repo / name).parent.mkdir(parents=True, exist_ok=True)
            (repo / name).write_text(text, encoding="utf-8")
        test_findings(repo)
        test_reading(repo)
        test_refusals(repo)
        test_arrow()
        test_page(repo)
    print(f"{results.count(True)} passed, {results.count(False)} failed")
    return 0 if all(results) else 1


if __name__ == "__main__":
    sys.exit(main())
