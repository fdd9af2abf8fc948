"""How large the repository is: what a newcomer meets, and what the gate has to go through.

    python3 .ci/figures.py [--repo DIR] [--crates]

Product crates are all but tests (`*_tests`) and test material (`worked_*`). An edge is a product crate that another's line of crates.txt names; the chain is the
longest way along edges, in crates. Lines are those with text, of `src/` without tests, of `specs/` and of `proofs/`; lines to believe are as `.ci/trusted.py` counts.
`--crates` prints a row for each crate.
"""
import argparse
import functools
import pathlib
import re
import sys

sys.dont_write_bytecode = True
import trusted


def is_product(name):
    return not name.endswith("_tests") and not name.startswith("worked_")


def lines_of(folder, pattern, but=()):
    files = [path for path in folder.rglob(pattern) if not set(path.relative_to(folder).with_suffix("").parts) & set(but)]
    return sum(1 for path in files for line in path.read_text(encoding="utf-8").splitlines() if line.strip())


class Figures:
    def __init__(self, repo):
        self.repo = repo
        named = re.findall(r"^(\w+)[^:\n#]*:(.*)$", (repo / "crates.txt").read_text(encoding="utf-8"), re.M)
        self.crates = [name for name, _below in named]
        self.below = {name: [crate for crate in below.split() if crate in self.crates and is_product(crate)] for name, below in named}
        self.product = [name for name in self.crates if is_product(name)]

    @functools.cache
    def chain(self, name):
        return (*max((self.chain(crate) for crate in self.below[name]), key=len, default=()), name)

    def row(self, name):
        folder = self.repo / "crates" / name
        code, specs = lines_of(folder / "src", "*.rt", ["tests"]), lines_of(folder / "specs", "*.antt")
        return code, specs, lines_of(folder / "proofs", "*.antt", ["tests"]), len(list((folder / "must-fail").glob("*.edit")))


def main():
    form = argparse.ArgumentParser()
    form.add_argument("--repo", type=pathlib.Path, default=pathlib.Path(__file__).resolve().parent.parent)
    form.add_argument("--crates", action="store_true")
    asked = form.parse_args()
    figures = Figures(asked.repo)
    rows = {name: figures.row(name) for name in figures.crates}
    if asked.crates:
        print(f"{'crate':<18} {'below':>5} {'chain':>5} {'code':>6} {'specs':>6} {'proofs':>6} {'edits':>5}")
        for name, row in rows.items():
            print(f"{name:<18} {len(figures.below[name]):>5} {len(figures.chain(name)):>5} {row[0]:>6} {row[1]:>6} {row[2]:>6} {row[3]:>5}")
    house = trusted.House(asked.repo)
    reached = house.closure()
    longest = max((figures.chain(name) for name in figures.product), key=len)
    print(f"crates: {len(figures.crates)}, of them product {len(figures.product)}")
    print(f"edges: {sum(len(figures.below[name]) for name in figures.product)}")
    print(f"chain: {len(longest)} ({' '.join(longest)})")
    print(f"lines to believe: {sum(house.lines(reached, name)[0] for name in house.crates)}")
    for place, what in enumerate(("code", "specs", "proofs", "edits")):
        print(f"{what}: {sum(row[place] for row in rows.values())}, of them product {sum(rows[name][place] for name in figures.product)}")


if __name__ == "__main__":
    main()
