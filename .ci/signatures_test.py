"""Tests of the rules on signatures. Prints `N passed, M failed`."""
import sys

sys.dont_write_bytecode = True
import signatures

LONG = "x" * 100
# A source, and the lines of what is wrong in it.
CASES = {
    "seven arguments": ("fn f<F: Fn(u8, u8) -> u8>(a: u8, b: (u8, u8), c: &[u8], d: Map<u8, u8>, e: F, f: u8, g: u8) -> u8 {}\n", []),
    "an eighth": ("fn f(a: u8) {}\n\npub(crate) fn g(\n    &mut self,\n    b: u8, c: u8, d: u8, e: u8, f: u8, g: u8,\n    h: u8,\n);\n", [3]),
    "an eighth of a call for C": ('pub extern "C" fn f(a: u8, b: u8, c: u8, d: u8, e: u8, f: u8, g: u8, h: u8) {}\n', [1]),
    "a comma behind the last": ("fn f(\n    a: u8, b: u8, c: u8, d: u8,\n    e: u8, f: u8, g: u8,\n) {}\n", []),
    "a wide clause": (f"fn f()\n    requires a {{ b }}\n    ensures c {{ {LONG} }}\n{{}}\n", [3]),
    "its second line": (f"fn f()\n    ensures {{ a {{0}}\n        × {LONG} }}\n{{}}\n", [3]),
    "an invariant": (f"    ghost invariant = {{ λ s. {LONG} }};\n", [1]),
    "a wide body and a wide comment": (f'fn f()\n    ensures {{ a }} // {LONG}\n{{\n    let b = "{LONG}";\n}}\n', []),
}


def main():
    failed = 0
    for name, (source, lines) in CASES.items():
        told = list(signatures.faults({"crates/one/src/a.rt": source}))
        if [int(fault.split(":")[1]) for fault in told] != lines:
            failed += 1
            print(f"failed: {name}: {told}")
    print(f"{len(CASES) - failed} passed, {failed} failed")
    return 1 if failed else 0


if __name__ == "__main__":
    sys.exit(main())
