#!/usr/bin/env python3
"""AIGER files that other tools write, and the program's verdicts beside ABC's.

Usage: real_aiger.py [PROGRAM] [--folder DIR]

Yosys makes circuits of small Verilog texts and writes them in both forms with symbols; ABC rewrites them and writes them in
binary with symbols and its comment. Each pair is checked by the program and by ABC (`berkeley-abc -q "cec -n A B"`), and one with
an output turned too. Where a tool isn't installed its files are left out. With --folder the files stay there, for
fuzz/reader.py. Status 1 where a verdict differs.
"""
import argparse
import shutil
import subprocess
import sys
import tempfile
from pathlib import Path

sys.path.insert(0, str(Path(__file__).resolve().parent))
import house

DESIGNS = {
    "adder": "module t(input [3:0] a, b, output [4:0] s); assign s = a + b; endmodule",
    "less": "module t(input [3:0] a, b, output l, e); assign l = a < b; assign e = a == b; endmodule",
    "select": "module t(input [2:0] s, input [7:0] x, output y); assign y = x[s]; endmodule",
    "parity": "module t(input [7:0] x, output p, n); assign p = ^x; assign n = ~^x; endmodule",
    "wires": "module t(input a, b, output c, d, e); assign c = a; assign d = ~b; assign e = 1'b1; endmodule",
}


def ran(command, folder):
    return subprocess.run(command, cwd=folder, capture_output=True, text=True, timeout=120)


def made(folder, yosys, abc):
    """The names of each design's files, which compute the same."""
    families = []
    for name, text in DESIGNS.items():
        Path(folder, f"{name}.v").write_text(text + "\n")
        names = []
        if yosys:
            script = f"read_verilog {name}.v; synth -flatten -top t; aigmap; write_aiger -symbols {name}.aig; write_aiger -ascii -symbols {name}.aag"
            done = ran([yosys, "-q", "-p", script], folder)
            if done.returncode:
                print(done.stderr)
                raise SystemExit(1)
            names += [f"{name}.aig", f"{name}.aag"]
        if abc and names:
            ran([abc, "-q", f"read_aiger {name}.aig; strash; dc2; write_aiger -s {name}.abc.aig"], folder)
            ran([abc, "-q", f"read_aiger {name}.aig; strash; balance; write_aiger {name}.plain.aig"], folder)
            names += [f"{name}.abc.aig", f"{name}.plain.aig"]
        families.append([n for n in names if Path(folder, n).exists()])
    return families


def turned(folder, name):
    """The ASCII file with its first output negated."""
    lines = Path(folder, name).read_text(encoding="latin-1").split("\n")
    inputs = int(lines[0].split(" ")[2])
    lines[1 + inputs] = str(int(lines[1 + inputs]) ^ 1)
    new = name.replace(".aag", ".turned.aag")
    Path(folder, new).write_text("\n".join(lines), encoding="latin-1")
    return new


def abc_verdict(abc, folder, a, b):
    said = ran([abc, "-q", f"cec -n {a} {b}"], folder).stdout
    return "EQUIVALENT" if "are equivalent" in said else "DIFFERENT" if "NOT EQUIVALENT" in said else f"? {said!r}"


def main():
    parser = argparse.ArgumentParser(description=__doc__, formatter_class=argparse.RawDescriptionHelpFormatter)
    parser.add_argument("program", nargs="?")
    parser.add_argument("--folder")
    words = parser.parse_args()
    program = house.program(words.program)
    yosys, abc = shutil.which("yosys"), shutil.which("berkeley-abc")
    wrong = pairs = 0
    with tempfile.TemporaryDirectory() as made_here:
        folder = words.folder or made_here
        for names in made(folder, yosys, abc):
            together = [(names[0], other, "EQUIVALENT") for other in names]
            ascii_files = [n for n in names if n.endswith(".aag")]
            together += [(names[0], turned(folder, n), "DIFFERENT") for n in ascii_files]
            for a, b, want in together:
                done = ran([program, "check", a, b], folder)
                said = done.stdout.split("\n")[0] or done.stderr.strip()
                peer = abc_verdict(abc, folder, a, b) if abc and a.endswith(".aig") and b.endswith(".aig") else "-"
                pairs += 1
                fine = said == want and peer in ("-", want)
                wrong += not fine
                print(f"{'' if fine else 'WRONG '}{a} {b}: {said}, ABC {peer}")
    print(f"{pairs} pairs, {wrong} wrong; yosys {yosys or 'absent'}, ABC {abc or 'absent'}")
    raise SystemExit(1 if wrong else 0)


if __name__ == "__main__":
    main()
