"""How the make.py of each family of run vectors writes its files."""

import sys
from pathlib import Path

ROOT = Path(__file__).resolve().parents[1]


def write_all(crate, family, title, columns, groups, case_of):
    """Write crates/CRATE/data and stdout and tests/FAMILY/CASES.md below the folder that the
    command line names, else in the repository. case_of(n, case) gives the case's file, what the
    program prints for it, what it is for, and the answer shown beside that."""
    root = Path(sys.argv[1]) if sys.argv[1:] else ROOT
    data, tests = root / "crates" / crate / "data", root / "tests" / family
    data.mkdir(parents=True, exist_ok=True)
    tests.mkdir(parents=True, exist_ok=True)
    for stale in data.glob("c*"):
        stale.unlink()
    stdout, table, n = "", f"# {title} cases\n\nWritten by make.py; do not edit.\n", 0
    for heading, cases in groups:
        table += f"\n## {heading}\n\n| Number | {columns} |\n|---|---|---|\n"
        for case in cases:
            raw, printed, text, answer = case_of(n, case)
            (data / f"c{n:03}").write_bytes(raw)
            stdout += printed
            table += f"| {n:03} | {text} | {answer} |\n"
            n += 1
    (data.parent / "stdout").write_text(stdout)
    (tests / "CASES.md").write_text(table)
