"""agree.py LIBRARY: what is said in more than one place is the same: the version, the refusals' rows, the functions that the extension's
file declares and those that its object has."""
from __future__ import annotations

import pathlib
import re
import subprocess
import sys

HERE = pathlib.Path(__file__).resolve().parents[1]
sys.path.append(str(HERE.parent / "python/morskebab"))
from _values import REASONS  # noqa: E402


def same(what: str, one: object, other: object) -> None:
    if one != other:
        sys.exit(f"postgres: {what}: {one} and {other}")


def main() -> None:
    header = (HERE.parent / "c/morskebab.h").read_text()
    found = re.search(r"#define MKB_VERSION UINT32_C\((\d+)\)", header)
    version = int(found[1]) if found else 0
    text = f"{version // 10000}.{version // 100 % 100}.{version % 100}"
    control = re.search(r"default_version = '(.*)'", (HERE / "morskebab.control").read_text())
    same("the header's version and the extension's", text, control[1] if control else None)
    same("the extension's file and the header's version", (HERE / f"morskebab--{text}.sql").exists(), True)
    numbers = sorted(int(number) for number in re.findall(r"MKB_[A-Z_]+ = (\d+)", header) if number != "0")
    same("the refusals' numbers and rows", numbers, sorted(REASONS))
    declared = set(re.findall(r"'MODULE_PATHNAME', '(\w+)'", (HERE / f"morskebab--{text}.sql").read_text()))
    symbols = subprocess.run(["nm", "-D", "--defined-only", sys.argv[1]], check=True, capture_output=True, text=True).stdout
    exported = set(re.findall(r" T (\w+)", symbols)) - {"Pg_magic_func"}
    same("the functions that are declared and those of the object", declared, {name for name in exported if not name.startswith("pg_finfo_")})


if __name__ == "__main__":
    main()
