"""hostile.py SEED COUNT: so many random calls of hostile values, of every function in the extension's own file, each with its sister, as COPY
reads them. hostile.py SEED COUNT books: so many books of hostile rows through the aggregate, as cases."""
from __future__ import annotations

import pathlib
import random
import re
import sys

NUMERICS = (
    "0 1 -1 2 3 6 7 2.5 0.01 -0.01 1.00 12.5 0.10 100.00 500 10000 200000 1000001 0.0000001 999999999999999 1000000000000000 9999999999999.99 -9999999999999.99 10000000000000.00"
    " 9223372036854775807 9223372036854775808 -9223372036854775809 18446744073709551617 4294967297 1000000000000000000 1e131071 -1e131071 1e-16383"
).split() + ["'NaN'", "'Infinity'", "'-Infinity'"]
CODES = ["EUR", "DEM", "ITL", "FRF", "HRK", "USD", "", "eur", "EURO", "Ü"]
MODES = ["UP", "DOWN", "CEILING", "FLOOR", "HALF_UP", "HALF_DOWN", "HALF_EVEN", "", "up", "7"]
BASES = ["ACTUAL_360", "ACTUAL_365", "THIRTY_360_AMERICAN", "THIRTY_360_EUROPEAN", "", "30/360"]
DATES = ["2023-02-28", "2023-03-31", "2024-02-29", "1899-12-31", "1900-01-01", "2199-12-31", "2200-01-01", "infinity", "-infinity", "4714-11-24 BC", "5874897-12-31"]
DOUBLES = ["0", "-0", "1.005", "2.675", "-1e15", "1e308", "5e-324", "NaN", "Infinity", "-Infinity"]
TEXTS = ["", "0", "-0", "12.50", "012.50", "1.", ".5", "1e3", "999999999999999", "1000000000000000", "99999999999999999999", "0.0000001", "ü", " 1"]
INTEGERS = ["0", "1", "2", "5", "15", "16", "-1", "2147483647", "-2147483648", "NULL"]
BYTES = ["", "00", "02000000000000001efbffffffffffff10000000010000001efbffffffffffff0100000000000000", "000000000000000000000000000000000100000000000000", "ff" * 24, "00" * 41]


def listed(source: random.Random, pool: list[str], of: str) -> str:
    shape = source.random()
    if shape < 0.1:
        return f"'{{}}'::{of}[]"
    if shape < 0.15:
        return f"ARRAY[ARRAY[{source.choice(pool)}], ARRAY[{source.choice(pool)}]]::{of}[]"
    some = pool if shape < 0.4 else [each for each in pool if re.fullmatch("[0-9]{1,4}", each)] or pool
    return f"ARRAY[{', '.join(source.choice(some) for _ in range(source.choice((1, 2, 3, 16, 17, 64, 65))))}]::{of}[]"


def value(source: random.Random, name: str, of: str) -> str:
    """A value for an argument of this name and type; now and then none."""
    if source.random() < 0.02:
        return f"NULL::{of}"
    if of == "text":
        pool = MODES if name == "mode" else BASES if name == "basis" else TEXTS if name == "given" else CODES
        return f"'{source.choice(pool)}'"
    if of == "bytea":
        return f"'\\x{source.choice(BYTES)}'::bytea"
    if of.endswith("[]"):
        return listed(source, NUMERICS + ["NULL"] if of == "numeric[]" else INTEGERS, of[:-2])
    pool = {"numeric": NUMERICS, "date": [f"'{each}'" for each in DATES], "double precision": [f"'{each}'" for each in DOUBLES]}[of]
    return f"{source.choice(pool)}::{of}" if of != "numeric" else f"({source.choice(pool)})::numeric"


def book(source: random.Random) -> str:
    """A book's rows of hostile values through the aggregate; whatever is refused among them, its check is ok, or it was not opened."""
    weights = listed(source, NUMERICS + ["NULL"], "numeric") if source.random() < 0.2 else "ARRAY[5, 3, 2]::numeric[]"
    kinds = ["'post'", "'refund'", "'post'", "'refund'", "''", "'Post'"]
    rows = ", ".join(f"({source.choice(kinds)}, ({source.choice(NUMERICS)})::numeric, '{source.choice(CODES)}')" for _ in range(source.choice((1, 3, 30))))
    return f"SELECT coalesce((mkb_try_book('{source.choice(CODES[:6])}', {weights}, kind, amount, currency)).check_ok, true) FROM (VALUES {rows}) v(kind, amount, currency)"


def main() -> None:
    source, count = random.Random(int(sys.argv[1])), int(sys.argv[2])
    if sys.argv[3:] == ["books"]:
        for _ in range(count):
            print("a book of hostile rows", book(source).replace("\\", "\\\\"), "true", sep="\t")
        return
    declared = next(pathlib.Path(__file__).resolve().parents[1].glob("morskebab--*.sql")).read_text()
    functions = re.findall(r"CREATE FUNCTION mkb_try_(\w+)\((?!state)(.*?)\) RETURNS mkb_tried_", declared)
    for _ in range(count):
        name, arguments = source.choice(functions)
        words = ", ".join(value(source, *each.split(" ", 1)) for each in arguments.split(", "))
        print("\t".join(call.replace("\\", "\\\\") for call in (f"mkb_{name}({words})", f"mkb_try_{name}({words})")))


if __name__ == "__main__":
    main()
