"""Writes there-and-back.md: for each old unit, what becomes of a euro amount that goes there and comes back.

The two cases are those of `there_and_back` and `comes_back` in crates/euro/proofs/ThereAndBack.antt: where 10^(2 + k) is less than
K x 10^s the amount comes back unchanged, else it changes by at most (K x 10^s + 10^(2 + k)) / (2 x K x 10^s) cents. The amounts are
found with the second program. Run it to write the table beside it; with --check it says whether the table is the one it would write.
"""

import pathlib
import sys

HERE = pathlib.Path(__file__).resolve().parent
sys.path.insert(0, str(HERE.parent / "second"))

from amounts import CURRENCIES, Amount
from euro import EURO, EURO_DECIMALS, convert

TABLE = HERE / "there-and-back.md"
HEADING = """# There and back

Written by `python3 docs/there_and_back.py`. A euro amount is converted to an old unit and back. Where 10^(2 + k) is less than K x 10^s the amount
comes back unchanged (`comes_back`); else the change in cents is at most (K x 10^s + 10^(2 + k)) / (2 x K x 10^s) (`there_and_back` in
`crates/euro/proofs/ThereAndBack.antt`). The last columns have the smallest amount that moves, as the desk's `convert` lines.

| No | Code | K x 10^s | 10^(2 + k) | Comes back | Smallest that moves | There | Back |
|---|---|---|---|---|---|---|---|
"""


def there_and_back(cents, unit):
    """The old unit's amount, and the euro amount that comes back."""
    old = convert(Amount(EURO, EURO_DECIMALS, cents), unit)
    return old, convert(old, EURO)


def smallest_moved(unit):
    """The least number of cents that comes back as another."""
    cents = 1
    while there_and_back(cents, unit)[1].coefficient == cents:
        cents += 1
    return cents


def worth(amount):
    """An amount as money is written."""
    if amount.scale == 0:
        return f"{amount.coefficient:,}"
    whole, rest = divmod(amount.coefficient, 10**amount.scale)
    return f"{whole:,}.{rest:0{amount.scale}}"


def row(unit):
    line = CURRENCIES[unit]
    fine = line.K * 10**line.digits
    parts = 10 ** (EURO_DECIMALS + line.k)
    cells = [str(unit), line.code, f"{fine:,}", f"{parts:,}"]
    if parts < fine:
        return cells + ["unchanged", "", "", ""]
    most = (fine + parts) // (2 * fine)
    cents = smallest_moved(unit)
    old, back = there_and_back(cents, unit)
    there = f"`convert {EURO} {EURO_DECIMALS} {cents} {unit}`: {worth(old)} {line.code}"
    again = f"`convert {unit} {old.scale} {old.coefficient} {EURO}`: {worth(back)} EUR"
    return cells + [f"within {most} cent{'s' * (most > 1)}", worth(Amount(EURO, EURO_DECIMALS, cents)), there, again]


def table():
    units = [unit for unit in range(len(CURRENCIES)) if unit != EURO]
    return HEADING + "".join(f"| {' | '.join(row(unit))} |\n" for unit in units)


if __name__ == "__main__":
    if "--check" not in sys.argv[1:]:
        TABLE.write_text(table(), encoding="utf-8")
    elif TABLE.read_text(encoding="utf-8") != table():
        sys.exit("there-and-back.md is not what docs/there_and_back.py writes")
