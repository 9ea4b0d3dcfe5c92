#!/usr/bin/env python3
"""partner.py FILE PLACE: a partner's statement, from a file in which statements stand one behind the other: each payout and what was taken back, in
the file's order, with the reason where there is one, and what they add to in each currency. Refusal 14 where some bytes are no statement."""
import pathlib
import sys
from collections.abc import Iterator

sys.path.insert(0, str(pathlib.Path(__file__).resolve().parents[1]))
from morskebab import Amount, AnyView, check_any, currency_line  # noqa: E402


def statements(data: memoryview) -> list[memoryview]:
    """The file's statements in their order. Each is found from its end, where it says how far back it begins."""
    found, end = [], len(data)
    while end:
        first = check_any(data[:end]).first
        found.append(data[first:end])
        end = first
    return found[::-1]


def payouts(data: memoryview, place: int) -> Iterator[tuple[Amount, int]]:
    """A partner's payouts, each at its currency's own digits, and their reasons."""
    for statement in statements(data):
        for payout in AnyView(statement):
            if payout.place == place:
                yield Amount(payout.currency, currency_line(payout.currency).digits, payout.coefficient), payout.reason


def main(path: str, place: int) -> None:
    count, sums = 0, {}
    for amount, reason in payouts(memoryview(pathlib.Path(path).read_bytes()), place):
        print(amount, *(["reason", reason] if reason else []))
        count += 1
        sums[amount.currency] = sums.get(amount.currency, 0) + amount
    print(f"partner {place}: {count} payouts, " + (", ".join(map(str, sums.values())) or "nothing"))


if __name__ == "__main__":
    main(sys.argv[1], int(sys.argv[2]))
