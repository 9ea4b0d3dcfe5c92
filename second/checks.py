"""Checks, counted."""

passed = 0


def same(got, expected):
    global passed
    assert got == expected, f"got {got!r}, expected {expected!r}"
    passed += 1


def holds(claim):
    same(claim, True)
