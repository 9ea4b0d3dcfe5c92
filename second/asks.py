"""The asks of document 02: which are written here, and which have landed.

Landing an ask is its number in LANDED: its words, types and limits, its fixed cases
(`askN.txt`, and `askN-quarters.txt` for rerun) and its generated lines come with it.
Until then its words are unknown and nothing of it is seen.
"""

WRITTEN = frozenset({1, 2, 3, 5, 6, 7, 9, 10, 11, 12, 13})
LANDED = frozenset({1, 2, 3, 5, 6, 7, 9, 10, 11, 12, 13})


def landed(ask):
    return ask in LANDED


if __name__ == "__main__":
    print(*sorted(LANDED))
