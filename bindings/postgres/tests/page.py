"""page.py PAGE: the queries of a page, in their order, as a script for psql. page.py PAGE SAID: whether psql said what the page says.

A block of a page fenced as `sql` is a query, and a block without a name right behind it is what psql answers.
"""
from __future__ import annotations

import pathlib
import re
import sys
from typing import NamedTuple


class Query(NamedTuple):
    text: str
    answer: str | None


def queries(page: str) -> list[Query]:
    blocks = re.findall(r"^```sql\n(.*?)^```\n(?:\n?^```\n(.*?)^```\n)?", page, re.MULTILINE | re.DOTALL)
    return [Query(text, answer or None) for text, answer in blocks]


def trimmed(said: str) -> str:
    """Without the spaces at the ends of lines, and empty lines around."""
    return "\n".join(line.rstrip() for line in said.strip("\n").split("\n"))


def main() -> None:
    asked = queries(pathlib.Path(sys.argv[1]).read_text())
    if len(sys.argv) == 2:
        for number, query in enumerate(asked):
            print(f"\\echo @@ {number}\n\\set ON_ERROR_STOP {0 if query.answer and query.answer.startswith('ERROR') else 1}\n{query.text}", end="")
        return
    said = re.split(r"^@@ \d+\n", pathlib.Path(sys.argv[2]).read_text(), flags=re.MULTILINE)[1:]
    answered = 0
    for query, found in zip(asked, said, strict=True):
        found = re.sub(r"^psql:\S+ ", "", found, flags=re.MULTILINE)
        if query.answer is not None and trimmed(found) != trimmed(query.answer):
            sys.exit(f"{sys.argv[1]}:\n{query.text}says\n{found}where the page has\n{query.answer}")
        answered += query.answer is not None
    print(f"postgres: {len(asked)} queries of {sys.argv[1]}, and {answered} answers as it has them")


if __name__ == "__main__":
    main()
