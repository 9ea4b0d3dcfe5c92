"""The documents' cases as calls of SQL: cases.py SEED COUNT prints those of the desk's fixed lines in second/, and of so many generated ones.

A row of text for each call: its line, the call, and what it is expected to say, as COPY reads them. Lines that have no call in SQL are left
out: those that are not understood, amounts whose text is refused before there is a number, dates that no calendar has, and what only a new
card's book can answer.
"""
from __future__ import annotations

import io
import sys
from collections.abc import Iterable, Iterator
from typing import Any

from sql_calls import SECOND, Call, Lines, NoCall, asks, field

from generate import generated
from lines import is_copied, understood
from _values import REASONS
from reading import Reading
from refusals import Refusal
from texts import with_texts_read

BLAMED = {"": 0, "first": 1, "second": 2}


def said(call: Call) -> tuple[str, str]:
    """What the call says, and what its sister says."""
    refusal = call.answer if isinstance(call.answer, Refusal) else None
    number = refusal.number if refusal else 0
    before = [str(number)] + [str(BLAMED[refusal.blames] if refusal else 0)] * call.blames
    if refusal is None:
        value = call.answer[0] if call.fields == 1 else "(" + ",".join(map(field, call.answer)) + ")"
        return value, "(" + ",".join(before + list(map(field, call.answer))) + ")"
    date = f" (the {refusal.blames} date)" if refusal.blames else ""
    return f"MK{number:03d} refusal {number}: {REASONS[number]}{date}", "(" + ",".join(before + [""] * call.fields) + ")"


def calls_of(call: Call) -> Iterator[tuple[str, str]]:
    """The calls of SQL, each with what it says: with integer weights too, where they are such."""
    plain, tried = said(call)
    if call.name == "export":
        words = ", ".join(call.words)
        yield f"encode(float8send(mkb_export({words})), 'hex')", plain
        yield f"(select (t.refusal, encode(float8send(t.value), 'hex')) from mkb_try_export({words}) t)", tried
        return
    for of in ("numeric[]", "integer[]") if any("::numeric[]" in word for word in call.words) and call.name != "statement" else ("",):
        words = ", ".join(word.replace("::numeric[]", f"::{of}") if of else word for word in call.words)
        if of == "integer[]" and any(int(each) > 2**31 - 1 for word in call.words if "::" in word for each in word[2 : word.index("}")].split(",") if each):
            continue
        yield f"mkb_{call.name}({words})", plain
        yield f"mkb_try_{call.name}({words})", tried


def copied(value: str) -> str:
    return value.replace("\\", "\\\\").replace("\t", "\\t").replace("\n", "\\n").replace("\r", "\\r")


def rows(streams: Iterable[Any]) -> Iterator[str]:
    for stream in streams:
        lines = Lines()
        for line in Reading(stream):
            asked = None if is_copied(line) else understood(line)
            values = with_texts_read(asked.values) if asked else None
            if asked is None or isinstance(values, Refusal):
                continue
            try:
                found = lines.call(asked.verb, values)
            except NoCall:
                continue
            for call, wanted in calls_of(found):
                yield "\t".join(map(copied, (line.content.decode("latin-1"), call, wanted)))


def main() -> None:
    streams = [open(SECOND / "cases.txt", "rb")] + [open(SECOND / f"ask{ask}.txt", "rb") for ask in sorted(asks.LANDED) if (SECOND / f"ask{ask}.txt").exists()]
    streams.append(io.BytesIO(b"".join(generated(int(sys.argv[1]), int(sys.argv[2])))))
    for row in rows(streams):
        print(row)


if __name__ == "__main__":
    main()
