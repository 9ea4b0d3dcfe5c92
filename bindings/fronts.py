#!/usr/bin/env python3
"""fronts.py HEADER: prints C in which each function of the header calls its own in the library's compiled module.

There a function is called proved_NAME, takes each struct and each list by a pointer, and a struct that it answers goes where its first parameter
points; so the compiler of this C is the only one that knows how the processor passes a struct."""
import pathlib
import re
import sys

HEAD = """#include "morskebab.h"
struct list { const void *first; size_t length; };
"""


def front(answer: str, name: str, parameters: list[str]) -> str:
    """One function: what the module's own takes, and the call."""
    own, given = [], []
    if answer.startswith("mkb_"):
        own.append(f"{answer} *")
        given.append("&answer")
    rest = iter(parameters)
    for parameter in rest:
        kind, word = re.fullmatch(r"(.*?)(\w+)", parameter).groups()
        if "*" in kind:
            length = re.fullmatch(r"size_t (\w+)", next(rest)).group(1)
            own.append("const struct list *")
            given.append(f"&(struct list){{ {word}, {length} }}")
        elif kind.startswith("mkb_"):
            own.append(f"{kind}*")
            given.append(f"&{word}")
        else:
            own.append(kind)
            given.append(word)
    call = f"proved_{name}({', '.join(given)})"
    made = answer.startswith("mkb_")
    body = f"    {answer} answer;\n    {call};\n    return answer;" if made else f"    return {call};"
    return f"{'void' if made else answer} proved_{name}({', '.join(own) or 'void'});\n{answer} {name}({', '.join(parameters) or 'void'})\n{{\n{body}\n}}\n"


def main() -> None:
    header = re.sub(r"/\*.*?\*/", "", pathlib.Path(sys.argv[1]).read_text(), flags=re.DOTALL)
    print(HEAD)
    for answer, name, words in re.findall(r"^(\w+) (mkb_\w+)\(([^)]*)\);", header, flags=re.MULTILINE):
        print(front(answer, name, [" ".join(word.split()) for word in words.split(",") if word.strip() != "void"]))


if __name__ == "__main__":
    main()
