#!/usr/bin/env python3
"""Brings the repository's own definitions and lemmas to snake case, in the .antt and .rt files below crates/.

usage: tools/respell.py [--check] [--docs]

A name of a definition, a lemma, a field or a local lemma that begins small is split where a capital stands and at each dash: blamedOf is
blamed_of, too-far is too_far. A name that begins with a capital is a type, a fact or a module and keeps its spelling, and so does a dash behind such
a part. A library's name keeps its spelling too: in each file a word turns only where the file declares it, takes it from a crate of this
repository, or names it behind a module of one. --check writes nothing. --docs turns the code spans of README.md and docs/ by the same table.
It says where two names fall together, and then writes nothing. A second run changes nothing.
"""
import os
import re
import sys

WORD = re.compile(r'[^\s(){}.;,@"«»]+')
QUIET = re.compile(r'--[^\n]*|"(?:[^"\\\n]|\\.)*"')
DECLARED = re.compile(r"^[ \t]*(?:(?:abbrev|unfoldable|pub|opaque) )*([^\s(){}.;,@\"«»:]+)(?: [^\s(){}.;,@\"«»:=]+)* :(?=\s)", re.M)
# an answer or an invariant has the name that Rattle makes of the code
GOAL = re.compile(r"^(?:abbrev )?pub (\S+) : goal\.", re.M)
LONG = re.compile(r"^ *(?:abbrev |unfoldable )*pub ([^\s(){}.;,@\"«»:]+)$", re.M)
LET = re.compile(r"\blet ([^\s(){}.;,@\"«»:]+) (?:=|:)")
PARAMETER = re.compile(r"\b(?:const )?(\w+): ")
USE = re.compile(r"^(?:pub )?(?:ghost )?use (Rattle\.[^\s{]+?)(?:\.\{([^}]*)\}| as (\S+?))?;?$", re.M)


def snake(name):
    if not re.match(r"[a-z]", name) or not re.search(r"[A-Z-]", name):
        return name
    parts = name.split("-")
    out = split(parts[0])
    for before, part in zip(parts, parts[1:]):
        joint = "-" if re.match(r"[A-Z]", before) or not re.match(r"\w", part) or not re.match(r"\w", before) else "_"
        out += joint + (part if re.match(r"[A-Z]", part) else split(part))
    return out


# the one lemma that would have a library's name
TAKEN = {"is-nan": "is_nan_lem"}


def new_name(name):
    """The name in snake case; a lemma that would have a definition's name ends in _lem."""
    return TAKEN.get(name) or snake(name)


def fall_together(names):
    """Fills TAKEN: of the names that would be one, the definition, which has capitals, keeps it."""
    by = {}
    for name in names:
        by.setdefault(snake(name), set()).add(name)
    for new, olds in by.items():
        if len(olds) > 1:
            lemmas = [n for n in olds if not re.search("[A-Z]", n) or "-" in n]
            if len(olds) - len(lemmas) > 1 or len(lemmas) > 1:
                lemmas = sorted(lemmas)[: len(olds) - 1]
            for n in lemmas:
                TAKEN[n] = new + "_lem"


def split(part):
    return re.sub(r"(?<=[a-z0-9₀-₉])([A-Z])", lambda m: "_" + m[1].lower(), part)


def own_crates():
    return {c for c in os.listdir("crates") if os.path.isdir(os.path.join("crates", c, "src"))}


def files():
    for folder, dirs, names in os.walk("crates"):
        dirs[:] = sorted(d for d in dirs if d not in ("out", "must-fail"))
        for name in sorted(names):
            if name.endswith((".rt", ".antt")):
                yield os.path.join(folder, name)


def read(path):
    with open(path, encoding="utf-8") as f:
        return f.read()


def bare(text):
    return QUIET.sub(lambda m: " " * len(m[0]), text)


def module_of(path):
    parts = path.split(os.sep)
    return "Rattle." + ".".join([parts[1], *parts[2:]])[: -len(".antt")]


def declared(path, text):
    code = bare(text)
    names = set(DECLARED.findall(code)) | set(LONG.findall(code))
    names |= set(LET.findall(code))
    names -= set(GOAL.findall(code))
    return {n for n in names if n not in ("use", "pub", "mod", "λ")}


def main(argv):
    own = own_crates()
    every = list(files())
    texts = {p: read(p) for p in every}
    by_module = {module_of(p): declared(p, texts[p]) for p in every if p.endswith(".antt")}
    public = set().union(*(ns for m, ns in by_module.items() if not m.endswith('.Proof')))
    fall_together(public)
    plans, bad, table = {}, [], {}
    for path in every:
        text = texts[path]
        code = bare(text) if path.endswith(".antt") else text
        mine = set() if path.endswith((".rt", "/Proof.antt")) else set(by_module.get(module_of(path), ()))
        aliases = set()
        for m in USE.finditer(code if path.endswith(".antt") else text.replace("ghost use", "use")):
            crate = m[1].split(".")[1]
            if crate not in own:
                continue
            if m[2] is not None:
                mine |= {w.split(" as ")[0].strip() for w in m[2].split(",")}
            elif m[3]:
                aliases.add(m[3])
        turns = {w: new_name(w) for w in mine if new_name(w) != w}
        words = set(PARAMETER.findall(code)) if path.endswith(".rt") else set() if path.endswith("/Proof.antt") else set(WORD.findall(code))
        for old, new in turns.items():
            if new in words and new not in turns and old in words:
                bad.append(f"{path}: {old} would be {new}, which the file has")
            table.setdefault(old, new)
        back = {}
        for old, new in turns.items():
            if back.setdefault(new, old) != old:
                bad.append(f"{path}: {old} and {back[new]} would both be {new}")
        plans[path] = (turns, aliases)
    fields = {w: new_name(w) for w in public if new_name(w) != w and "-" not in w}
    if bad:
        print("\n".join(sorted(set(bad))))
        print(f"{len(set(bad))} names fall together; nothing is written")
        return 1
    changed = 0
    for path, (turns, aliases) in plans.items():
        text = texts[path]

        def one(m, text=None, turns=turns, aliases=aliases):
            word = m[0]
            if m.start() and m.string[m.start() - 1] == ".":
                head = WORD.findall(m.string[: m.start() - 1].rsplit("\n", 1)[-1][-200:])
                behind = m.string[m.start() - 2 : m.start() - 1]
                before = head[-1] if head and re.match(r'[^\s(){}.;,@"«»]', behind or " ") else ""
                if before in aliases and word in public:
                    return new_name(word)
                return fields.get(word, word)
            return turns.get(word, word)

        def spans(m):
            return re.sub(r"`[^`\n]*`", lambda s: WORD.sub(lambda w: inner(w), s[0]), m)

        def inner(w):
            bare_word = w[0].strip("`'…")
            return w[0].replace(bare_word, turns.get(bare_word, new_name(bare_word) if bare_word in public else bare_word)) if bare_word else w[0]

        if path.endswith(".antt"):
            out, at = [], 0
            for q in QUIET.finditer(text):
                out.append(WORD.sub(one, text[at : q.start()]))
                out.append(spans(q[0]) if q[0].startswith("--") else q[0])
                at = q.end()
            out.append(WORD.sub(one, text[at:]))
            new = "".join(out)
        else:
            new = turn_rt(text, one, spans)
        if new != text:
            changed += 1
            if "--check" not in argv:
                with open(path, "w", encoding="utf-8") as f:
                    f.write(new)
    print(f"{changed} files, {len(table)} names")
    if "--docs" in argv:
        turn_docs(table, argv)
    if "--table" in argv:
        for old in sorted(table):
            print(old, table[old])
    return 0


CLAUSE = re.compile(r"^\s*(?:requires|ensures)\b[^{\n]*\{|^\s*(?:pub )?ghost \w+: \{|^ghost use [^;]*;", re.M)


def turn_rt(text, one, spans):
    out, at = [], 0
    for m in CLAUSE.finditer(text):
        if m.start() < at:
            continue
        out.append(comments(text[at : m.start()], spans))
        end = m.end()
        if m[0].endswith("{"):
            depth = 1
            while depth:
                depth += {"{": 1, "}": -1}.get(text[end], 0)
                end += 1
        out.append(WORD.sub(one, text[m.start() : end]))
        at = end
    out.append(comments(text[at:], spans))
    return "".join(out)


def comments(text, spans):
    return re.sub(r"//[^\n]*", lambda m: spans(m[0]), text)


def turn_docs(table, argv):
    paths = ["README.md", "CONTRIBUTING.md"] + [os.path.join(d, f) for d, _, fs in os.walk("docs") for f in fs if f.endswith(".md")]
    for path in paths:
        text = read(path)
        new = re.sub(r"`[^`\n]*`", lambda s: WORD.sub(lambda w: "".join(table.get(p, p) for p in re.split(r"(`)", w[0])), s[0]), text)
        if new != text and "--check" not in argv:
            with open(path, "w", encoding="utf-8") as f:
                f.write(new)


if __name__ == "__main__":
    raise SystemExit(main(sys.argv[1:]))
