#!/usr/bin/env python3
"""Respells the repository's own names in the logic as today's Rattle spells its own: functions, lemmas and fields in snake
case; a dash only joins two names, of which one at least is a type, or both are words of the library or of specs/.

    respell.py [ROOT]         rewrites crates/*/{specs,proofs,src}, the edits of must-fail/ and the pages' names in backticks
    respell.py --table [ROOT] prints old and new names and writes nothing

A name is left as it is where its new spelling already stands in the logic or in the sources (printed as 'kept:').
"""
import glob, os, re, sys

ARGS = [a for a in sys.argv[1:] if not a.startswith("--")]
ROOT = ARGS[0] if ARGS else "."
TABLE = "--table" in sys.argv

TOKEN = re.compile(r"[^\s(){}\[\].;,\"«»`]+")
SIGNATURE = re.compile(r"^(\s*)((?:abbrev |unfoldable |ruleset )*)(pub )?(?:record |data )?([^\s:(){}.;,=\"]+) (?:[^:]*?)?: ?(.*)$")
BARE = re.compile(r"^(?:abbrev |unfoldable |ruleset |pub |record |data )*([^\s:(){}.;,=\"]+) (?::|\(|\{)")
WORDS = {"use", "let", "in", "where", "rw", "--", "if", "record", "module", "elim", "omega", "pub", "mod", "unfolding", "λ"}
PLAIN = re.compile(r"^[A-Za-z][\w'-]*$")
# Words of the library by which a dash may join: names of functions on lists and numbers.
LIBRARY = {"length", "append", "take", "drop", "reverse", "set", "sets", "sum", "add", "mul", "neg", "sub", "map", "get_or",
           "nat_abs", "mag", "snoc", "cons", "pos", "suc", "max", "min"}


def antt_files():
    for part in ("specs", "proofs"):
        yield from sorted(glob.glob(os.path.join(ROOT, "crates", "*", part, "**", "*.antt"), recursive=True))


def rt_files():
    yield from sorted(glob.glob(os.path.join(ROOT, "crates", "*", "src", "**", "*.rt"), recursive=True))


def read(path):
    with open(path, encoding="utf-8") as f:
        return f.read()


def code(line):
    return line.split("--")[0] if line.lstrip().startswith("--") else re.split(r"(?:^|\s)-- ", line)[0]


def own_names():
    """Names that specs/ and proofs/ define, less those that are imported from elsewhere or name a goal."""
    own, foreign, tokens = set(), set(), set()
    for path in antt_files():
        for line in read(path).split("\n"):
            line = code(line)
            for t in TOKEN.finditer(line):  # a path's parts are modules, and fall together with nothing
                if line[t.start() - 1 : t.start()] != "." and line[t.end() : t.end() + 1] != ".":
                    tokens.add(t.group())
            use = re.match(r"^use (\S+?)\.\{(.*)\}", line)
            if use and not use.group(1).startswith("Rattle.") or use and use.group(1).split(".")[1] in ("std", "core"):
                foreign.update(x.split(" as ")[0].strip() for x in use.group(2).split(","))
                continue
            m = BARE.match(line.strip())
            depth = len(line) - len(line.lstrip())
            if not m or m.group(1) in WORDS or not (depth <= 2 or line.strip().startswith("pub ")):
                continue
            if re.search(r": (tie|goal)\.", line):
                foreign.add(m.group(1))
                continue
            own.add(m.group(1))
        for m in re.finditer(r"(?m)^  ((?:[a-z][\w'-]* )+): [A-Z]\w*$", read(path)):  # constructors that share a line
            own.update(m.group(1).split())
    return {n for n in own - foreign if PLAIN.match(n)}, tokens


def snake(word):
    if not word[:1].islower():
        return word
    return re.sub(r"([a-z0-9ℤℕ'])([A-Z]+)", lambda m: m.group(1) + "_" + m.group(2).lower(), word)


def respelled(name, names):
    parts = [snake(p) for p in name.split("-")]
    out = parts[0]
    for part in parts[1:]:
        last = out.split("-")[-1]
        joins = not part[:1].islower() or not last[:1].islower() or (last in names and part in names)
        out += ("-" if joins else "_") + part
    return out


def own_fields():
    """Fields of the records of specs/ and proofs/."""
    found = set()
    for path in antt_files():
        inside = False
        for line in read(path).split("\n"):
            if re.match(r"^\s*(pub )?record ", line) and line.rstrip().endswith("where"):
                inside = True
            elif inside and (m := re.match(r"^\s+pub ([^\s:(){}]+) : ", line)):
                found.add(m.group(1))
            elif inside and not re.match(r"^\s{4,}|^\s*--", line):
                inside = False
    return found


# Definitions whose name in snake case a field of a struct has.
CHOSEN = {"hasSecond": "has_second_point", "vertexCount": "vertices_count"}
# Names that the toolchain makes too: a step, and fields that it has.
LEFT = {"side-of"}


def table():
    own, tokens = own_names()
    # what a dash may join: functions of specs/, in their new spelling, and the library's
    names = LIBRARY | {snake(n) for n in own if "-" not in n and re.search(r"[A-Z]", n)}
    new = {n: CHOSEN.get(n) or respelled(n, names) for n in sorted(own - LEFT)}
    new = {n: to for n, to in new.items() if n != to}
    # Where a lemma falls together with a definition or another name, it is called ..._lem.
    defined = {to for n, to in new.items() if "-" not in n}
    for n in sorted(new):
        if "-" in n and (new[n] in defined or new[n] in tokens or list(new.values()).count(new[n]) > 1):
            new[n] += "_lem"
    for to in sorted(defined & tokens):
        if to in own and to not in new:
            new[to] = to + "_lem"
    return new


def rename_antt(text, new, fields):
    """Names in code and comments. Behind a dot stands a field, or a member of a module that was given a short name."""
    short = set(re.findall(r"(?m)^use \S+ as (\S+)", text)) - {"tie", "goal", "lts"}

    def one(m):
        word = m.group()
        if word not in new:
            return word
        before = text[max(0, m.start() - 40) : m.start()]
        if before.endswith("."):
            head = re.search(r"([^\s(){}.,;]+)\.$", before)
            if not (word in fields or head and head.group(1) in short):
                return word
        if text[m.end() : m.end() + 1] == "." and re.match(r"\.[\w{]", text[m.end() :]) and re.search(r"(?m)^(pub )?use \S*$", before):
            return word
        return new[word]

    return TOKEN.sub(one, text)


def rename_rt(text, new):
    """Names in clauses, imports and comments: only those that Rust would not write, or that an import brings."""
    brought = set()
    for m in re.finditer(r"(?m)^ghost use [^;]*;", text):
        brought.update(TOKEN.findall(m.group()))

    def clause(m):
        return TOKEN.sub(lambda t: new.get(t.group(), t.group()) if t.group() in brought or "-" in t.group() else t.group(), m.group())

    text = re.sub(r"(?m)^ghost use [^;]*;", clause, text)
    text = re.sub(r"(?:requires|ensures|ghost)\*?(?: \w+)?:? \{(?:[^{}]|\{[^{}]*\})*\}", clause, text)
    return re.sub(r"\b[a-z]+[a-z0-9]*[A-Z]\w*\b", lambda m: new.get(m.group(), m.group()), text)


def rename_page(text, new):
    return re.sub(r"`([^`\n]+)`", lambda m: "`" + TOKEN.sub(lambda t: new.get(t.group(), t.group()), m.group(1)) + "`", text)


def write(path, text):
    with open(path, "w", encoding="utf-8") as f:
        f.write(text)


def main():
    new, fields = table(), own_fields()
    back = {}
    for n, to in new.items():
        back.setdefault(to, []).append(n)
    for to, olds in sorted(back.items()):
        if len(olds) > 1:
            print("fall together:", to, olds)
    if TABLE:
        for n in sorted(new):
            print(f"{n}\t{new[n]}" + ("\tfield" if n in fields else ""))
        return
    for path in antt_files():
        write(path, rename_antt(read(path), new, fields))
    for path in rt_files():
        write(path, rename_rt(read(path), new))
    for path in sorted(glob.glob(os.path.join(ROOT, "docs", "**", "*.md"), recursive=True)) + [os.path.join(ROOT, p) for p in ("README.md", "CONTRIBUTING.md")]:
        if os.path.exists(path) and "landings" not in path:
            write(path, rename_page(read(path), new))
    print(f"{len(new)} names respelled")


if __name__ == "__main__":
    main()
