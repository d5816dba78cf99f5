#!/usr/bin/env python3
"""Brings the names of definitions and lemmas to today's spelling: words in snake case, a dash only between the two names of a law as `length-lines`.

usage: python3 tools/snake_names.py     at the top of the repository, once, after port.py: rewrites the files of specs/ and proofs/, the clauses of src/ and the edits of specs/;
                                        plain types are `Copy` and root files ask for tactics
       python3 tools/snake_names.py --table     prints the names, old and new, and those that fall together
       python3 tools/snake_names.py --edits     prints the must-fail edits whose text does not stand once in the file that they change

A name of src/ keeps its spelling. A name that starts with a capital letter is a type, a constructor or a number of src/ and keeps its spelling too, but for the dashes of
such a number.
"""
import collections
import glob
import re
import sys

NAME = r"[A-Za-z][A-Za-z0-9'_₀-₉-]*"
DECLARED = re.compile(r"^[ \t]*(?:(?:abbrev|unfoldable|opaque|rec)\s+)*(?:pub\s+)?(?:(?:abbrev|unfoldable|data|record)\s+)*(" + NAME + r")[ \t]*:\s", re.M)
BOUND = re.compile(r"[({]([A-Za-z][A-Za-z0-9'_₀-₉ -]*) :\s")
LET = re.compile(r"\blet\s+(" + NAME + r")\b")
LAMBDA = re.compile(r"λ ([A-Za-z][A-Za-z0-9'_₀-₉ -]*)\.")


# Lemmas that would fall together with the definition that they speak of.
LEMMAS = {
    "flags-fit", "goes-on", "held-fits", "line-from", "mode-set", "motion-fits", "narrow-fit", "next-move", "row-at", "second-word",
}
# Words of the library that have another name today; those of lib.Dec come from the Prelude.
LIBRARY = {"eqb": "nat_eq", "ltb": "nat_lt", "leb": "nat_le"}


def snake(name):
    """Words of a camel-case name, or of one with dashes, joined by underscores."""
    if name in LEMMAS:
        return name.replace("-", "_") + "_lem"
    if re.fullmatch(r"[A-Z0-9]+(-[A-Z0-9]+)+", name):
        return name.replace("-", "_")
    if name[0].isupper():
        return name
    words = re.sub(r"(?<=[a-z0-9₀-₉'])([A-Z])", lambda m: "_" + m.group(1).lower(), name)
    law = re.match(r"(length)-(.+)$", words)
    if law:
        return law.group(1) + "-" + law.group(2).replace("-", "_")
    return words.replace("-", "_")


def files():
    for folder in ("specs", "proofs"):
        yield from sorted(glob.glob(f"crates/*/{folder}/**/*.antt", recursive=True))


def sources():
    yield from sorted(glob.glob("crates/*/src/**/*.rt", recursive=True))


def imported(text):
    """The words of LIBRARY that a file took from lib.Dec are taken from the Prelude."""
    def split(m):
        names = [n.strip() for n in m.group(1).split(",")]
        mine = [LIBRARY[n] for n in names if n in LIBRARY]
        rest = [n for n in names if n not in LIBRARY]
        lines = ["use lib.Dec.{" + ", ".join(rest) + "}\n"] if rest else []
        return "".join(lines + (["use Rattle.std.specs.Prelude.{" + ", ".join(mine) + "}\n"] if mine else []))
    return re.sub(r"^use lib\.Dec\.\{([^}]*)\}\n", split, text, flags=re.M)


def indexed(text):
    """`get_or xs i 0` of numbers is `slice_index xs i`."""
    word = re.compile(r"(?<![A-Za-z0-9'_-])get_or ")
    argument = re.compile(r"\((?:[^()]|\((?:[^()]|\([^()]*\))*\))*\)(?:\.[\w]+)*|[\w.₀-₉'-]+")
    at = 0
    while True:
        m = word.search(text, at)
        if not m:
            break
        at = m.end()
        one = argument.match(text, at)
        two = one and text[one.end():one.end() + 1] == " " and argument.match(text, one.end() + 1)
        if two and re.match(r" 0(?![\w.])", text[two.end():]):
            text = text[:m.start()] + "slice_index " + text[at:two.end()] + text[two.end() + 2:]
            at = m.start() + len("slice_index ")
    if not re.search(r"(?<![A-Za-z0-9'_-])get_or ", text):
        text = re.sub(r"(?<=[{ ])get_or(?=[,}])", "slice_index", text)
    elif "slice_index " in text:
        text = re.sub(r"(?<=[{ ])get_or(?=[,}])", "get_or, slice_index", text)
    return text


def uncommented(text):
    return re.sub(r"--.*", "", text)


def table():
    """The names that are respelled, by old name; those with a dash only where a file of definitions or lemmas declares them, or a function's proof."""
    found = {}
    for path in files():
        text = uncommented(open(path).read())
        walk = path.endswith("/Proof.antt")
        names = set(DECLARED.findall(text))
        for m in BOUND.finditer(text):
            names.update(m.group(1).split())
        names.update(LET.findall(text))
        for m in LAMBDA.finditer(text):
            names.update(m.group(1).split())
        for name in names:
            if snake(name) == name:
                continue
            if "-" in name and walk and not name.endswith("-spec"):
                continue
            found[name] = snake(name)
    found.update(LIBRARY)
    return found


def together(names):
    """New names that two old ones would get."""
    back = collections.defaultdict(set)
    for path in files():
        for name in DECLARED.findall(uncommented(open(path).read())):
            back[names.get(name, name)].add(name)
    return {new: old for new, old in back.items() if len(old) > 1}


def turn(text, names):
    token = re.compile(r"(?<![A-Za-z0-9'_₀-₉-])" + NAME)

    def turned(m):
        name = m.group(0)
        if name in LEMMAS and text[m.start() - 1] == ".":
            return name.replace("-", "_")
        return names.get(name, name)

    return token.sub(turned, text)


def clauses(text):
    """The parts of a source that are no code: ghost imports and clauses."""
    for m in re.finditer(r"^ghost use [^;]*;", text, re.M):
        yield m.span()
    for m in re.finditer(r"^\s*(?:requires|ensures)\*?(?: \w+)? \{", text, re.M):
        depth, i = 1, m.end()
        while depth:
            depth += {"{": 1, "}": -1}.get(text[i], 0)
            i += 1
        yield m.span()[0], i


def tight(text):
    """A projection without a space, and without the parentheses that it no longer needs."""
    path = r"[\w₀-₉']+(?: \.[\w']+)+"
    text = re.sub(r"(?<![\w)\]'] )\((" + path + r")\)", lambda m: m.group(1).replace(" .", "."), text)
    text = re.sub(r"(?<=[\w)\]'] )\((" + path + r")\)", lambda m: m.group(1).replace(" .", "."), text)
    text = re.sub(r"(?<=[\w')]) \.(?=[a-z0-9])", ".", text)
    return re.sub(r"(?<=[\w'])\.([a-z]\w*)-(\w)", r".\1_\2", text)


def turn_edit(text, names):
    """A line of a must-fail edit of a definition, as port.py and this script turn the definition."""
    text = re.sub(r"Rattle·(\w+)(?:·specs\.specs|·proofs\.proofs)?", r"Rattle.\1", text)
    text = re.sub(r"Rattle\.(\w+)·(specs|proofs)\.\2", r"Rattle.\1.\2", text)
    text = tight(text.replace("getD", "get_or"))
    camel = re.compile(r"(?<![A-Za-z0-9'_-])[a-z][a-z0-9]*(?:[A-Z][a-z0-9]*)+(?![A-Za-z0-9'_-])")
    text = camel.sub(lambda m: snake(m.group(0)), text)
    return indexed(turn(text, names))


def head(text):
    """A root file asks for tactics, below its first comment."""
    if "#![tactic(" in text:
        return text
    first = re.match(r"(?://[^\n]*\n)*", text)
    return text[:first.end()] + "#![tactic(auto)]\n\n" + text[first.end():]


def edits():
    yield from sorted(glob.glob("crates/*/must-fail/*.edit"))


def turn_edits(names):
    """Turns the edits of definitions, and prints those whose text does not stand once in its file."""
    for path in edits():
        lines, target = open(path).read().split("\n"), None
        for i, line in enumerate(lines):
            if line.startswith("file: "):
                target = line[len("file: "):]
            elif target and target.startswith("specs/") and line[:5] in ("old: ", "new: "):
                lines[i] = line[:5] + turn_edit(line[5:], names)
        new = "\n".join(lines)
        if new != open(path).read():
            open(path, "w").write(new)


def check_edits():
    """Prints the edits whose text does not stand once in the file that they change."""
    for path in edits():
        crate = path.split("/must-fail/")[0]
        texts, target = {}, None
        lines = open(path).read().split("\n")
        for i, line in enumerate(lines):
            if line.startswith("file: "):
                target = line[len("file: "):]
                texts.setdefault(target, open(f"{crate}/{target}").read())
            elif line.startswith("old: "):
                old = line[len("old: "):]
                if texts[target].count(old) != 1:
                    print(f"{path}: {texts[target].count(old)} times in {target}: {old}")
                else:
                    texts[target] = texts[target].replace(old, lines[i + 1][len("new: "):])


def main():
    if sys.argv[1:] == ["--edits"]:
        check_edits()
        return
    names = table()
    if sys.argv[1:] == ["--table"]:
        for old in sorted(names):
            print(old, names[old])
        for new, old in sorted(together(names).items()):
            print("together:", new, *sorted(old))
        return
    for path in files():
        text = open(path).read()
        new = turn(imported(text), names)
        if "/specs/" in path:
            new = indexed(new)
        if new != text:
            open(path, "w").write(new)
    for path in sources():
        text = open(path).read()
        out, at = [], 0
        for start, end in sorted(clauses(text)):
            out += [text[at:start], indexed(turn(text[start:end], names))]
            at = end
        new = ("".join(out) + text[at:]).replace("#[derive(Drop)]", "#[derive(Clone, Copy)]")
        if path.endswith(("src/lib.rt", "src/main.rt")):
            new = head(new)
        if new != text:
            open(path, "w").write(new)
    turn_edits(names)
    check_edits()


if __name__ == "__main__":
    main()
