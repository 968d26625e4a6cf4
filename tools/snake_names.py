#!/usr/bin/env python3
"""Spells the repository's own definitions and lemmas in snake case, by the table snake_names.tsv beside this script.

usage: tools/snake_names.py            in the repository, once, right after the kit's port.py
       tools/snake_names.py --table    writes the table from the tree as port.py left it

A row of the table: kind, old name, new name, and where it holds (a file, or * for every file).
Kinds: camel (turns everywhere, also behind a dot and in comments), dash (turns in .antt code and in code spans of comments,
behind a dot only where it is a field of a record of the repository), word (as dash: a lemma that has its function's name), type (as camel).
Names that a file imports from the kit stay there. Functions of src/, strings, inputs and outputs are not touched.
"""
import os
import re
import sys
import collections

HERE = os.path.dirname(os.path.realpath(__file__))
TOP = os.path.dirname(HERE)
TABLE = os.path.join(HERE, "snake_names.tsv")
WORD = re.compile(r'[^\s(){}.;,@"«»`\[\]|⌜⌝]+')
DECL = re.compile(r"^(\s*)((?:(?:unfoldable|abbrev|pub)\s+)*)(data |record |mod |use )?([^\s(){}.;,@\"«»]+)((?:\s+[^\s(){}.;,@\"«»:=]+)*)\s*:(?:\s|$)")
# names of functions: between two of them a dash stays
FUNCTIONS = {
    "length", "take", "drop", "set", "sets", "append", "replicate", "map", "reverse", "get_or", "sum", "min", "max", "cond", "mul", "add", "sub",
    "div", "mod", "to_z", "of_z", "suc", "zip", "fold", "filter", "concat", "eq", "le", "lt",
}


def files(*ends):
    for folder, dirs, names in os.walk(os.path.join(TOP, "crates")):
        dirs[:] = sorted(d for d in dirs if d != "out")
        for n in sorted(names):
            if n.endswith(ends):
                yield os.path.join(folder, n)


def own_crates():
    return set(os.listdir(os.path.join(TOP, "crates")))


def code_of(line):
    """The code of an .antt line, without its comment."""
    m = re.search(r"(?:^|\s)--(?:\s|$)", line)
    return (line[: m.start()], line[m.start():]) if m else (line, "")


USE = re.compile(r"^(?:ghost )?(?:pub )?use ([^\s{;]+?)(?:\.\{(.*)\})?(?: as (\S+))?;?\s*$")


def foreign(text, own):
    """Names that a file imports from elsewhere than a crate of the repository."""
    out = set()
    for line in text.split("\n"):
        m = USE.match(line.strip())
        if not m or not m.group(2):
            continue
        head = m.group(1).split(".")
        if head[0] == "Rattle" and len(head) > 1 and head[1] in own:
            continue
        for item in m.group(2).split(","):
            for w in item.split(" as "):
                out.add(w.strip())
    return out


def snake(n):
    n = re.sub(r"^getD(?=[-_]|$)", "get_or", n)
    n = re.sub(r"([a-z0-9])([A-Z])(?=[a-z0-9]|$|[-_'])", lambda m: m.group(1) + "_" + m.group(2).lower(), n)
    n = re.sub(r"([a-z0-9])([A-Z]+)", lambda m: m.group(1) + "_" + m.group(2).lower(), n)
    return n


def declared():
    """Declared names by file; and those that are record fields."""
    decl = collections.defaultdict(set)
    fields = set()
    for p in files(".antt"):
        rel = os.path.relpath(p, TOP)
        inrec = False
        for line in open(p, encoding="utf-8"):
            code, _ = code_of(line.rstrip("\n"))
            if not code.strip():
                continue
            if not code.startswith(" "):
                inrec = False
            m = re.match(r"^\s*(?:pub |private )*(record|data)\s+(\S+)", code)
            if m:
                decl[m.group(2)].add(rel)
                inrec = True
                continue
            m = DECL.match(code)
            if m and not m.group(3):
                names = [m.group(4)] + m.group(5).split()
                if any(re.search(r"[=→λ:]", n) for n in names):
                    continue
                rest = code[m.end():].strip()
                if os.path.basename(p) == "Proof.antt" and (rest.startswith("tie.Need") or names[0].endswith(("-spec", "_spec")) or rest.startswith("tie.invariant") or rest.startswith("tie.decreases")):
                    continue
                for n in names:
                    decl[n].add(rel)
                    if inrec and code.startswith(" "):
                        fields.add(n)
    return decl, fields


def tokens(text, antt):
    out = set()
    for line in text.split("\n"):
        code = code_of(line)[0] if antt else line
        out.update(WORD.findall(code))
    return out


def make_table():
    own = own_crates()
    decl, fields = declared()
    functions = set(FUNCTIONS)
    for n, where in decl.items():
        if any("/specs/" in w for w in where) and re.match(r"[a-z]", n):
            functions.add(snake(n).replace("-", "_"))
    rows = []
    new = {}
    for n in sorted(decl):
        if re.match(r"[A-Z].*[-_]", n):
            to = "".join(x[:1].upper() + x[1:] for x in re.split(r"[-_]", n))
            new[n] = ("type", to)
        elif re.match(r"[a-z].*[A-Z]", n) and "-" not in n:
            new[n] = ("camel", snake(n))
        elif re.match(r"[^\W\d_A-Z]", n) and "-" in n:
            parts = [snake(x) for x in n.split("-")]
            to = parts[0]
            for i, x in enumerate(parts[1:], 1):
                left, right = to.split("-")[-1], "_".join(parts[i:])
                keep = left in functions and (x in functions or right in functions)
                to += ("-" if keep else "_") + x
            new[n] = ("dash", to)
    # names that fall together in one file
    texts = {os.path.relpath(p, TOP): open(p, encoding="utf-8").read() for p in files(".antt", ".rt")}
    bad = collections.defaultdict(set)
    for rel, t in texts.items():
        # in a .rt file a definition may have its function's name; behind a dot stand steps and fields
        if not rel.endswith(".antt"):
            continue
        toks = tokens(re.sub(r"(?<=[^\s(])\.[^\s(){}.;,@]+", "", t), True)
        far = foreign(t, own)
        seen = {}
        for w in sorted(toks):
            to = new[w][1] if w in new and w not in far else w
            if to in seen and seen[to] != w:
                bad[to].update((seen[to], w, rel))
            seen[to] = w
    for to, pair in sorted(bad.items()):
        for w in sorted(pair):
            if w in new and new[w][0] == "dash" and new[w][1] == to:
                new[w] = ("dash", to + "_lem")
            elif w == to and w in decl and any(x in new and new[x][0] == "camel" for x in pair) and not any("/specs/" in x for x in decl[w]):
                new[w] = ("word", to + "_lem")
    for n, (kind, to) in sorted(new.items()):
        if to != n:
            rows.append((kind, n, to, "field" if n in fields else "*"))
    with open(TABLE, "w", encoding="utf-8") as f:
        f.write("".join("\t".join(r) + "\n" for r in rows))
    for to, pair in sorted(bad.items()):
        print("together:", to, sorted(pair))
    print(len(rows), "rows")


def load():
    table = {}
    for line in open(TABLE, encoding="utf-8"):
        kind, old, to, where = line.rstrip("\n").split("\t")
        table[old] = (kind, to, where == "field")
    return table


def turn_code(code, table, far, after_dot=True):
    def one(m):
        w = m.group(0)
        if w not in table or w in far:
            return w
        kind, to, field = table[w]
        behind = m.start() > 0 and code[m.start() - 1] == "."
        if kind in ("dash", "word") and behind and not field:
            return w
        return to

    return WORD.sub(one, code)


def turn_comment(text, table):
    def span(m):
        return WORD.sub(lambda x: table[x.group(0)][1] if x.group(0) in table else x.group(0), m.group(0))

    text = re.sub(r"`[^`]*`", span, text)
    return WORD.sub(lambda x: table[x.group(0)][1] if x.group(0) in table and table[x.group(0)][0] in ("camel", "type") else x.group(0), text)


RT_STRING = re.compile(r'b?"(?:\\.|[^"\\])*"')


def apply():
    table = load()
    own = own_crates()
    camel = {k: v for k, v in table.items() if v[0] in ("camel", "type")}
    n = 0
    for p in files(".antt", ".rt", ".edit"):
        text = open(p, encoding="utf-8").read()
        far = foreign(text, own)
        out = []
        local = set()
        if os.path.basename(p) == "Proof.antt":
            # the answers of goals keep the goals' names
            for line in text.split("\n"):
                m = re.match(r"^(?:pub |abbrev )*(\S+) : (?:tie\.(?:Need|invariant|decreases)|\{M : Type 1\} → statement)", line)
                if m:
                    local.add(m.group(1))
        for line in text.split("\n"):
            if p.endswith(".antt"):
                code, comment = code_of(line)
                line = turn_code(code, table, far | local) + turn_comment(comment, table)
            elif p.endswith(".rt"):
                m = re.match(r"^(.*?)(//.*)?$", line) if '"' not in line else None
                if m:
                    line = turn_code(m.group(1), camel, far) + turn_comment(m.group(2) or "", camel)
            else:
                line = turn_code(line, table, set()) if not line.startswith("file:") else line
            out.append(line)
        new = "\n".join(out)
        if new != text:
            open(p, "w", encoding="utf-8").write(new)
            n += 1
    print(n, "files")


if __name__ == "__main__":
    make_table() if sys.argv[1:] == ["--table"] else apply()
