#!/usr/bin/env python3
"""Brings the repository's own names to one spelling, after /opt/rattle/port/port.py has turned the rest.

usage: python3 tools/respell.py        at the top of the repository, once

Words are in snake case: headWords and head-words become head_words. Types are in camel case: Holds-code becomes HoldsCode. Where a lemma or a claim
would then have the name of a definition it gets `_lem`. Functions of src/, exported names, strings, inputs and outputs keep their names: only
clauses, `ghost use` lines and comments of a .rt file are read. Wrong programs and controls are turned along with the texts that they change, and the
names between backquotes in the pages with them. Clauses that got a name get one that says what they are.
"""

import collections
import os
import re
import sys

TOKEN = re.compile(r"[A-Za-z_\u0370-\u03ff\u2080-\u208e\u2100-\u214f][\w'\u2080-\u208e-]*")
DECLARED = re.compile(r"\s*(?:pub |abbrev |unfoldable )*([\w'-]+) (?:\{.*?\} |\(.*?\) )*:(?!:)")
USE = re.compile(r"\s*(?:ghost )?use ([\w.-]+?)(?:\.\{(.*)\})?\s*;?\s*$")
# names that a proof file cites of what the check makes
MADE = ("Need-", "After-", "Then-", "Else-", "invariant-", "decreases-")
# capitals that a library's spelling brought into names of steps
STEPS = {"Line-of", "Code-in", "Listed-of", "Numbers-of", "Put-refused", "Shift-of"}
HEX = re.compile(r"x[0-9A-F]+$")
# operators and words of the older spelling, in texts of edits
OLD_WORDS = [
    (re.compile(r"Rattle·(\w+)·(specs|proofs)\.\2\b"), r"Rattle.\1.\2"),
    (re.compile(r"Rattle·(\w+)"), r"Rattle.\1"),
    (re.compile(r"(?<=[{ ,])_([^\w\s,{}]+)_(?=[,}])"), r"◌\1◌"),
    (re.compile(r"\((\w+(?: [\w']+)+) (\.[a-z0-9]+)\)"), r"(\1)\2"),
    (re.compile(r"(?<=[\w)']) (\.[a-z0-9][\w'-]*)"), r"\1"),
    (re.compile(r"(?<=[ (])\(([\w']+(?:\.[\w'-]+)+)\)"), r"\1"),
    (re.compile(r"\bgetD\b"), "get_or"),
    (re.compile(r"\bltZ\b"), "lt_z"),
    (re.compile(r"\bleZ\b"), "le_z"),
    (re.compile(r"\bnegℤ\b"), "neg_ℤ"),
    (re.compile(r"\bnatAbs\b"), "nat_abs"),
    (re.compile(r"′"), "'"),
]


def files(root, *ends):
    for folder, dirs, names in os.walk(root):
        dirs[:] = sorted(d for d in dirs if d not in ("out", "target", ".git"))
        for name in sorted(names):
            if name.endswith(ends):
                yield os.path.join(folder, name)


def read(path):
    with open(path, encoding="utf-8") as f:
        return f.read()


def write(path, text):
    with open(path, "w", encoding="utf-8") as f:
        f.write(text)


class Names:
    """The names of the sources, and what becomes of each."""

    def __init__(self, root):
        self.imported, self.declared, self.used, self.functions = set(), set(), set(), set()
        for path in files(os.path.join(root, "crates"), ".antt", ".rt"):
            text = re.sub(r"(--|//).*", "", read(path))
            for line in text.split("\n"):
                use = USE.match(line)
                if use:
                    library = not use[1].startswith("Rattle.") or use[1].startswith("Rattle.std")
                    for word in re.split(r",\s*", use[2] or ""):
                        if library:
                            self.imported.update(w.strip() for w in word.split(" as "))
                    self.used.update(TOKEN.findall(use[2] or ""))
                    continue
                function = re.match(r'\s*(?:pub(?:\(\w+\))? )?(?:extern "C" )?fn (\w+)', line)
                if function:
                    self.functions.add(function[1])
                if path.endswith(".antt"):
                    found = DECLARED.match(line)
                    if found:
                        self.declared.add(found[1])
                    self.used.update(TOKEN.findall(line))
        self.turned = {}
        camel = {n for n in self.used if self.is_word(n) and re.search("[A-Z]", n)}
        plain = {self.snake(n) for n in camel}
        # what port.py has put into snake case, and what a definition in camel case needs now
        older = {n for n in self.declared if n in plain and "-" not in n}
        for n in camel:
            self.turned[n] = self.snake(n)
        for n in older:
            self.turned[n] = n + "_lem"
        taken = plain | (self.declared - older) | self.imported
        for n in self.used - camel:
            if n in STEPS:
                self.turned[n] = n.lower().replace("-", "_")
            elif "-" not in n or n in self.imported or n.startswith(MADE):
                continue
            elif n[0].isupper():
                if n in self.declared:
                    self.turned[n] = "".join(p[:1].upper() + p[1:] for p in n.split("-"))
            else:
                to = self.snake(n)
                self.turned[n] = to + "_lem" if n in self.declared and to in taken else to

    def is_word(self, n):
        return n[0].islower() and "-" not in n and n not in self.imported and not HEX.match(n) and not n.startswith(MADE)

    @staticmethod
    def snake(n):
        n = re.sub(r"(?<=[a-z0-9])([A-Z])", lambda m: "_" + m[1].lower(), n.replace("-", "_"))
        return re.sub(r"([A-Z])", lambda m: "_" + m[1].lower(), n)

    def text(self, text, steps=False):
        def turn(m):
            n = m[0]
            if n not in self.turned:
                return n
            to = self.turned[n]
            # a step of a proof is named after the function that is called
            if steps and m.start() and text[m.start() - 1] == "." and n.replace("-", "_") in self.functions:
                return n.replace("-", "_")
            return to

        return TOKEN.sub(turn, text)

    def source(self, text):
        """A .rt file: its code keeps its names."""
        out, clause = [], 0
        for line in text.split("\n"):
            here = line.strip()
            if here.startswith(("ghost use ", "//", "requires", "ensures", "ghost ")) or clause:
                out.append(self.text(line))
                if not here.startswith(("ghost use ", "//")):
                    clause += line.count("{") - line.count("}")
            else:
                code, mark, comment = line.partition(" // ")
                out.append(code + mark + (self.text(comment) if mark else ""))
        return "\n".join(out)


def clause_names(text):
    text = re.sub(r"ensures result_value (\{ result\.now .*)\n(\s*)ensures ref_ptr_value ", r"ensures part \1\n\2ensures place ", text)
    text = re.sub(r"(ensures )result_value( \{.*\n\s*ensures )value ", r"\1reply\2case ", text)
    return re.sub(r"ensures result_value ", "ensures reply ", text)


def edit(names, text, folder):
    """An edit in the new spelling. Names that port.py had put into snake case are turned here, and names that an edit imports come from the Prelude."""
    out, path = [], ""
    for line in text.split("\n"):
        if line.startswith("file: "):
            path = line[6:].strip()
        key, mark, rest = line.partition(":")
        if key in ("old", "new") and mark:
            if path.endswith(".antt") or re.search(r"[⌜⌝λ≡]|ghost use", rest):
                for was, to in OLD_WORDS:
                    rest = was.sub(to, rest)
                rest = re.sub(r"\{ λ (\w+)\. ⌜ (.*) ⌝ \}", lambda m: "{ " + re.sub(rf"\b{m[1]}\b", "result", m[2]) + " }", rest)
                rest = re.sub(r"\{ ⌜ (.*) ⌝ \}", r"{ \1 }", rest)
                rest = re.sub(r"now \((\w+)\.entry\)", r"\1.now", rest)
                rest = TOKEN.sub(lambda m: names.snake(m[0]) if m[0] not in names.turned and names.snake(m[0]) in names.declared else m[0], rest)
                rest = names.text(rest)
            line = key + mark + rest
        elif line.startswith("#"):
            line = names.text(line)
        out.append(line)
    return "\n".join(out)


def with_tactic(path, text):
    """The root of a crate asks for tactics, below the comment at its head."""
    if os.path.basename(path) not in ("lib.rt", "main.rt") or "#![tactic" in text:
        return text
    head = re.match(r"(?://.*\n)*", text)[0]
    return head + ("\n" if head else "") + "#![tactic(auto)]\n" + text[len(head) :]


LIBRARY = re.compile(r"(old|new): use (?:Prim|mathlib|lib|native|borrow)[\w.-]*\.\{(.*)\}$")


def imports(text, folder):
    """Pairs that change what an edit imports of the library: the names that it adds stand in the file's line of the Prelude."""
    lines, out, path, i = text.split("\n"), [], "", 0
    prelude = {}
    while i < len(lines):
        line = lines[i]
        if line.startswith("file: "):
            path = line[6:].strip()
        was, to = LIBRARY.match(line), LIBRARY.match(lines[i + 1]) if i + 1 < len(lines) else None
        if was and to and was[1] == "old" and to[1] == "new":
            if path not in prelude:
                prelude[path] = re.search(r"(?m)^use Rattle\.std\.specs\.Prelude\.\{(.*)\}$", read(os.path.join(folder, path)))[1].split(", ")
            now = prelude[path]
            more = now + [n for n in to[2].split(", ") if n not in was[2].split(", ") and n not in now]
            if more != now:
                out += [f"{key}: use Rattle.std.specs.Prelude.{{{', '.join(them)}}}" for key, them in (("old", now), ("new", more))]
                prelude[path] = more
            i += 2
            continue
        out.append(line)
        i += 1
    return "\n".join(out)


def stands(root):
    """Says which edits do not fit the text any more."""
    bad = 0
    for path in files(os.path.join(root, "crates"), ".edit"):
        crate = path.split(os.sep + "must-fail")[0] if "must-fail" in path else os.path.dirname(path)
        texts, old, name = {}, None, ""
        for line in read(path).split("\n"):
            if line.startswith("file: "):
                name = line[6:].strip()
                if name not in texts:
                    texts[name] = read(os.path.join(crate, name)) if os.path.exists(os.path.join(crate, name)) else ""
            elif line.startswith("old: "):
                old = line[5:]
            elif line.startswith("new:") and old is not None:
                n = texts[name].count(old)
                if n != 1:
                    print(f"{os.path.relpath(path, root)}: {name} has {n} times: {old}")
                    bad += 1
                texts[name] = texts[name].replace(old, line[5:], 1)
                old = None
    print(f"{bad} texts of edits do not stand once")


def main():
    root = os.getcwd()
    if sys.argv[1:] == ["edits"]:
        return stands(root)
    names = Names(root)
    falls = collections.defaultdict(set)
    for n in names.used:
        falls[names.turned.get(n, n)].add(n)
    for to, of in sorted(falls.items()):
        declared = [n for n in of if n in names.declared]
        if len(declared) > 1:
            print(f"two names fall together in {to}: {' '.join(sorted(declared))}")
    for path in files(os.path.join(root, "crates"), ".antt"):
        write(path, names.text(read(path), steps=path.endswith("Proof.antt")))
    for path in files(os.path.join(root, "crates"), ".rt"):
        write(path, with_tactic(path, clause_names(names.source(read(path)))))
    for path in files(os.path.join(root, "crates"), ".edit"):
        folder = path.split(os.sep + "must-fail")[0] if "must-fail" in path else os.path.dirname(path)
        write(path, imports(edit(names, read(path), folder), folder))
    for path in [os.path.join(root, "README.md"), *files(os.path.join(root, "docs"), ".md")]:
        write(path, re.sub(r"`[^`\n]+`", lambda m: names.text(m[0]) if "/" not in m[0] else m[0], read(path)))
    stands(root)


if __name__ == "__main__":
    main()
