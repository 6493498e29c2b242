#!/usr/bin/env python3
"""Brings the repository's own definitions and lemmas to today's spelling: words in snake case, modules of specs/ in upper camel case.

usage: tools/respell.py [ROOT]     once, after port.py; ROOT is the top of the repository (default: this one)

A name is the repository's own where a file of specs/ or proofs/ declares or binds it. Goals and the words of Rattle's that proofs cite stay as they are,
and so does a name that a file imports from a library. Names of src/, of exported functions, strings, inputs and outputs stay.
It prints what it turned, and stops before it writes if two names fall together.
"""
import collections
import os
import pathlib
import re
import sys

WORD = r'[^\s(){}.;,@"`«»:]+'
DASHED = re.compile(r"[\w']-\w")
COMMENT = re.compile(r"(?:(?<=\s)|^)--(?=\s).*$|//.*$", re.M)


def crates(root):
    lines = (root / "crates.txt").read_text().splitlines()
    return [line.split(":")[0].split()[0] for line in lines if line.strip() and not line.startswith("#")]


def code_of(text):
    return COMMENT.sub("", text)


def uses(code):
    """The items of each import: module, name, name here."""
    for module, items in re.findall(r"use ([^\s{;]+)\.\{([^}]*)\}", code):
        for item in items.split(","):
            words = item.split()
            if words:
                yield module, words[0], words[-1]


def names_in(code, is_proof):
    for match in re.finditer(r"(?m)^ *(?:\w+ )*?(" + WORD + r")(?: \{[^{}\n]*\})* : ?(.*)$", code):
        if not (is_proof and re.match(r"(tie|need|goal)\.", match[2])):
            yield match[1]
    for match in re.finditer(r"[({]((?:" + WORD + r" )+):", code):
        yield from match[1].split()
    for match in re.finditer(r"λ ((?:" + WORD + r" ?)+)\.", code):
        yield from match[1].split()
    for match in re.finditer(r"\blet (" + WORD + r") [:=]", code):
        yield match[1]
    # clauses of a local definition, and the fields of records
    for match in re.finditer(r"(?m)^ +(" + WORD + r")(?: [^=\n]*)? = ", code):
        yield match[1]


def main():
    root = pathlib.Path(sys.argv[1] if len(sys.argv) > 1 else pathlib.Path(__file__).resolve().parent.parent)
    own_crates = crates(root)
    is_own = lambda module: module.startswith("Rattle.") and module.split(".")[1] in own_crates and module.split(".")[1] != "std"
    antt = [p for p in sorted(root.glob("crates/*/*/**/*.antt")) if "out" not in p.parts]
    source = [p for p in sorted(root.glob("crates/*/src/**/*.rt"))]
    texts = {p: p.read_text() for p in antt + source}

    own, kept, library, foreign = set(), set(), set(), collections.defaultdict(set)
    for path in antt:
        code = code_of(texts[path])
        is_proof = path.name == "Proof.antt"
        for name in names_in(code, is_proof):
            if DASHED.search(name):
                own.add(name)
        if is_proof:
            kept |= {m[1] for m in re.finditer(r"(?m)^(?:\w+ )*?(" + WORD + r") : (?:tie|need|goal)\.", code)}
        else:
            # an alias, a variable of a clause: what no library lends is the repository's own
            own |= {word for word in re.findall(r"(?<![^\s({,])" + WORD, code) if DASHED.search(word)}
    for path, text in texts.items():
        for module, name, here in uses(code_of(text)):
            if not is_own(module):
                library.add(name)
                if name == here:
                    foreign[path].add(name)
                elif DASHED.search(here):
                    own.add(here)
    declared = {name for path in antt if path.name != "Proof.antt" for name in names_in(code_of(texts[path]), False)}
    own -= kept - declared
    for path in source:
        own |= {here for module, name, here in uses(code_of(texts[path])) if DASHED.search(here)}
    own = {name for name in own if name in declared or name not in library}
    turned = {name: name.replace("-", "_") for name in own}
    clash = sorted(name for name, new in turned.items() if any(new in here for here in foreign.values()))
    twins = [new for new, n in collections.Counter(turned.values()).items() if n > 1]
    if clash or twins:
        sys.exit(f"these names fall together: {clash} {twins}")

    def turned_alias(items):
        return re.sub(r"( as )(" + WORD + ")", lambda m: m[1] + turned.get(m[2], m[2]), items)

    def turn_code(text, path):
        """Own names, but for those of a library that the file imports; behind a dot each is a field or a member."""
        far = foreign.get(path, set())

        def item(match):
            module, items = match[1], match[2]
            return f"use {module}.{{{words(items, set()) if is_own(module) else turned_alias(items)}}}"

        def words(part, far):
            def one(match):
                name = match[0]
                behind = match.start() > 0 and part[match.start() - 1] == "."
                return turned[name] if name in turned and (behind or name not in far) else name

            return re.sub(WORD, one, part)

        pieces, at = [], 0
        for match in re.finditer(r"use ([^\s{;]+)\.\{([^}]*)\}", text):
            pieces.append(words(text[at : match.start()], far))
            pieces.append(item(match))
            at = match.end()
        pieces.append(words(text[at:], far))
        return "".join(pieces)

    def turn(text, path):
        """The code, and in a comment the spans and the words that the code has."""
        code_words = set(re.findall(WORD, code_of(text)))
        pieces, at = [], 0
        for match in COMMENT.finditer(text):
            pieces.append(turn_code(text[at : match.start()], path))
            pieces.append(re.sub(WORD, lambda m: turned[m[0]] if m[0] in turned and m[0] in code_words else m[0], match[0]))
            at = match.end()
        pieces.append(turn_code(text[at:], path))
        return "".join(pieces)

    def quoted(text):
        return re.sub(r"`[^`\n]*`", lambda m: re.sub(WORD, lambda w: turned.get(w[0], w[0]), m[0]), text)

    # modules of specs/ that begin with a small letter
    modules = collections.defaultdict(set)
    for crate in own_crates:
        folder = root / "crates" / crate / "specs"
        for path in folder.glob("*.antt") if folder.exists() else []:
            if path.stem[0].islower():
                modules[crate].add(path.stem)

    def capital(name):
        return name[0].upper() + name[1:]

    def turn_modules(text, crate):
        for c, names in modules.items():
            for name in names:
                text = re.sub(rf"(?<![\w.])Rattle\.{c}\.specs\.{name}(?![\w-])", f"Rattle.{c}.specs.{capital(name)}", text)
                text = re.sub(rf"crates/{c}/specs/{name}(?![\w-])", f"crates/{c}/specs/{capital(name)}", text)
        return text

    changed = 0
    for path, text in texts.items():
        crate = path.relative_to(root).parts[1]
        new = turn_modules(turn(text, path), crate)
        if path.name == "Lib.antt" and path.parent.name == "specs":
            new = re.sub(r"(?m)^((?:pub )?mod )(«?)(\w+)(»?)", lambda m: m[1] + (capital(m[3]) if m[3] in modules[crate] else m[2] + m[3] + m[4]), new)
        if new != text:
            path.write_text(new)
            changed += 1
    for page in [root / "README.md", *sorted((root / "docs").glob("**/*.md"))]:
        text = page.read_text()
        new = turn_modules(quoted(text), "")
        if new != text:
            page.write_text(new)
            changed += 1
    for crate, names in modules.items():
        folder = root / "crates" / crate / "specs"
        for name in sorted(names):
            for old in (folder / f"{name}.antt", folder / name):
                if old.exists():
                    old.rename(old.with_name(capital(old.name)))
    print(f"{len(turned)} names, {sum(map(len, modules.values()))} modules, {changed} files")
    if os.environ.get("RESPELL_LIST"):
        for name in sorted(turned):
            print(name, turned[name])


main()
