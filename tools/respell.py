#!/usr/bin/env python3
"""Brings the repository's own definitions and lemmas to the spelling of today's Rattle: words in snake case.

usage: tools/respell.py      at the top of the repository, once, behind the kit's port.py

Declared names are read from specs/ and proofs/: definitions, lemmas, fields, constructors. Names of src/, types and modules keep theirs.
Where a lemma would get the name of a definition that stands in a file with it, it gets `_lem` behind it. Documents are turned where a name stands in backticks."""
import collections
import pathlib
import re
import sys

IDENT = r"[^\s(){}\[\],;.:@\"`|]+"
TOKEN = re.compile(rf"({IDENT})")

# A lemma that fell together with a definition when port.py respelled both: the module that declares it, the name, and its own.
MERGED = [
    ("Rattle.pool.proofs.Far", "crates/pool/proofs/Far.antt", "word_at", "word_at_lem"),
    ("Rattle.pool.proofs.Words", "crates/pool/proofs/Words.antt", "word_in", "word_in_lem"),
    ("Rattle.word.proofs.Runs", "crates/word/proofs/Runs.antt", "is_among", "is_among_lem"),
]


def antt(root):
    for folder in ("specs", "proofs"):
        yield from sorted(root.glob(f"crates/*/{folder}/**/*.antt"))


def declared(root):
    """Every name that stands in specs/ or in a lemma file of proofs/ and is none of the library's."""
    names, library = set(), set()
    for path in antt(root):
        if path.name == "Proof.antt":
            continue
        text = path.read_text()
        for found in re.finditer(r"^(?:pub )?use (?!Rattle\.)[^{\n]*\{([^}]*)\}|^(?:pub )?use Rattle\.(?:std|core)[^{\n]*\{([^}]*)\}", text, re.M):
            library.update(TOKEN.findall(found[1] or found[2]))
        for line in text.splitlines():
            if not line.lstrip().startswith("--"):
                names.update(TOKEN.findall(line))
    return names - library


def snake(name):
    return re.sub(r"(?<=[a-z0-9])([A-Z])", lambda m: "_" + m[1].lower(), name.replace("-", "_"))


def turned(names, together):
    """The old names with the new ones."""
    new = collections.defaultdict(list)
    for name in names:
        if re.fullmatch(r"[a-z][a-zA-Z0-9_'₀-₉-]*|[A-Z][a-z]*-[a-z]+", name):
            new[snake(name)].append(name)
    to = {}
    for word, olds in sorted(new.items()):
        for old in olds:
            # Of several in one file the definition, in camel case, has the plain name.
            clash = "-" in old and any(together(old, other) for other in olds if other != old)
            if old != word or clash:
                to[old] = word + "_lem" if clash else word
    return to


def merged(root):
    for module, home, old, own in MERGED:
        for path in antt(root):
            text = path.read_text()
            imports = re.search(rf"^use {re.escape(module)}\.\{{([^}}]*)\}}", text, re.M)
            if str(path.relative_to(root)) == home or (imports and old in re.split(r"[,\s]+", imports[1])):
                path.write_text(TOKEN.sub(lambda m: own if m[1] == old else m[1], text))


def main():
    root = pathlib.Path(__file__).resolve().parent.parent
    merged(root)
    words = {path: {found[1] for found in TOKEN.finditer(path.read_text())} for path in antt(root)}
    to = turned(declared(root), lambda one, other: any(one in there and other in there for there in words.values()))
    swap = lambda text: TOKEN.sub(lambda m: to.get(m[1], m[1]), text)
    for path in antt(root):
        text = path.read_text()
        # An import of the library keeps its names, also where one of ours is spelled alike.
        lines = [line if re.match(r"(pub )?use (?!Rattle\.)|use Rattle\.(std|core)", line) else swap(line) for line in text.split("\n")]
        path.write_text("\n".join(lines))
    for path in sorted(root.glob("crates/*/src/**/*.rt")):
        path.write_text("".join(ghost(swap, path.read_text())))
    # The kit's script turned some of them before.
    now = declared(root)
    document = lambda m: to[m[1]] if m[1] in to else snake(m[1]) if snake(m[1]) in now and m[1][0].islower() else m[1]
    for path in [*root.glob("*.md"), *root.glob("docs/**/*.md")]:
        text = path.read_text()
        path.write_text(re.sub(r"`[^`\n]*`", lambda m: TOKEN.sub(document, m[0]), text))
    for old, new in sorted(to.items()):
        print(old, new)


def ghost(swap, text):
    """Clauses and ghost imports alone: code keeps its names."""
    depth, clause = 0, False
    for line in text.splitlines(keepends=True):
        begins = re.match(r"\s*(requires|ensures|ghost|decreases|invariant)\b", line)
        if begins or clause:
            if begins and not clause:
                depth = 0
            depth += line.count("{") - line.count("}")
            clause = depth > 0
            yield swap(line)
        else:
            yield line


if __name__ == "__main__":
    sys.exit(main())
