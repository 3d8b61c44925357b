"""Wrong programs: what their files say (the head of tools/wrong has the form), and the crates that they are about."""
import dataclasses
import functools
import itertools
import pathlib
import re

root = pathlib.Path(__file__).resolve().parent.parent
out = root / 'target/wrong'
parts = ('src', 'specs', 'proofs')
needs = {name: below.split() for name, below in re.findall(r'^(\w+)(?: staticlib)?:(.*)$', (root / 'crates.txt').read_text(), re.M)}


class Bad(Exception):
    pass


@dataclasses.dataclass
class Edit:
    """The crate that must be refused, with the crates that are edited, the file and the law; and what is replaced: (file, old text, new text,
    whether everywhere). Without a file nothing is replaced, and the crate must be proved."""
    name: str
    crate: str
    edited: set
    at: str = ''
    law: str = ''
    pairs: tuple = ()

    def crates(self, top):
        """The crates to check for this one: the edited ones and what stands on them, the lowest first; and itself."""
        return [one for one in sorted(below(top), key=lambda one: (level(one), one)) if {one, *below(one)} & self.edited] + [top]


@functools.cache
def below(crate):
    return frozenset(need for step in needs[crate] if step in needs for need in (step, *below(step)))


def level(crate):
    """How many crates stand below it, one on the other."""
    return max((1 + level(need) for need in needs[crate] if need in needs), default=0)


def tops():
    """The crates with laws that no other such stands on: those that only print are not meant."""
    libraries = [crate for crate in needs if (root / 'crates' / crate / 'specs').is_dir()]
    return [crate for crate in libraries if not any(crate in below(one) for one in libraries)]


def texts(lines):
    """The lines of an edit, as pairs of a word and its text, where those of a text in a row are one."""
    for word, found in itertools.groupby(lines, lambda line: line[0]):
        if word in ('old', 'every', 'new'):
            yield word, '\n'.join(text for _, text in found)
        else:
            yield from found


def group(path):
    """The crate that an edit belongs to, or 'chain'."""
    return 'chain' if path.parent.parent == root else path.parent.parent.name


def read(path):
    """The edit of a file."""
    inside = '' if group(path) == 'chain' else f'crates/{group(path)}/'
    at = law = file = ''
    old, pairs = ('', False), []
    for word, text in texts(re.findall(r'^(at|law|file|old|every|new):(?: |$)(.*)', path.read_text(), re.M)):
        if word == 'at':
            at = inside + text
        elif word == 'law':
            law = text
        elif word == 'file':
            file = inside + text
        elif word == 'new':
            pairs.append((file, old[0], text, old[1]))
            old = ('', False)
        else:
            old = (text, word == 'every')
    crates = {pathlib.PurePosixPath(name).parts[1] for name, *_ in pairs if re.match(r'crates/\w+/', name)}
    crate = (re.match(r'crates/(\w+)/', at) or ['', ''])[1]
    if not at or not pairs or (not inside and not law):
        raise Bad("it has no line 'at:', or no pair of 'old:' and 'new:', or is of no crate and names no 'law:'")
    if crate not in needs or not crates <= {crate, *below(crate)}:
        raise Bad(f"it edits {' '.join(sorted(crates))}, and not only what the crate of '{at}' stands on")
    return Edit(f'{group(path)}/{path.stem}', crate, crates, at, law, tuple(pairs))


def replaced(edit, where):
    """The files that an edit changes there, with their new texts."""
    texts = {}
    for name, old, new, every in edit.pairs:
        path = pathlib.PurePosixPath(name)
        if '..' in path.parts or path.parts[2:3] not in [(part,) for part in parts] or not (where / path).is_file():
            raise Bad(f"'file: {name}' names no file of a crate")
        text = texts.get(name) or (where / path).read_text()
        times = text.count(old) if old else 0
        if times != 1 and not (every and times):
            raise Bad(f'an old text is {times} times in {name}: {old}')
        texts[name] = text.replace(old, new)
    return texts


def fits(edit):
    """Whether the edit can be applied, and the file and the law that must refuse it are there then."""
    texts = replaced(edit, root)
    if not (root / edit.at).is_file():
        raise Bad(f"'at: {edit.at}' names no file")
    text = texts.get(edit.at) or (root / edit.at).read_text()
    if edit.law and not re.search(rf'^ *((private|pub|abbrev) )*{re.escape(edit.law)}( [^:\n]*)? *:', text, re.M):
        raise Bad(f"'law: {edit.law}' is declared nowhere in {edit.at}")


def apply(edit, where):
    for name, text in replaced(edit, where).items():
        (where / name).write_text(text)
