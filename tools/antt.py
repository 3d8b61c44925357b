"""The crates' .antt files, read as text: what each declares, and what the names in it refer to, by the `use` lines. To be imported.

A name refers to one of these, a tuple whose first word says which:
    ('antt', CRATE, 'specs' or 'proofs', MODULE, NAME)   a declaration; of a constructor or an opened field, its type's
    ('type', CRATE, FILE, NAME)                          a struct or an enum of src/FILE.rt
    ('kit', NAME)                                        a name of the kit's libraries
    ('unknown', NAME)                                    none of these: this reader does not understand it
"""
import dataclasses
import functools
import pathlib
import re

root = pathlib.Path(__file__).resolve().parent.parent
PIECE = r'(?:«[^»]*»|[^\s(){}.;,@"«»]+)'
TOKEN = re.compile(rf'{PIECE}(?:\.{PIECE})*|\.{PIECE}|[(){{}};,.@]')
DECLARED = re.compile(rf'((?:unfoldable |abbrev |pub )*)(?:(record|data) ({PIECE})|({PIECE})(?: \{{[^}}]*\}})? :)')
USE = re.compile(r'(?:ghost )?use ([^\s;{]+?)\.?(?:\{(.*)\})?(?: as ([^\s;]+))?;?')
# What needs no `use` line, where nothing else has that name: the language's own words, and those of contracts.
OWN = set('Type Unit Dec tt ⊥ ¬ absurd yes no × → ∀ ℓ = : | ↦ [ ] _ record elim let in where unfold module pub result omega simp rw cc'.split())


@dataclasses.dataclass
class Declaration:
    """What a file declares. Lines are numbered from 0: those of the heads of the sections around it, of its signature (all, where it is a
    record or a data type), of its clauses, and of the comment right above it."""
    module: 'Module'
    name: str
    kind: str  # record, data, abbrev, unfoldable, or plain, as laws are
    head: list
    signature: list
    clauses: list
    comment: list
    parts: list  # the fields of a record, the constructors of a data type

    @property
    def key(self):
        return ('antt', *self.module.key, self.name)

    def refers(self, statement=False):
        """What it refers to: all of it, or its statement alone."""
        reading = Reading(self.module.scope())
        reading.read(self.module.text(self.head))
        reading.bind(self.parts if self.kind == 'record' else [])
        reading.read(DECLARED.sub('', self.module.text(self.signature).strip(), count=1))
        for chunk in [] if statement else self.module.chunks(self.clauses):
            reading.clause(self.name, self.module.text(chunk))
        return reading.found


class Reading:
    """A text that is read from left to right: the names that are bound, one set for each bracket that is open, and what the others refer to."""

    def __init__(self, scope, bound=()):
        self.scope, self.found, self.bound = scope, set(), [{*bound}]

    def bind(self, names):
        self.bound[-1].update(names)

    def refer(self, word):
        first, found = word.split('.')[0], self.scope(word)
        if not any(first in names for names in self.bound) and not re.match(r'\d', first) and (found[0] != 'unknown' or word not in OWN):
            self.found.add(found)

    def pattern(self, words):
        """A constructor is referred to, any other name is bound."""
        for at, word in enumerate(words):
            found = self.scope(word)
            if (found[0] == 'unknown' and word in OWN) or word in '(){};,@' or word[0] in '.0123456789' or words[at + 1:at + 2] == ['=']:
                continue
            if found[0] == 'unknown' or (found[0] == 'antt' and found[-1] == word):
                self.bind([word])
            else:
                self.found.add(found)

    def clause(self, name, text):
        words, depth = TOKEN.findall(text), 0
        for at, word in enumerate(words if words[0] != 'unfolding' else []):
            depth += (word in '({') - (word in ')}')
            if word == '=' and depth == 0:
                self.bound.append(set())
                self.pattern([part for part in words[:at] if part != name])
                self.bind(re.findall(rf'^\s+({PIECE}) :', text, re.M))  # what a `where` below declares
                self.read_words(words[at + 1:])
                self.bound = self.bound[:1]
                break

    def read(self, text):
        self.read_words(TOKEN.findall(text))

    def read_words(self, words):
        at = 0
        while at < len(words):
            word, at = words[at], at + 1
            if word in '({;':
                # (x y : A) binds to the end of what is around it; {x = e} names an argument, record { x = e; y = e } fields.
                end = at
                while end < len(words) and words[end] not in '(){};,.:=':
                    end += 1
                if words[end:end + 1] == [':']:
                    self.bind(words[at:end])
                if word != ';':
                    self.bound.append(set())
                if words[end:end + 1] in ([':'], ['=']):
                    at = end + 1
            elif word in ')}':
                self.bound = self.bound[:-1] or [set()]
            elif word in ('λ', 'let') or (word in ('[', '|') and '↦' in words[at:at + 12]):
                end = words.index({'λ': '.', 'let': '='}.get(word, '↦'), at)
                bound, _, kind = ' '.join(words[at:end]).partition(' : ')
                self.pattern(bound.split())
                self.read(kind)
                at = end + 1
            elif word[0] != '.' and word not in ',@':
                self.refer(word)


class Module:
    def __init__(self, path):
        self.path = path
        crate, part, *names = path.relative_to(root / 'crates').with_suffix('').parts
        self.key = (crate, part, '.'.join(names))
        self.lines = path.read_text().split('\n')
        self.uses, self.opens, self.declarations = {}, [], {}
        self.parse()

    def text(self, numbers):
        return '\n'.join(re.sub(r'(^|\s)--.*', '', self.lines[number]) for number in numbers)

    def chunks(self, numbers):
        """These lines, parted where one is indented no more than the first."""
        found = []
        for number in numbers:
            if not found or indent(self.lines[number]) <= indent(self.lines[numbers[0]]):
                found.append([])
            found[-1].append(number)
        return found

    def parse(self):
        """Goes by what is indented no more than the section around it: such a line, and all that is indented more, is one piece."""
        sections, comment, last, at = [], [], None, 0
        while at < len(self.lines):
            start, line = at, self.lines[at]
            at += 1
            if not line.strip() or line.lstrip().startswith('--'):
                comment = comment + [start] if line.strip() else []
                continue
            sections = [(inside, head) for inside, head in sections if inside <= indent(line)]
            section = line.lstrip().startswith('module ')
            while at < len(self.lines) and (not self.lines[at - 1].endswith(' where') if section else not self.lines[at].strip() or indent(self.lines[at]) > indent(line)):
                at += 1
            numbers = [number for number in range(start, at) if self.lines[number].strip() and not self.lines[number].lstrip().startswith('--')]
            text = self.text(numbers).strip()
            declared = DECLARED.match(text)
            if section:
                sections.append((indent(line) + 1, numbers))
            elif text.startswith('use '):
                self.uses[start] = USE.fullmatch(' '.join(text.split())).groups()
            elif text.startswith('open '):
                self.opens.append(opened(text, '\n'.join(self.text(head) for _, head in sections)))
            elif declared:
                marks, kind, typed, named = declared.groups()
                kind = kind or next((mark for mark in ('unfoldable', 'abbrev') if mark in marks.split()), 'plain')
                parts = re.findall(rf'^\s+(?:pub )?((?:{PIECE} )+):', self.text(numbers[1:]), re.M) if typed else []
                last = Declaration(self, typed or named, kind, [number for _, head in sections for number in head], numbers, [], comment, ' '.join(parts).split())
                self.declarations[last.name] = last
            else:
                last.clauses += numbers
            comment = []

    @functools.cache
    def names(self):
        """What the names that can be used here refer to, and which modules have another name here."""
        names, others = {}, {}
        for use in self.uses.values():
            bring(*use, names, others)
        for declaration in self.declarations.values():
            names[declaration.name] = declaration.key
            names.update({part: declaration.key for part in declaration.parts if declaration.kind == 'data'})
        for record, fields in self.opens:
            names.update({field.split()[-1]: names[record] for field in fields.split(',')})
        return names, others

    def scope(self):
        return functools.partial(meant, *self.names())


def indent(line):
    return len(line) - len(line.lstrip())


def opened(text, heads):
    """Of a line 'open W use {..}' the record that W is of, by the heads of the sections around it, and the names that it brings."""
    value, names = re.match(r'open (\S+) use \{(.*)\}', ' '.join(text.split())).groups()
    return re.search(rf'[({{ ]{re.escape(value)}(?: {PIECE})* : (\S+)', heads)[1], names


def bring(path, listed, other, names, others):
    """Adds what a `use` line brings."""
    if other:
        others[other] = path
    for name in listed.split(',') if listed else []:
        old, *new = name.strip().split(' as ')
        names[(new or [old])[0]] = target(path, old)


@functools.cache
def target(path, name):
    """What this name of that module refers to."""
    own = re.fullmatch(r'Rattle\.(\w+)\.(specs|proofs)\.(declared\.)?(.*)', path)
    if not own or own[1] not in crates():
        return ('kit', f'{path}.{name}')
    crate, part, declared, rest = own.groups()
    if declared:
        *file, type_name = [word for word in rest.split('.') if word != 'TheVariants']
        return ('type', crate, (file or ['lib'])[0], type_name)
    module = modules().get((crate, part, rest))
    found = module and module.names()[0].get(name)
    if not module and '.' in rest:  # the constructors of a type, behind its name
        return target(*path.rsplit('.', 1))
    return found if found and found[:4] == ('antt', crate, part, rest) else ('unknown', f'{path}.{name}')


def meant(names, others, word):
    """What a word refers to: a name, the name of a module and one of its names, or an operator."""
    first, _, rest = word.partition('.')
    if first in others:
        return target(others[first], rest.split('.')[0])
    return next((names[form] for form in (first, f'◌{first}◌', f'{first}◌', f'◌{first}') if form in names), ('unknown', word))


@functools.cache
def crates():
    """The crates, each with those that it stands on."""
    return {name: below.split() for name, below in re.findall(r'^(\w+)(?: staticlib)?:(.*)$', (root / 'crates.txt').read_text(), re.M)}


@functools.cache
def modules():
    """All of them but the functions' own proofs, to which nothing refers."""
    paths = [path for part in ('specs', 'proofs') for path in sorted((root / 'crates').glob(f'*/{part}/*.antt')) if path.stem != 'Lib']
    return {module.key: module for module in map(Module, paths)}
