"""The program that the prover works from, its MIR, as the kit leaves it: of a proved library beside what is linked of it, and of any crate, proved
or not, in the modules that `rt check --generated` prints. To be imported.

When the kit changes: `tools/order itself` reads the crate word in both ways, and holds the one to the other."""
import dataclasses
import json
import pathlib
import re
import subprocess


# What is called otherwise in the printed modules.
KINDS = {'Syntax.cond': 'If', 'Syntax.int_big': 'Int'}
# A callee that a function does not name: a closure, or a function of a type that it is generic over.
GIVEN = 'something that it was given'


@dataclasses.dataclass
class Body:
    """Of a function: what it calls, in order; how often it writes through a reference, and how often it reads or writes through one and does
    not only lend it on; the numbers and the kinds of statements in it; and how many of its locals can be lent for writing."""
    calls: list = dataclasses.field(default_factory=list)
    stores: int = 0
    behind: int = 0
    numbers: list = dataclasses.field(default_factory=list)
    kinds: set = dataclasses.field(default_factory=set)
    slots: int = 0

    def place(self, place, is_written=False):
        if any('Deref' in step for step in place['steps']):
            self.behind += 1
            self.stores += is_written

    def read(self, term):
        if isinstance(term, list):
            for part in term:
                self.read(part)
        elif isinstance(term, dict) and 'steps' in term:
            self.place(term)
        elif isinstance(term, dict):
            for kind, parts in term.items():
                self.kinds.add(kind)
                self.statement(kind, parts)
        else:
            self.kinds.add(term)

    def statement(self, kind, parts):
        if kind == 'Assign':
            self.place(parts[0], True)
            self.read(parts[1])
        elif kind == 'Call':
            self.calls.append(of_kit(parts[0]['Fn'][0]) if 'Fn' in parts[0] else GIVEN)
            self.read(parts[1])
            self.place(parts[2], True)
        elif kind == 'Int' and isinstance(parts, dict):
            self.numbers.append(parts['value'])
        elif kind != 'AddrOf':
            self.read(parts)


def of_kit(name):
    """The kit's own crates pass each other's functions on: one name for each."""
    return re.sub('^(std::below::)?core::', 'std::', name)


def end(name):
    """The last two parts of a name: the type, or the module, and the function's own name."""
    return '::'.join(name.split('::')[-2:])


def ends(names):
    """The names by their ends."""
    found = {}
    for name in names:
        found.setdefault(end(name), []).append(name)
    return found


def of_library(rlib):
    """The functions of a proved library, from what is linked of it."""
    found = {}
    for name, function in json.loads((rlib / 'toolchain/mir.json').read_text()):
        found[name] = Body(slots=sum(local['home'] == 'MemorySlot' for local in function['locals']))
        found[name].read(function['body'])
    return found


# The printed modules ---------------------------------------------------------------------------------------------------------------

def resolved(bodies):
    """The same functions, where what they call has the name at which it is declared: a printed module may have one under which a crate hands
    it on."""
    ends = {}
    for name in bodies:
        ends.setdefault((name.split('::')[0], name.split('::')[-1]), []).append(name)

    def declared(name):
        there = ends.get((name.split('::')[0], name.split('::')[-1]), [])
        return there[0] if name not in bodies and name.count('::') == 1 and len(there) == 1 else name
    return {name: dataclasses.replace(body, calls=[declared(callee) for callee in body.calls]) for name, body in bodies.items()}


def of_crate(folder, made, functions=()):
    """The functions of the crate in this folder, or these of them, by its printed modules, which are written to a new folder; whether or not
    they are proved."""
    run = subprocess.run(['rt', 'check', '--generated', made, *(word for one in functions for word in ('--start', one))], cwd=folder, stdin=subprocess.DEVNULL, stdout=subprocess.PIPE, stderr=subprocess.STDOUT, text=True, check=False)
    proofs, found = pathlib.Path(made) / f'Rattle-{folder.name}-proofs', {}
    for path in proofs.rglob('Code/Mir.antt'):
        found['::'.join((folder.name, *path.relative_to(proofs).parts[:-2]))] = printed(path.read_text())
    if not found or run.returncode not in (0, 1):
        raise SystemExit(f'{run.stdout}\n{folder.name}: its modules are not printed')
    return found


def printed(text):
    """The function of a printed module: its statements, in which the bodies of loops, say, are cited by name."""
    symbols = {alias or 'Symbol': path.replace('.proofs.', '.').replace('.', '::')
               for path, alias in re.findall(r'^use Rattle\.(\S+)\.Symbol(?: as (\S+))?$', text, re.M)}
    named = {name: parsed(term) for name, term in re.findall(r'^(\S+) =((?:.*\n)(?:[ )].*\n)*)', text, re.M)}
    body = Body(slots=text.count('Syntax.memory_slot'))
    for name in named:
        if re.fullmatch(r's-\d+', name):
            body.read(turned(named[name], symbols, named))
    return body


def parsed(text):
    """A term as lists: what is applied, and to what."""
    stack = [[]]
    for word in re.findall(r'[()]|[^\s()]+', text):
        if word == '(':
            stack.append([])
        elif word == ')':
            stack[-2].append(stack.pop())
        else:
            stack[-1].append(word)
    return stack[0]


def turned(term, symbols, named):
    """A printed term in the form in which a library's MIR is kept."""
    head, *parts = term if isinstance(term, list) else [term]
    if isinstance(head, list) or head in named:
        return [turned(named.get(one, one) if isinstance(one, str) else one, symbols, named) for one in (head, *parts)]
    if head.endswith('.name') and head.removesuffix('.name') in symbols:
        return {'Fn': [symbols[head.removesuffix('.name')]]}
    given = [turned(part, symbols, named) for part in parts]
    if head in ('List.[]', 'List.◌∷◌'):
        return [given[0], *given[1]] if given else []
    kind = KINDS.get(head) or ''.join(part.capitalize() for part in head.removeprefix('Syntax.').split('_'))
    if kind == 'Place':
        return {'local': parts[0], 'steps': given[1]}
    if kind in ('Int', 'IntNeg'):
        width = int(parts[0].removeprefix('Syntax.w'))
        return {'Int': {'value': int(parts[1]) if kind == 'Int' else 2 ** width - int(parts[1])}}
    return {kind: given[0] if len(given) == 1 else given} if given else kind
