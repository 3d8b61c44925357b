"""The functions of a file of Rattle, as it is written, those of its types and traits among them. To be imported."""
import re
import typing

# the head of an impl, or what ends one; a ghost item of an impl; or a function: its place, whether it is public, its name, contract and body
PART = re.compile(r'^impl\b([^{]*)\{$|^\}$|^    (ghost \w+ = .*?;)$|^( *)(pub )?(?:const )?(?:extern "C" )?fn (\w+)(.*?)\{$(.*?^\3\})', re.M | re.S)
EVERY = re.compile(r'^ *(?:pub )?(?:const )?(?:extern "C" )?fn \w', re.M)


class Function(typing.NamedTuple):
    """`of` is the type whose function it is, or '', and `by` the trait that asks for it, or ''; `laws` are what its impl says before it."""
    of: str
    by: str
    laws: tuple
    public: bool
    name: str
    contract: str
    text: str

    @property
    def path(self):
        """As the kit names it in the file: `from` in `impl From<plan::Reason> for Refusal` is RefusalFromPlanReason::from."""
        words = re.findall(r"(?<!')\b\w+", re.sub(r'^[\w:]*\b(?=\w+\b(?!::))', '', self.by)) if self.by != 'Drop' else ()
        owner = self.of + ''.join(word[0].upper() + word[1:] for word in words)
        return f'{owner}::{self.name}' if owner else self.name


def implemented(head):
    """The trait, or '', and the type of the head of an impl; what it is generic over is left out."""
    deep = 0
    for at, letter in enumerate(head):
        deep += (letter == '<') - (letter == '>')
        if not deep and letter != ' ' and not head[:at].endswith('<'):
            head = head[at + (letter == '>'):] if head.startswith('<') else head
            break
    by, _, of = head.strip().rpartition(' for ')
    return by.strip(), re.match(r'\w*', of.split('<')[0].split('::')[-1].strip())[0]


def functions(text):
    """The functions of a file, in order. Fails where one is not read."""
    found, by, of, laws = [], '', '', ()
    for head, law, place, public, name, contract, body in PART.findall(text):
        if name:
            found.append(Function(*((of, by, laws) if place else ('', '', ())), bool(public), name, contract, contract + body))
        elif law:
            laws += (law,)
        else:
            (by, of), laws = implemented(head), ()
    if len(found) != len(EVERY.findall(text)):
        raise ValueError(f'{len(found)} functions are read of {len(EVERY.findall(text))}')
    return found
