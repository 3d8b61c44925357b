"""Whether the prover refused a wrong program where it must."""
import re

from edits import Bad

# Where something does not hold, the prover names the declaration, and of a program's own lines it says that they are not proved. A text that
# does not parse is of no declaration; a misfit is one that says nothing yet.
refused, unproved = r'error: `([^`]+)`: ', r'it is not proved '
misfit = r'is not in scope(?! here)|has no field|is no name|can be named|is given \d+ argument|is applied to an argument|needs a function'
misfit += r'|operand is missing|expected the end|cannot continue|was not admitted'
misfit += r'|is not a field of record|missing field|no implicit argument|is declared but not defined|does not define it'
# What is not checked since it cites what was refused.
consequence = r'error: \d+ declarations? that depends? on '
# The files in which a function's own proof stands.
own_proof = r'/(?:Proof|Answers|Invariants)\.antt$'


def places(said):
    """The files and the words of the refusals, as they were said: errors, and then what is not proved of a program's own lines."""
    found = re.findall(r'^(crates/[^ \n]*): (error.*)', said, re.M) + re.findall(r'^note: (crates/[^ \n]*:\d+:\d+): (.*)', said, re.M)
    return [(re.sub(r'(:\d+)*$', '', place), words) for place, words in found]


def first(said, crates):
    """The file and the words of the first refusal, in the lowest crate that has one. The prover goes through all of a crate."""
    # What is refused only because another declaration was, comes of that one.
    found = [place for place in places(said) if not re.match(consequence, place[1])] or places(said)
    for crate in crates:
        for file, words in found:
            if file.startswith(f'crates/{crate}/'):
                return file, words
    return (found or [('no file', '')])[0]


def follows(function, said):
    """Whether a function is not proved only because its proof cites a law that was refused, for what it means, beside what it does. A goal
    that the search leaves open is said of the program's own lines: then something else is not proved, too."""
    crate, *way = function.split('::')
    folder = f'crates/{crate}/proofs/{"/".join(way)}/'
    found = [words for file, words in places(said) if file.startswith(folder) and '/' not in file.removeprefix(folder)]
    opened = any(file.startswith(f'crates/{crate}/src/') for file, _ in places(said))
    return bool(found) and not opened and all(re.match(consequence, words) for words in found)


def judge(status, said, edit):
    """Says where a copy was refused. With no 'at:' it must be proved."""
    if status == 0 and re.findall(r'^logic=\S+', said, re.M)[-1:] == ['logic=proved']:
        if edit.at:
            raise Bad(f'NOT REFUSED: {edit.crate} is still proved')
        return 'proved'
    # The line that names the logic is there only where the prover was asked: not where the compiler saw no program.
    if status != 1 or not re.search(r'^logic=not-proved', said, re.M) or not re.search(r'^logic /', said, re.M):
        raise Bad(f'no verdict of the prover (status {status})')
    file, words = first(said, edit.crates(edit.crate))
    law = (re.match(refused, words) or ['', ''])[1]
    if file != edit.at or (edit.law and law != edit.law):
        there = file + (f', {law},' if edit.law and law else '')
        raise Bad(f'refused at {there} and not at {edit.at} {edit.law}'.rstrip() + f': {words[:200]}' if edit.at else f'NOT PROVED, at {file}')
    if not re.match(unproved if file.startswith(f'crates/{edit.crate}/src/') else refused, words) or re.search(misfit, words):
        raise Bad(f'refused at {file}, but not because something does not hold: {words[:200]}')
    # Where a law must refuse it, the code is what the definitions say, in every crate up to there.
    for function, verdict in re.findall(r'^fn (.*?): (?!proved$)(.*)', said, re.M) if edit.law and not re.search(own_proof, file) else ():
        if not follows(function, said):
            raise Bad(f'refused at {file}, but {function} is {verdict}')
    return f'refused at {file}' + (f' by {law}' if edit.law else '')
