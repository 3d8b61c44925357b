"""The prover as tools/wrong calls it: `rt check`, in copies of the crates outside the checkout. One copy, the base, is proved as it stands. Each
trial has a copy of its own, which begins with what was proved in the base, so that only what an edit touches, and what rests on that, is
checked again."""
import os
import re
import shutil
import subprocess

from edits import below, level, needs, parts, root


def copy(where):
    """The crates' texts as they stand, in a new folder."""
    for crate in needs:
        for part in parts:
            if (root / 'crates' / crate / part).is_dir():
                shutil.copytree(root / 'crates' / crate / part, where / 'crates' / crate / part)
    for name in ('crates.txt', 'HANDLES'):
        if (root / name).exists():
            shutil.copy(root / name, where)


def check(where, crate, *words):
    """The exit status of `rt check` in a crate there, which builds what is below it first where that has changed; what it said; and the
    seconds of a processor that it took."""
    with subprocess.Popen(['rt', 'check', *words], cwd=where / 'crates' / crate, stdin=subprocess.DEVNULL, stdout=subprocess.PIPE,
                          stderr=subprocess.STDOUT, text=True, errors='replace') as run:
        said = run.stdout.read()
        _, status, used = os.wait4(run.pid, 0)
        run.returncode = os.waitstatus_to_exitcode(status)
    return run.returncode, placed(said, where, crate), used.ru_utime + used.ru_stime


def placed(said, where, crate):
    """What was said, with each file's path from the top: of a crate's own files it is from the crate's folder, and which crate that was
    is said behind it."""
    lines, start = said.replace(f'{where}/', '').split('\n'), 0
    for at, line in enumerate(lines):
        ended = re.match(r'crate (\w+): modules ', line)
        if ended or at == len(lines) - 1:
            inside = rf'\1crates/{ended[1] if ended else crate}/\2'
            lines[start:at + 1] = [re.sub(r'^(note: )?(?:\./)?((?:src|specs|proofs)/)', inside, one) for one in lines[start:at + 1]]
            start = at + 1
    return '\n'.join(lines)


def prove(base, crates):
    """Proves these crates in the base, the lowest first, and what is below them. Answers what was said where one is not proved."""
    for crate in sorted(crates, key=lambda one: (level(one), one)):
        status, said, used = check(base, crate)
        if status:
            return said
        print(f'wrong: {crate} is proved ({used:.0f} s of a processor)', flush=True)
    return ''


def begin(where, base, crate, edited):
    """A copy for a trial of this crate, where these are edited. A check replaces the files that it kept, and never writes into one, so that
    links will do."""
    copy(where)
    for one in (crate, *below(crate)):
        part = 'incremental' if {one, *below(one)} & edited or one == crate else 'rlib'
        if (base / 'crates' / one / 'out' / part).is_dir():
            (where / 'crates' / one / 'out').mkdir()
            # On another disk there are no links to it.
            if subprocess.run(['cp', '-al', base / 'crates' / one / 'out' / part, where / 'crates' / one / 'out'], stderr=subprocess.DEVNULL, check=False).returncode:
                subprocess.run(['cp', '-a', base / 'crates' / one / 'out' / part, where / 'crates' / one / 'out'], check=True)


def remove(path):
    subprocess.run(['rm', '-rf', path], check=False)
