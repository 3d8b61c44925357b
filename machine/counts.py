#!/usr/bin/python3
"""counts LIBRARY BASELINE: how many x86-64 instructions each operation takes, in the library and in the two baselines, as a
Markdown table: the same on every machine and in every run. After each all three must have left the same bytes. What memset takes
is a column of its own: a kernel has its own memset; the one here stores a word in three instructions."""
import re
import struct
import sys

from unicorn import UC_HOOK_CODE
from unicorn.x86_const import UC_X86_REG_RSP

from emulated import ARGUMENTS, END, STACK, STACK_SIZE, WINDOW, WORDS, Code, Wrong
from model import SIZES, book_pages

ORIGIN, PAGES = 1 << 40, 96
SPACE = (ORIGIN, ORIGIN, PAGES, ORIGIN + 4096 * book_pages(PAGES))
FRAME = 256 << 30
NAMES = ('4 KiB', '2 MiB', '1 GiB')
MIDDLE = 256  # the index of the entry that is asked for


class Counted(Code):
    """The library's functions, with instructions counted, those of memset apart."""

    def __init__(self, path):
        super().__init__(path)
        start = self.symbols['memset']
        end = min(at for at in self.symbols.values() if at > start)
        self.total = self.clearing = 0

        def count(_, address, *rest):
            self.total += 1
            self.clearing += start <= address < end
        self.uc.hook_add(UC_HOOK_CODE, count)


class Baseline(Counted):
    """A baseline's functions, called as Rust calls them: numbers in turn, a space by its address, and where to put an answer of
    more than two words before all. Nothing promises that; what shows it is that the bytes come out right."""

    def __init__(self, path, name):
        super().__init__(path)
        self.name = name

    def call(self, function, *numbers):
        operation = function.removeprefix('tp_raw_')
        mangled = re.compile(f'{len(self.name)}{self.name}{len(operation)}{operation}(17h[0-9a-f]+E)?$')
        entry = next(at for name, at in self.symbols.items() if mangled.search(name))
        top = STACK + STACK_SIZE - 0x200
        window = [WINDOW] if self.name == 'raw' else [WINDOW, self.size]
        if operation not in ('create', 'look_up'):
            self.uc.mem_write(top + 0x100, struct.pack('<4Q', *numbers[:4]))
            numbers = (top + 0x100, *numbers[4:])
        arguments = ([top] if WORDS[function] > 2 else []) + window + list(numbers)
        stack = top - 0x100
        self.uc.mem_write(stack, struct.pack('<Q', END) + b''.join(struct.pack('<Q', n) for n in arguments[6:]))
        self.uc.reg_write(UC_X86_REG_RSP, stack)
        for register, number in zip(ARGUMENTS, arguments):
            self.uc.reg_write(register, number)
        self.uc.emu_start(entry, END, count=50_000_000)


class Scene:
    """A pool with these pages mapped, (address, size), for each of the three."""

    def __init__(self, codes, *mapped):
        self.codes = codes
        for code in codes:
            code.lend(bytes(PAGES * 4096))
            code.call('tp_raw_create', *SPACE[:3])
        for base, size in mapped:
            self.map(base, size)

    def each(self, reason, name, *numbers):
        """The instructions of one call for each, and of the library's those in memset. The library must answer so."""
        counts = []
        for code in self.codes:
            code.total = code.clearing = 0
            answer = code.call(name, *numbers)
            counts.append(code.total - code.clearing)
            if answer and answer[0] != reason:
                raise Wrong(f'{name} answered {answer}')
            if bytes(code.window()) != bytes(self.codes[0].window()):
                raise Wrong(f'{name} of {code.name} leaves other bytes')
        return (*counts, self.codes[0].clearing)

    def look_up(self, va, kind=1):
        return self.each(kind, 'tp_raw_look_up', ORIGIN, SPACE[3], va)

    def map(self, base, size, reason=0):
        return self.each(reason, 'tp_raw_map', *SPACE, base, FRAME, size, 7)

    def unmap(self, base, reason=0):
        return self.each(reason, 'tp_raw_unmap', *SPACE, base)

    def protect(self, base):
        return self.each(0, 'tp_raw_protect', *SPACE, base, 5)

    def told(self, ticket):
        return self.each(0, 'tp_raw_told', *SPACE, ticket)


def in_full_tables(codes):
    """Nothing has to be made, nothing becomes empty."""
    for size, name in zip(SIZES, NAMES):
        scene, page = Scene(codes, *((n * size, size) for n in range(512))), MIDDLE * size
        yield f'look-up {name}', scene.look_up(page)
        yield f'map {name}, refused: overlap', scene.map(page, size, 7)
        yield f'protect {name}', scene.protect(page)
        yield f'unmap {name}, full table', scene.unmap(page)
        yield f'map {name}, table present', scene.map(page, size)


def with_one_neighbour(codes):
    for index in (0, 255, 511):
        scene = Scene(codes, (index << 12, 4096), (MIDDLE << 12, 4096))
        yield f'unmap 4 KiB, one neighbour, at index {index}', scene.unmap(MIDDLE << 12)


def alone(codes):
    """Pages that are alone in so many tables."""
    for level, tables in ((0, 1), (0, 3), (1, 1), (1, 2), (2, 1)):
        size, name = SIZES[level], NAMES[level]
        page = MIDDLE * size
        scene = Scene(codes, (size << 9 * tables, size))
        many = 's' if tables > 1 else ''
        yield f'map {name}, {tables} table{many} missing', scene.map(page, size)
        yield f'unmap {name}, {tables} table{many} become{"" if many else "s"} empty', scene.unmap(page)
        if level == 0:
            yield f'told, releases {tables}', scene.told(tables)


def refused(codes):
    scene = Scene(codes, (0, 4096))
    yield 'look-up of no address: the call alone', scene.look_up(1 << 47, 5)
    yield 'look-up, nothing there', scene.look_up(4096, 0)
    yield 'unmap, refused: nothing starts', scene.unmap(4096, 9)


def rows(codes):
    return [row for part in (refused, in_full_tables, with_one_neighbour, alone) for row in part(codes)]


def main():
    library, baseline = sys.argv[1:]
    codes = [Counted(library), Baseline(baseline, 'checked'), Baseline(baseline, 'raw')]
    counts = rows(codes)
    if counts != rows(codes):
        print('counts: they differ from run to run')
        return 1
    print('| operation | ours | checked | raw | ours / checked | ours / raw | and in memset |')
    print('|---|---|---|---|---|---|---|')
    for name, (ours, checked, raw, clearing) in counts:
        print(f'| {name} | {ours} | {checked} | {raw} | {ours / checked:.2f} | {ours / raw:.2f} | {clearing} |')
    return 0


if __name__ == '__main__':
    sys.exit(main())
