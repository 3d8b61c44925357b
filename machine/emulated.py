"""The library's own x86-64 code, run instruction by instruction, with every store of the window recorded, and every load where asked."""
import struct
from unicorn import Uc, UC_ARCH_X86, UC_HOOK_MEM_WRITE, UC_MODE_64
from unicorn.x86_const import (UC_X86_REG_R8, UC_X86_REG_R9, UC_X86_REG_RAX, UC_X86_REG_RCX, UC_X86_REG_RDI,
                               UC_X86_REG_RDX, UC_X86_REG_RSI, UC_X86_REG_RSP)

ARGUMENTS = (UC_X86_REG_RDI, UC_X86_REG_RSI, UC_X86_REG_RDX, UC_X86_REG_RCX, UC_X86_REG_R8, UC_X86_REG_R9)
STACK, STACK_SIZE = 0x7000_0000, 0x10000
WINDOW = 0x5000_0000
END = 0x6000_0000  # where a function returns to; nothing is there
# how many words each function answers: more than two are put where the first argument says
WORDS = {'tp_raw_create': 2, 'tp_raw_map': 2, 'tp_raw_unmap': 5, 'tp_raw_protect': 4, 'tp_raw_told': 2, 'tp_raw_state': 6, 'tp_raw_look_up': 5,
         'tp_raw_entry': 4}


class Wrong(Exception):
    """What the test found."""


def program(path):
    """The loaded segments (address, content, room, whether it is code) and the symbols of a static program for x86-64."""
    data = open(path, 'rb').read()
    header = struct.unpack_from('<16sHHIQQQIHHHHHH', data)
    segments, symbols = [], {}
    for n in range(header[10]):
        kind, flags, at, address, _, size, room, _ = struct.unpack_from('<IIQQQQQQ', data, header[5] + n * header[9])
        if kind == 1:
            segments.append((address, data[at:at + size], room, flags & 1))
    sections = [struct.unpack_from('<IIQQQQIIQQ', data, header[6] + n * header[11]) for n in range(header[12])]
    for section in sections:
        if section[1] == 2:
            names = sections[section[6]][4]
            for at in range(section[4], section[4] + section[5], 24):
                name, _, _, _, value, _ = struct.unpack_from('<IBBHQQ', data, at)
                symbols[data[names + name:data.index(b'\0', names + name)].decode()] = value
    return segments, symbols


class Code:
    def __init__(self, path, prefix=''):
        self.segments, self.symbols = program(path)
        self.prefix = prefix
        self.uc = Uc(UC_ARCH_X86, UC_MODE_64)
        low = min(address for address, _, _, _ in self.segments) & ~0xfff
        high = max(address + room for address, _, room, _ in self.segments)
        self.uc.mem_map(low, (high - low + 0xfff) & ~0xfff)
        for address, content, _, _ in self.segments:
            self.uc.mem_write(address, content)
        self.own = (low, high) if prefix else None
        self.uc.mem_map(STACK, STACK_SIZE)
        self.uc.mem_map(END, 0x1000)
        self.size = 0
        self.loads, self.stores = [], []
        self.uc.hook_add(UC_HOOK_MEM_WRITE, self.stored)

    def record_loads(self):
        from loads import watch
        for address, content, _, runs in self.segments:
            if runs:
                watch(self.uc, content, address, self.loaded)

    def lend(self, window):
        if self.size:
            self.uc.mem_unmap(WINDOW, self.size)
        self.size = len(window)
        self.uc.mem_map(WINDOW, self.size)
        self.uc.mem_write(WINDOW, bytes(window))

    def window(self):
        return self.uc.mem_read(WINDOW, self.size)

    def loaded(self, address, size):
        if WINDOW < address + size and address < WINDOW + self.size:
            self.loads.append((address - WINDOW, size, len(self.stores)))

    def stored(self, uc, access, address, size, value, _):
        if WINDOW <= address and address + size <= WINDOW + self.size:
            self.stores.append((address - WINDOW, size, value & ((1 << 8 * size) - 1)))
        elif not STACK <= address < STACK + STACK_SIZE and not (self.own and self.own[0] <= address < self.own[1]):
            raise Wrong(f'a store to {address:#x}, which is neither the window nor the stack')

    def call(self, name, *numbers):
        """Calls the function over the whole window; its answer, word by word."""
        self.loads, self.stores = [], []
        top = STACK + STACK_SIZE - 0x100
        words = WORDS[name]
        arguments = ([top] if words > 2 else []) + [WINDOW, self.size, *numbers]
        rest = arguments[6:]
        stack = (top - 8 * len(rest)) & ~0xf
        if rest:
            self.uc.mem_write(stack, struct.pack(f'<{len(rest)}Q', *rest))
        self.uc.mem_write(stack - 8, struct.pack('<Q', END))
        self.uc.reg_write(UC_X86_REG_RSP, stack - 8)
        for register, number in zip(ARGUMENTS, arguments):
            self.uc.reg_write(register, number)
        function = self.symbols.get(self.prefix + name) or self.symbols[name]
        self.uc.emu_start(function, END, count=50_000_000)
        if words > 2:
            return struct.unpack(f'<{words}Q', self.uc.mem_read(top, 8 * words))
        return self.uc.reg_read(UC_X86_REG_RAX), self.uc.reg_read(UC_X86_REG_RDX)
