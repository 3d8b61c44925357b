"""The loads of a program, told from its instructions: the emulator's own report of loads is not whole on every kind of machine."""
from capstone import CS_AC_READ, CS_ARCH_X86, CS_MODE_64, Cs
from capstone.x86 import X86_INS_LEA, X86_INS_NOP, X86_OP_MEM, X86_OP_REG, X86_REG_INVALID, X86_REG_RIP, X86_REG_RSP
from unicorn import UC_HOOK_CODE
from unicorn import x86_const

NO_ACCESS = (X86_INS_LEA, X86_INS_NOP)


def register(decoder, number):
    """The emulator's number for a register of the decoder's."""
    return None if number == X86_REG_INVALID else getattr(x86_const, 'UC_X86_REG_' + decoder.reg_name(number).upper())


def loads_of(instruction, decoder):
    """The memory operands that the instruction loads: base, index, scale, displacement, size."""
    found = []
    if instruction.id in NO_ACCESS:
        return found
    for operand in instruction.operands:
        if operand.type == X86_OP_MEM and operand.access & CS_AC_READ:
            place, shift = operand.mem, operand.mem.disp
            base = place.base
            if base == X86_REG_RIP:
                base, shift = X86_REG_INVALID, shift + instruction.address + instruction.size
            found.append((register(decoder, base), register(decoder, place.index), place.scale, shift, operand.size))
    return found


def unfit(instruction):
    """Why a kernel could not have the instruction: it uses a vector register, or what lies below the stack pointer."""
    for operand in instruction.operands:
        if operand.type == X86_OP_REG and operand.size > 8:
            return 'uses a vector register'
        if operand.type == X86_OP_MEM and operand.mem.base == X86_REG_RSP and operand.mem.disp < 0 and instruction.id != X86_INS_LEA:
            return 'goes below the stack pointer'
    return None


def watch(uc, code, start, seen):
    """Calls seen(address, size) before each load of the code at start; where an instruction can't be told, it is an error."""
    decoder = Cs(CS_ARCH_X86, CS_MODE_64)
    decoder.detail = True
    told = 0

    def at_load(_, address, __, places):
        for base, index, scale, shift, size in places:
            where = shift + (uc.reg_read(base) if base else 0) + (uc.reg_read(index) * scale if index else 0)
            seen(where & (1 << 64) - 1, size)

    for instruction in decoder.disasm(code, start):
        told = instruction.address + instruction.size - start
        if unfit(instruction):
            raise ValueError(f'the instruction at {instruction.address:#x} {unfit(instruction)}')
        places = loads_of(instruction, decoder)
        if places:
            uc.hook_add(UC_HOOK_CODE, at_load, places, instruction.address, instruction.address)
    if told != len(code):
        raise ValueError(f'the code at {start + told:#x} is no instruction')
