"""Writes a loop without a conditional branch, as an object file, and as an ELF file for qemu.

The loop counts a register down, adds to a word in memory, and jumps by JALR to its begin, or behind
it when the count is 0: ten instructions a turn. The object is of the format in docs/FORMATS.md. The
ELF file has the same loop, and ends by the system call `exit` of Linux.
"""
import hashlib
import struct
import sys

TURNS = 9_999_000
TEXT_START = 0x10000
DATA_START = 0x1000000


def lui(rd, upper):
    return upper << 12 | rd << 7 | 0x37


def addi(rd, rs1, value, funct3=0):
    return (value & 0xFFF) << 20 | rs1 << 15 | funct3 << 12 | rd << 7 | 0x13


def slli(rd, rs1, places):
    return addi(rd, rs1, places, 1)


def sltiu(rd, rs1, value):
    return addi(rd, rs1, value, 3)


def add(rd, rs1, rs2):
    return rs2 << 20 | rs1 << 15 | rd << 7 | 0x33


def xor(rd, rs1, rs2):
    return add(rd, rs1, rs2) | 4 << 12


def lw(rd, rs1, offset):
    return (offset & 0xFFF) << 20 | rs1 << 15 | 2 << 12 | rd << 7 | 0x03


def sw(rs2, rs1, offset):
    offset &= 0xFFF
    return (offset >> 5) << 25 | rs2 << 20 | rs1 << 15 | 2 << 12 | (offset & 31) << 7 | 0x23


def jalr(rd, rs1, offset):
    return (offset & 0xFFF) << 20 | rs1 << 15 | rd << 7 | 0x67


ECALL = 0x73
CALL_END = 3
CALL_EXIT = 93


def words(call):
    start = [
        lui(5, TURNS >> 12),
        addi(5, 5, TURNS & 0xFFF),
        lui(8, DATA_START >> 12),
        lui(7, TEXT_START >> 12),
        addi(7, 7, 5 * 4),
    ]
    loop = [
        lw(10, 8, 0),
        add(10, 10, 5),
        xor(11, 10, 5),
        sw(10, 8, 0),
        sw(11, 8, 4),
        addi(5, 5, -1),
        sltiu(6, 5, 1),
        slli(6, 6, 6),
        add(6, 6, 7),
        jalr(0, 6, 0),
    ]
    # When the count is 0 the jump goes 64 bytes behind the loop's begin.
    padding = [addi(0, 0, 0)] * (16 - len(loop))
    end = [addi(10, 0, 0), addi(17, 0, call), ECALL]
    return start + loop + padding + end


def number(value):
    return struct.pack("<I", value)


def text(value):
    return number(len(value)) + value


def listed(entries):
    return number(len(entries)) + b"".join(entries)


def object_file():
    names = [b"constraint_error", b"program_error", b"storage_error", b"test_io.end_error"]
    parts = [
        b"GCOB" + number(1),
        number(TEXT_START),
        listed([number(word) for word in words(CALL_END)]),
        number(DATA_START) + listed([]),
        listed([text(b"loop.adb") + bytes(32)]),
        listed([text(b"") + number(0) * 3]),
        listed([text(name) for name in names]),
        listed([]),
        listed([]),
        listed([]),
        listed([]),
        listed([]),
    ]
    content = b"".join(parts)
    return content + hashlib.sha256(content).digest()


def elf_file():
    """The text in one segment, and a page of zeros for the data in another."""
    text = b"".join(number(word) for word in words(CALL_EXIT))
    header, entry, page = 52, 32, 0x1000
    load, execute, write, read = 1, 1, 2, 4
    ident = b"\x7fELF" + bytes([1, 1, 1]) + bytes(9)
    executable, riscv = 2, 243
    fields = (executable, riscv, 1, TEXT_START, header, 0, 0, header, entry, 2, 0, 0, 0)
    parts = [
        ident + struct.pack("<HHIIIIIHHHHHH", *fields),
        struct.pack("<8I", load, page, TEXT_START, TEXT_START, len(text), len(text), read | execute, page),
        struct.pack("<8I", load, 0, DATA_START, DATA_START, 0, page, read | write, page),
    ]
    head = b"".join(parts)
    return head + bytes(page - len(head)) + text


if __name__ == "__main__":
    for name, content in zip(sys.argv[1:], (object_file(), elf_file())):
        with open(name, "wb") as out:
            out.write(content)
