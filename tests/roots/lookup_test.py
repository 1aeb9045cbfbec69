"""Tests of the test of the look-up: what it must find in disassembled functions, and what it must not.

Usage: python3 -B -m tests.roots.lookup_test

The last line printed is 'N passed, M failed'.
"""

import sys

from tests.gate import tally
from tests.roots.lookup import FUNCTION, ROOTS, START, TABLE_SIZE, data_faults, function_faults, program_faults, table_of

TABLE = 0x2000
RIGHT = f"""\
    1000:\tmovzwl %di,%ecx
    1003:\tmov    $0x2711,%ax
    1007:\tcmp    $0x2710,%ecx
    100d:\tja     101a <{FUNCTION}+0x1a>
    100f:\tlea    0xfea(%rip),%rax        # 2000 <__abi_tag+0x1d3c>
    1016:\tmovzwl (%rax,%rcx,2),%eax
    101a:\tret"""
LOAD, SET = "    1016:\tmovzwl (%rax,%rcx,2),%eax", "    1003:\tmov    $0x2711,%ax"
LEFT, WRITES, IS_NO_LOAD, PLACE = "leaves the function", "writes memory or moves the stack", "isn't a load", "the sample's place"
# What a wrong look-up has in place of a part of the right one, and a fault that must be found in it
WRONG = (
    ("a number copied to the stack", SET, "    1003:\tmov    %ax,0x2(%rsp)", WRITES),
    ("a number written through a pointer", SET, "    1003:\tmov    %ax,0x2(%rdx)", WRITES),
    ("a number written at an address", SET, "    1003:\tmov    %ax,0x0", WRITES),
    ("a number written by a segment", SET, "    1003:\tmov    %ax,%fs:0x0", WRITES),
    ("room on the stack", SET, "    1003:\tsub    $0x4e28,%rsp", WRITES),
    ("a call", SET, "    1003:\tcall   1320 <memcpy@plt>", IS_NO_LOAD),
    ("bytes moved in a row", SET, "    1003:\trep movsq %ds:(%rsi),%es:(%rdi)", IS_NO_LOAD),
    ("a vector", SET, "    1003:\tmovups %xmm0,(%rdx)", IS_NO_LOAD),
    ("a jump to another function", "    101a:\tret", "    101a:\tjmp    1320 <memcpy@plt>", LEFT),
    ("a jump to it in the midst", f"101a <{FUNCTION}+0x1a>", "1320 <memcpy@plt>", LEFT),
    ("a jump by a table", "ja     101a", "jmp    *%rax", LEFT),
    ("a loop", "ja     101a", "ja     1003", LEFT), ("a trap", SET, "    1003:\tint3", IS_NO_LOAD),
    ("a trap at the end", "    101a:\tret", "    101a:\tint3", IS_NO_LOAD),
    ("two reads", SET, "    1003:\tmovzwl (%rdx),%edx", "2 reads"),
    ("no read", LOAD, "    1016:\tmov    %ecx,%eax", "0 reads"),
    ("a read at the table's beginning", LOAD, "    1016:\tmovzwl (%rax),%eax", PLACE),
    ("a read by bytes", LOAD, "    1016:\tmovzwl (%rax,%rcx,1),%eax", PLACE),
    ("a read at another place", LOAD, "    1016:\tmovzwl (%rax,%rdx,2),%eax", PLACE),
    ("a read of other memory", LOAD, "    1016:\tmovzwl (%rdx,%rcx,2),%eax", PLACE),
    ("another sample", "movzwl %di,%ecx", "movzwl %si,%ecx", PLACE),
    ("a second address", SET, "    1003:\tlea    0x1ff6(%rip),%rdx        # 3000 <__abi_tag+0x2d3c>", "names 2 addresses"),
    ("a number at an address", SET, "    1003:\tmov    0x1ff6(%rip),%edx        # 3000 <__abi_tag+0x2d3c>", "2 reads"),
    ("no table", "        # 2000 <__abi_tag+0x1d3c>", "", "names 0 addresses"),
    ("many instructions", LOAD, "".join(f"    101{at}:\tadd    $0x0,%edx\n" for at in "234") + LOAD, "10 instructions"),
    ("nothing", RIGHT, "", "0 instructions"))
ONE_CALL = f"    1400:\tcall   1000 <{FUNCTION}>"
CALL = f"{ONE_CALL}\n    1405:\tjmp    1000 <{FUNCTION}>"
# Another function beside the right look-up, its lines, the addresses in the data, and a fault that must be found in the
# program, if any
OTHERS = (("main", CALL, [], ""), ("main", f"{CALL}\n    1409:\tsub    $0x2710,%rsp", [0x1400, TABLE - 1, TABLE + TABLE_SIZE], ""),
          ("main", "    1400:\tret", [], "called at 0 places"), ("main", ONE_CALL, [], "called at 1 places"),
          ("main", f"{CALL}\n    1409:\tsub    $0x2000,%rsp\n    140d:\tsub    $0x2000,%rsp", [], "16384 bytes on its stack"),
          (START, f"{CALL}\n    1409:\tsub    $0x22710,%rsp", [], ""),
          (START, f"{CALL}\n    1409:\tsub    $0x22711,%rsp", [], "141073 bytes on its stack"),
          (START, f"{CALL}\n    1409:\tmov    %rsp,%r11\n    140c:\tsub    $0x20400,%r11\n    1413:\tsub    $0xc00,%rsp", [], ""),
          ("main", f"{CALL}\n    1409:\tmov    %rsp,%r11\n    140c:\tsub    $0x7000,%r11\n    1413:\tsub    $0xc00,%rsp", [],
           "31744 bytes on its stack"),
          ("main", f"{CALL}\n    1409:\tmov    %rax,%r11\n    140c:\tsub    $0x7000,%r11", [], ""),
          ("main", f"{CALL}\n    1409:\tlea    0xbf0(%rip),%rax        # 2000 <__abi_tag+0x1d3c>", [], "used elsewhere"),
          ("main", f"{CALL}\n    1409:\tmovzwl 0x5a0f(%rip),%eax        # 6e20 <__abi_tag+0x6b5c>", [], "used elsewhere"),
          ("main", f"{CALL}\n    1409:\tmovzwl 0x5a11(%rip),%eax        # 6e22 <__abi_tag+0x6b5e>", [], ""),
          ("main", CALL, [TABLE], "has the address 2000"), ("main", CALL, [TABLE + TABLE_SIZE - 1], "has the address 6e21"))
# Constant data: its sections, its roots, and a fault that must be found, if any
SECTIONS = """ 10 .rela.plt     00000168  0000000000000830  0000000000000830  00000830  2**3
                  CONTENTS, ALLOC, LOAD, READONLY, DATA
 11 .rodata       00004f22  0000000000001f00  0000000000001f00  00001f00  2**4
                  CONTENTS, ALLOC, LOAD, READONLY, DATA
"""
DATA = ((SECTIONS, ROOTS, ""), (SECTIONS, [*ROOTS[:7000], 8367, *ROOTS[7001:]], "of the roots"), (SECTIONS, ROOTS[1:], "of the roots"),
        (SECTIONS, [0, *ROOTS[:-1]], "of the roots"), (SECTIONS, [], "of the roots"),
        (SECTIONS.replace("READONLY, DATA", "DATA"), ROOTS, "no constant table"), ("", ROOTS, "no constant table"),
        (SECTIONS.replace("00004f22", "00004f21"), ROOTS, "no constant table"),
        (SECTIONS.replace("0000000000001f00  0", "0000000000002001  0"), ROOTS, "no constant table"),
        (SECTIONS.replace("00004f22", "00007532"), ROOTS, ""), (SECTIONS.replace("00004f22", "00007533"), ROOTS, "has 10001 bytes"))


def bytes_of(roots):
    """As objdump shows them, sixteen bytes to a line."""
    data = b"".join(root.to_bytes(2, "little") for root in roots)
    pieces = [data[at:at + 4].hex() for at in range(0, len(data), 4)]
    return "".join(f" {TABLE + 4 * at:04x} {' '.join(pieces[at:at + 4])}  ......\n" for at in range(0, len(pieces), 4))


def results():
    """Whether each is found as it must be, and what was found."""
    right = RIGHT.split("\n")
    for lines in (right, [*right, "    101b:\tint3", "    101c:\tint3"]):
        yield function_faults(lines) == [] and table_of(lines) == TABLE, f"the right one: {function_faults(lines)}"
    for name, part, wrong, expected in WRONG:
        found = function_faults(RIGHT.replace(part, wrong).split("\n"))
        yield RIGHT.count(part) == 1 and any(expected in fault for fault in found), f"{name}: {found}"
    for name, text, pointers, expected in OTHERS:
        found = program_faults({FUNCTION: right, name: text.split("\n")}, TABLE, pointers)
        yield expected in "".join(found) if expected else not found, f"{text!r}: {found}"
    for sections, roots, expected in DATA:
        found = data_faults(sections, bytes_of(roots), TABLE)
        yield expected in "".join(found) if expected else not found, f"constant data: {found}"


def main():
    found = list(results())
    return tally.report([text for is_right, text in found if not is_right], len(found), "all is found")


if __name__ == "__main__":
    sys.exit(main())
