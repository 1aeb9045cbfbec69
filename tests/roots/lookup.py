"""The look-up of a root, as compiled for x86-64: a load from a constant table of all roots, with no copy of it.

Usage: python3 -B -m tests.roots.lookup

No proof tells of this: the contract is of values alone. Looked at is the console as `rt ci` built it with LLVM, which
takes the root of any sample in two ways: in a scan with IC 1, and by the line `root`. The function
`scaling::roots::entry` is a few instructions that go forward within it, call nothing, write no memory and read it once,
at the sample's place in the table; it is called at two places at least, nothing else names an address in the table, and
no function has room on its stack for a copy, of a byte for each root (the program's start beside its two buffers). The
table is constant data, two bytes to a root, and all other constant data together is smaller than a byte for each root.
The last line printed is 'N passed, M failed', one count for each of these.
"""

import math
import re
import subprocess
import sys

from tests import ROOT
from tests.gate import tally

PROGRAM, WAYS = "console", 2
FUNCTION = "scaling::roots::entry"
ROOTS = [math.isqrt(10000 * place) for place in range(10001)]
TABLE_SIZE = 2 * len(ROOTS)
MOST_INSTRUCTIONS, LEAST_COPY = 8, len(ROOTS)
START, BUFFERS = f"{PROGRAM}::main+start", 2 * 65536  # the program's start has the input and the output on its stack
COMPUTING = re.compile(r"movz?[bwlq]*|lea|cmp|test|xor|and|dec|sub|add|cmov\w+")  # the last operand is what may be written
JUMP = re.compile(r"j(?:a|ae|b|be|mp)")
HEADING = re.compile(r"[0-9a-f]+ <(.+)>:")
INSTRUCTION = re.compile(r"\s+([0-9a-f]+):\t(\S+)\s*([^#<]*)")
NAMED = re.compile(r"# ([0-9a-f]+) <")              # the address that an instruction names by its distance from itself
CALL = re.compile(rf"\t(?:call|jmp)\s+[0-9a-f]+ <{re.escape(FUNCTION)}>$")
POINTER = re.compile(r"\sR_X86_64_RELATIVE\s+\*ABS\*\+0x([0-9a-f]+)$", re.MULTILINE)  # an address in the program's data
FILLER = "int3"  # what stands between two functions
PLAIN = re.compile(r"%(?!rsp|esp|rbp|ebp)\w+|\$0x[0-9a-f]+")  # a register that isn't the stack's, or a number
WIDENED = re.compile(r"movzwl %di,%e(\w\w)")                  # the sample, the function's argument
BASE = re.compile(r"lea -?0x[0-9a-f]+\(%rip\),(%r\w+)")       # where the table begins
LOADED = re.compile(r"movzwl \((%r\w+),%r(\w+),2\),%eax")     # what the function returns
STACK = re.compile(r"sub\s+\$0x([0-9a-f]+),%rsp")
LARGE_STACK = re.compile(r"\tmov\s+%rsp,%r11\n.*\tsub\s+\$0x([0-9a-f]+),%r11")  # much room, which a loop then takes page by page
BYTES = re.compile(r" [0-9a-f]+ ((?:[0-9a-f]{2,8} ){1,5})")  # in words of four bytes, and so five pieces at an odd place
SECTION = re.compile(r"^\s+\d+ (\.rodata\S*)\s+([0-9a-f]{8})  ([0-9a-f]{16}) .*\n\s+(.*)$", re.MULTILINE)


def objdump(*words):
    return subprocess.run(["objdump", *words], capture_output=True, text=True, check=True).stdout


def functions_in(file):
    """The lines of each function."""
    functions, lines = {}, []
    for line in objdump("-d", "--no-show-raw-insn", file).split("\n"):
        heading = HEADING.fullmatch(line)
        if heading:
            lines = functions.setdefault(heading.group(1), [])
        lines.append(line)
    return functions


def addresses_in(lines):
    """The addresses of data that a function's instructions name."""
    return [int(found.group(1), 16) for found in map(NAMED.search, lines) if found]


def table_of(lines):
    """Where the table is, by the look-up; 0 if it names no address."""
    return next(iter(addresses_in(lines)), 0)


def instruction_faults(address, name, operands, addresses):
    """What in one instruction is more than computing in registers, reading or jumping forward within the function."""
    words = f"{name} {','.join(operands)}".strip()
    if JUMP.fullmatch(name):
        target = int(operands[0], 16) if re.fullmatch(r"[0-9a-f]+", operands[0]) else 0
        return [] if target > address and target in addresses else [f"{words} leaves the function or goes back"]
    if name == "ret":
        return []
    if not COMPUTING.fullmatch(name):
        return [f"{words} isn't a load"]
    if not PLAIN.fullmatch(operands[-1]):
        return [f"{words} writes memory or moves the stack"]
    return []


def function_faults(lines):
    """What makes a disassembled function more than a load from the table."""
    found = [each.groups() for each in map(INSTRUCTION.match, lines) if each]
    while found and found[-1][1] == FILLER and len(found) > 1 and found[-2][1] in ("ret", FILLER):
        found.pop()
    instructions = [(int(address, 16), name, re.split(r",(?![^(]*\))", operands.strip())) for address, name, operands in found]
    addresses = {address for address, _, _ in instructions}
    faults = [] if 0 < len(instructions) <= MOST_INSTRUCTIONS else [f"{len(instructions)} instructions"]
    for address, name, operands in instructions:
        faults += instruction_faults(address, name, operands, addresses)
    texts = [f"{name} {','.join(operands)}" for _, name, operands in instructions]
    reads = [text for (_, name, operands), text in zip(instructions, texts)
             if COMPUTING.fullmatch(name) and name != "lea" and not all(map(PLAIN.fullmatch, operands))]
    if len(reads) != 1:
        faults.append(f"{len(reads)} reads of memory")
    if len(addresses_in(lines)) != 1:
        faults.append(f"it names {len(addresses_in(lines))} addresses")
    samples = [each.group(1) for each in map(WIDENED.fullmatch, texts) if each]
    loads = [each.groups() for each in map(LOADED.fullmatch, texts) if each]
    bases = {each.group(1) for each in map(BASE.fullmatch, texts) if each}
    if [(base in bases, place) for base, place in loads] != [(True, sample) for sample in samples[:1]]:
        faults.append("it doesn't load at the sample's place in the table")
    return faults


def room_of(lines):
    """How many bytes of the stack a function takes."""
    return sum(int(size, 16) for size in STACK.findall("\n".join(lines)) + LARGE_STACK.findall("\n".join(lines)))


def program_faults(functions, table, pointers):
    """What in the program's functions or data names an address in the table past the look-up, or could hold a copy."""
    inside = range(table, table + TABLE_SIZE)
    users = [name for name, lines in functions.items() for address in addresses_in(lines) if address in inside]
    faults = [] if users == [FUNCTION] else ["the table is used elsewhere too, or nowhere"]
    faults += [f"the program's data has the address {pointer:x}, in the table" for pointer in pointers if pointer in inside]
    calls = [line for name, lines in functions.items() if name != FUNCTION for line in lines if CALL.search(line)]
    faults += [] if len(calls) >= WAYS else [f"the look-up is called at {len(calls)} places"]
    for name, lines in functions.items():
        room = room_of(lines)
        most = LEAST_COPY + (BUFFERS if name == START else 0)
        faults += [f"{name} has {room} bytes on its stack"] if room >= most else []
    return faults


def data_faults(headers, contents, table):
    """What is wrong with the program's constant data, by the headers of its sections and the bytes at the table."""
    sections = [(name, int(size, 16), int(address, 16), flags) for name, size, address, flags in SECTION.findall(headers)]
    holds = [flags for _, size, address, flags in sections if address <= table and table + TABLE_SIZE <= address + size]
    faults = [] if holds and "READONLY" in holds[0] else ["it has no constant table"]
    others = sum(size for _, size, _, _ in sections) - TABLE_SIZE
    faults += [f"its other constant data has {others} bytes"] if others >= LEAST_COPY else []
    data = b"".join(bytes.fromhex(found.group(1)) for found in map(BYTES.match, contents.split("\n")) if found)
    if [int.from_bytes(data[at:at + 2], "little") for at in range(0, len(data), 2)] != ROOTS:
        faults.append("its table isn't that of the roots")
    return faults


def main():
    file = ROOT / "crates" / PROGRAM / "out" / PROGRAM
    functions = functions_in(file)
    lookup = functions.get(FUNCTION, [])
    table, pointers = table_of(lookup), [int(pointer, 16) for pointer in POINTER.findall(objdump("-R", file))]
    contents = objdump("-s", f"--start-address={table}", f"--stop-address={table + TABLE_SIZE}", file)
    results = ["; ".join(found) for found in (function_faults(lookup), program_faults(functions, table, pointers),
                                              data_faults(objdump("-h", file), contents, table))]
    return tally.report([result for result in results if result], len(results), f"a load from a constant table of {TABLE_SIZE} bytes")


if __name__ == "__main__":
    sys.exit(main())
