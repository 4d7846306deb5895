"""The machine code of an archive or an object file for x86-64, as objdump shows it: sections, their instructions, and what each refers to.

The compiler puts each function into a section of its own, so that whatever leads from one to another is a relocation: a call, a jump, a jump table.
What a function reaches is thus what its section's relocations lead to, and theirs in turn.
"""
import os
import re
import subprocess
from collections import namedtuple
from pathlib import Path

ROOT = Path(__file__).resolve().parent.parent
ARCHIVES = {"ppu": "PPU_ARCHIVE", "text": "PPU_TEXT_ARCHIVE"}  # each crate's may be named by a variable
OUTSIDE = {"memcpy", "memset"}  # all that an archive may leave undefined

SECTION = re.compile(r"^ +\d+ (\S+) +([0-9a-f]{8})  [0-9a-f]+  [0-9a-f]+  ([0-9a-f]{8})  \S+  (.*)$")
SYMBOL = re.compile(r"^([0-9a-f]{16}) (.{7}) (\S+)\t[0-9a-f]{16} (?:\.hidden )?(.+)$")
RELOCATION = re.compile(r"^([0-9a-f]{16}) R_\S+\s+(\S.*?)([+-]0x[0-9a-f]+)?$")
PREFIX = r"(?:rep\w*|lock|bnd|notrack|data16|addr32|xacquire|xrelease|rex\S*|[c-gs]s|\{\w+\}) +"
INSTRUCTION = re.compile(rf"^ *([0-9a-f]+):\t(?:{PREFIX})*(\S+) *(.*)$")

# of integers, of the x87 unit, of SSE and AVX
DIVIDES = re.compile(r"^(i?div[bwlq]?|fi?divr?[slp]?|fprem1?|v?div[sp][sdh])$")
# Arithmetic, comparisons and conversions: moves, bit operations and shuffles of floats are used for integers too.
FLOATS = re.compile(r"^(f[a-z]\w*|v?cvt\w+|v?(add|sub|mul|div|min|max|r?sqrt|rcp|cmp\w*|u?comi|hadd|hsub|addsub|round|dp|fn?m(add|sub)\w*)[sp][sdh])$")
# system calls, interrupts, input and output, what only a system may do
SYSTEM = re.compile(r"^(sys(call|enter|ret|exit)\w*|int\d?|into|iret\w*|(in|out)s?[bwl]?|hlt|vmcall|vmmcall|(rd|wr)msr|(cli|sti|lgdt|lidt)\w*)$")
UNREAD = re.compile(r"^\(bad\)$")
RED_ZONE = re.compile(r"-(0x[0-9a-f]+)\(%rsp")  # below the stack pointer, where a function that calls nothing may write

Section = namedtuple("Section", "size place flags")
Instruction = namedtuple("Instruction", "function offset name operands")
Reference = namedtuple("Reference", "offset name addend")


def archives():
    """Each crate's archive."""
    return {crate: ROOT / os.environ.get(variable, f"target/staticlib/lib{crate}.a") for crate, variable in ARCHIVES.items()}


def objdump(path, *options):
    said = subprocess.run(["objdump", "-w", *options, str(path)], capture_output=True, text=True)
    if said.returncode:
        raise SystemExit(f"objdump {path}: {said.stderr.strip()}")
    return said.stdout.splitlines()


class Code:
    """What stands in a file: its `sections`, and by section `instructions` and `refers`, its relocations; the section of each symbol `defined`, and
    the symbols `undefined`. A section is named by its member and itself."""

    def __init__(self, path):
        self.path = path
        self.sections, self.instructions, self.refers, self.defined, self.undefined, self.within = {}, {}, {}, {}, set(), set()
        self.read_symbols()
        self.read_instructions()

    def read_symbols(self):
        member, section = "", None
        for line in objdump(self.path, "-h", "-t", "-r"):
            if ":     file format " in line:
                member = line.split(":")[0]
            elif head := SECTION.match(line):
                self.sections[member, head[1]] = Section(int(head[2], 16), int(head[3], 16), head[4])
            elif line.startswith("RELOCATION RECORDS FOR ["):
                section = (member, line[line.index("[") + 1:line.rindex("]")])
            elif symbol := SYMBOL.match(line):
                self.add_symbol(member, *symbol.groups())
            elif section and (relocation := RELOCATION.match(line)):
                offset, name, addend = relocation.groups()
                self.refers.setdefault(section, []).append(Reference(int(offset, 16), name, int(addend or "0", 16)))
        self.undefined -= set(self.defined)

    def add_symbol(self, member, value, kind, where, name):
        if where == "*UND*":
            self.undefined.add(name)
            return
        self.defined[name if kind[0] == "g" else (member, name)] = (member, where)
        if int(value, 16) and "F" in kind:
            self.within.add((member, where))

    def read_instructions(self):
        member = section = None
        for line in objdump(self.path, "-d", "--no-show-raw-insn"):
            if ":     file format " in line:
                member = line.split(":")[0]
            elif line.startswith("Disassembly of section "):
                section = (member, line[len("Disassembly of section "):-1])
            elif found := INSTRUCTION.match(line):
                name = section[1].removeprefix(".text.")
                self.instructions.setdefault(section, []).append(Instruction(name, int(found[1], 16), found[2], found[3]))

    def writable(self):
        """The sections of memory that can be written."""
        return [s for s, (size, _, flags) in self.sections.items() if size and "ALLOC" in flags and "READONLY" not in flags]

    def size(self, kind):
        """How many bytes the sections have whose name begins so."""
        return sum(section.size for (_, name), section in self.sections.items() if name.startswith(kind))

    def lead(self, member, name):
        """The section that a name leads to from a member, or None where it is not in the file."""
        for key in ((member, name), name):
            if key in self.defined:
                return self.defined[key]
        return (member, name) if name.startswith(".") else None

    def reach(self, start):
        """The sections that a function reaches, its own among them, and the names that lead out of the file."""
        sections, outside, ahead = set(), set(), [self.defined[start]]
        while ahead:
            section = ahead.pop()
            if section in sections:
                continue
            sections.add(section)
            for reference in self.refers.get(section, ()):
                to = self.lead(section[0], reference.name)
                if to:
                    ahead.append(to)
                else:
                    outside.add(reference.name)
        return sections, outside

    def found(self, pattern, sections=None):
        """The instructions of this kind, in these sections or in all."""
        looked = [i for s, each in self.instructions.items() if sections is None or s in sections for i in each]
        return [i for i in looked if pattern.match(i.name)]

    # THE STACK

    def stack(self, name):
        """The most bytes of stack that a function of the file takes, its return address and what it calls in the file with it. A function outside
        the file counts with its return address alone. What is not known here ends the script."""
        return self.deepest(self.defined[name], ())

    def deepest(self, section, callers):
        """Along every path through a section, with the depth of the stack at each instruction, which must be the same on every path there."""
        if section in callers or section in self.within:
            unknown(section, "a function that calls itself, or a section with two functions")
        code = self.instructions[section]
        ends = dict(zip([i.offset for i in code], [i.offset for i in code[1:]] + [None]))
        at_offset = {i.offset: i for i in code}
        depth, ahead, most = {}, [(0, 8)], 8
        while ahead:
            at, now = ahead.pop()
            if at not in at_offset or depth.get(at, now) != now:
                unknown(section, f"+{at}: no instruction there, or another depth of the stack")
            if at in depth:
                continue
            depth[at] = now
            i, end = at_offset[at], ends[at]
            to = next((r for r in self.refers.get(section, ()) if at <= r.offset and (end is None or r.offset < end)), None)
            most = max([most, now] + [now + int(by, 16) for by in RED_ZONE.findall(i.operands)])
            if leaves(i, to):
                callee = self.lead(section[0], to.name)
                most = max(most, now + (self.deepest(callee, (*callers, section)) if callee else 8) - (8 if i.name == "jmp" else 0))
            elif i.name.startswith("j"):
                ahead += [(t, now) for t in self.targets(section, i)]
            if i.name not in ("ret", "ud2", "jmp"):
                ahead.append((end, now + moved(i)))
        return most

    def targets(self, section, jump):
        """Where a jump within a section leads; by a jump table, to every place that a table of this section has."""
        if not jump.operands.startswith("*"):
            return [int(jump.operands.split()[0], 16)]
        tables = {self.lead(section[0], r.name) for r in self.refers[section]} - {section, None} - set(self.instructions)
        entries = [r for t in tables for r in self.refers.get(t, ()) if self.lead(t[0], r.name) == section]
        if not entries or len([t for t in tables if t in self.refers]) != 1:
            unknown(section, f"{jump}: no jump table, or more than one")
        return [r.addend - r.offset for r in entries]


def unknown(section, what):
    raise SystemExit(f"{section[1]}: the stack cannot be followed: {what}")


def leaves(i, to):
    """An instruction is a call, or a jump out of its section; each must be direct, and by a relocation."""
    indirect = i.operands.startswith("*")
    if i.name.startswith("call") and (indirect or not to):
        unknown(("", i.function), f"{i}")
    if i.name.startswith("j") and to and (indirect or i.name != "jmp"):
        unknown(("", i.function), f"{i}")
    return i.name.startswith(("call", "j")) and to is not None


def moved(i):
    """By how many bytes an instruction makes the stack deeper."""
    if i.name in ("push", "pop"):
        return 8 if i.name == "push" else -8
    if i.name in ("sub", "add") and (by := re.fullmatch(r"\$(-?0x[0-9a-f]+),%rsp", i.operands)):
        by = int(by[1], 16)
        by -= 1 << 64 if by >> 63 else 0
        return by if i.name == "sub" else -by
    if i.operands.endswith("%rsp") and i.name not in ("cmp", "test") or i.name.startswith(("push", "pop", "leave", "enter")) and i.name != "popcnt":
        unknown(("", i.function), f"{i}")
    return 0
