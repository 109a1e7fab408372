#!/usr/bin/env python3
"""Computes the deepest stack of each call that an archive exports, from its disassembly.

usage: stack.py ARCHIVE LIMIT FRAME [MEASURED]    print a table; exit 1 where a call needs more than LIMIT bytes, or a single
                                                  function more than FRAME: so no local array has more than that
       stack.py ARCHIVE                           print what each function takes by itself

MEASURED is a file with what a run saw of some calls, in lines "CALL: N bytes of stack"; exit 1 where a run saw more than is computed.

The stack pointer is followed through every path of every function: pushes, pops, additions, frames kept in rbp, alignment. What a
call takes is what its caller put on the stack for it (return address and stack arguments), its own frame, what it uses below the
stack pointer, and the deepest of what it calls in turn, jumps to other functions included. Functions of the host are counted with
their return address alone.

Whatever is not understood is an error, so that no figure is too small by silence: another change of the stack pointer, two depths at
one instruction, recursion, a call or jump through a register (but for jump tables), code that no path reaches.
One thing is taken for granted: a pointer into the frame is not used to reach below the stack pointer.
"""

import re
import subprocess
import sys
from collections import namedtuple

HOST = {"memcpy", "memmove", "memset", "memcmp"}
RETURN_ADDRESS = 8
WORD = 8
CALL_ALIGNMENT = 16

# What a function that only makes a call takes besides its arguments: its return address and an alignment.
CALLER_FRAME = 24

PREFIXES = {"rep", "repz", "repnz", "lock", "notrack", "bnd", "data16", "cs", "ds", "es", "fs", "gs", "ss"}
ENDS = {"ud2", "hlt", "int3"}
PADDING = ENDS | {"nop", "nopw", "nopl", "xchg"}
READS_ONLY = {"cmp", "cmpq", "test", "testq"}

Instruction = namedtuple("Instruction", "at name operands relocation text")
Relocation = namedtuple("Relocation", "kind symbol addend")
Symbol = namedtuple("Symbol", "name section offset size exported function")
State = namedtuple("State", "depth exact frame")
Place = namedtuple("Place", "section offset")


class NotUnderstood(Exception):
    pass


def run(*command):
    return subprocess.run(command, check=True, capture_output=True, text=True).stdout


def number(text):
    value = int(text, 0)
    return value - (1 << 64) if value >= 1 << 63 else value


# ---- What objdump says ----


def split_operands(text):
    parts, depth, current = [], 0, ""
    for letter in text:
        depth += (letter == "(") - (letter == ")")
        if letter == "," and depth == 0:
            parts.append(current)
            current = ""
        else:
            current += letter
    return [part.strip() for part in parts + [current] if part.strip()]


def parse_relocation(kind, value):
    match = re.fullmatch(r"(.*?)([+-]0x[0-9a-f]+)?", value.strip())
    return Relocation(kind, match.group(1), int(match.group(2) or "0", 16))


def parse_instruction(line):
    """One line of objdump -drw; None for a line that is no instruction."""
    match = re.match(r"\s*([0-9a-f]+):\t(.*)", line)
    if not match:
        return None
    fields = match.group(2).split("\t")
    relocation = None
    for field, following in zip(fields, fields[1:]):
        found = re.search(r"[0-9a-f]+: (R_X86_64_\w+)$", field)
        if found:
            relocation = parse_relocation(found.group(1), following)
    words = re.sub(r"\s*([0-9a-f]+: R_X86_64_\w+)$", "", fields[0]).split("#")[0].split()
    while words and (words[0] in PREFIXES or words[0].startswith("rex")):
        words.pop(0)
    if not words:
        raise NotUnderstood(f"a prefix alone: {line.strip()}")
    operands = split_operands(re.sub(r"<[^>]*>", "", " ".join(words[1:])))
    return Instruction(int(match.group(1), 16), words[0], operands, relocation, " ".join(words))


class Member:
    """One object of the archive: its symbols, its code and its relocations outside of code."""

    def __init__(self, name):
        self.name = name
        self.symbols = []
        self.code = {}
        self.tables = {}

    def place_of(self, symbol, addend):
        """Where a symbol of this object is, or None for one that it does not define."""
        for known in self.symbols:
            if known.name == symbol and known.section not in ("*UND*", "*COM*"):
                return Place(known.section, known.offset + addend)
        return Place(symbol, addend) if symbol in self.code or symbol in self.tables else None


def members_of(text):
    """The parts of an output of objdump that belong to each object."""
    parts = re.split(r"^(\S.*?):\s+file format .*$", text, flags=re.MULTILINE)
    return list(zip(parts[1::2], parts[2::2]))


def parse_symbols(member, text):
    for line in text.splitlines():
        match = re.match(r"([0-9a-f]{16}) (.{7}) (\S+)\t([0-9a-f]{16})\s+(?:\.hidden |\.protected |\.internal )?(\S+)", line)
        if match:
            offset, flags, section, size, name = match.groups()
            exported = flags[0] == "g" or flags[1] == "w"
            member.symbols.append(Symbol(name, section, int(offset, 16), int(size, 16), exported, "F" in flags))


def parse_code(member, text):
    section = None
    for line in text.splitlines():
        match = re.match(r"Disassembly of section (.*):", line)
        if match:
            section = match.group(1)
            member.code[section] = []
            continue
        instruction = parse_instruction(line) if section else None
        if instruction:
            member.code[section].append(instruction)


def parse_tables(member, text):
    section = None
    for line in text.splitlines():
        match = re.match(r"RELOCATION RECORDS FOR \[(.*)\]:", line)
        if match:
            section = match.group(1)
            member.tables[section] = {}
            continue
        match = re.match(r"([0-9a-f]{16}) (R_X86_64_\w+)\s+(\S+)", line)
        if match and section:
            member.tables[section][int(match.group(1), 16)] = parse_relocation(match.group(2), match.group(3))


def read_archive(path):
    members = {}
    for option, parse in ((["-t"], parse_symbols), (["-d", "-r", "-w", "-z", "--no-show-raw-insn"], parse_code), (["-r", "-w"], parse_tables)):
        for name, text in members_of(run("objdump", *option, path)):
            parse(members.setdefault(name, Member(name)), text)
    return list(members.values())


# ---- One function ----


class Function:
    def __init__(self, member, symbol):
        self.member = member
        self.name = symbol.name
        self.exported = symbol.exported
        self.start = Place(symbol.section, symbol.offset)
        end = symbol.offset + symbol.size
        self.code = {i.at: i for i in member.code.get(symbol.section, []) if symbol.offset <= i.at < end}
        self.states = {}
        self.own = RETURN_ADDRESS
        self.arguments = 0
        self.calls = []

    def fail(self, instruction, why):
        raise NotUnderstood(f"{self.name}+{instruction.at - self.start.offset:#x}: {why}: {instruction.text}")

    def holds(self, place):
        return place.section == self.start.section and place.offset in self.code

    # -- where control goes

    def target(self, instruction):
        """Where a call or jump goes: a place of this object, or the name of a symbol that it does not define."""
        operand = instruction.operands[0] if instruction.operands else ""
        relocation = instruction.relocation
        if operand.startswith("*"):
            if relocation and relocation.kind.startswith("R_X86_64_GOTPCREL") and operand.endswith("(%rip)"):
                return self.member.place_of(relocation.symbol, 0) or relocation.symbol
            return None
        if relocation:
            place = self.member.place_of(relocation.symbol, relocation.addend + 4)
            if place is None and relocation.addend != -4:
                self.fail(instruction, "into the middle of another object's function")
            return place or relocation.symbol
        return Place(self.start.section, int(operand, 16))

    def table_bases(self):
        """The places of data that this function's code names."""
        bases = set()
        for instruction in self.code.values():
            relocation = instruction.relocation
            if relocation and relocation.kind in ("R_X86_64_PC32", "R_X86_64_32S", "R_X86_64_32"):
                shift = 4 if relocation.kind == "R_X86_64_PC32" else 0
                place = self.member.place_of(relocation.symbol, relocation.addend + shift)
                if place and place.section not in self.member.code:
                    bases.add(place)
        return bases

    def jump_table(self, instruction, all_bases):
        """Where a jump through a table can go: every place of this function that a table it names lists."""
        targets = set()
        for base in self.table_bases():
            entries = self.member.tables.get(base.section, {})
            at = base.offset
            while at in entries and (at == base.offset or Place(base.section, at) not in all_bases):
                entry = entries[at]
                relative = entry.kind == "R_X86_64_PC32"
                place = self.member.place_of(entry.symbol, entry.addend - (at - base.offset if relative else 0))
                if not place or not self.holds(place):
                    break
                targets.add(place.offset)
                at += 4 if relative else 8
        if not targets:
            self.fail(instruction, "a jump that is not through a jump table")
        return targets

    # -- what an instruction does to the stack pointer

    def reaches(self, instruction, state):
        """Takes note of memory beside the frame: below the stack pointer, or above the return address."""
        for operand in instruction.operands:
            match = re.search(r"(-?0x[0-9a-f]+)?\((%r[bs]p)", operand)
            if not match:
                continue
            base = state.depth if match.group(2) == "%rsp" else state.frame
            if base is None:
                continue
            offset = number(match.group(1) or "0")
            self.own = max(self.own, base - offset)
            if offset >= base:
                self.arguments = max(self.arguments, offset - base + WORD)

    def moved(self, instruction, state, by):
        if state.depth + by < RETURN_ADDRESS:
            self.fail(instruction, "takes the return address off the stack")
        return state._replace(depth=state.depth + by)

    def aligned(self, instruction, state, alignment):
        """The most that an alignment takes: at a call the stack pointer, without the return address, is a multiple of 16."""
        if alignment < CALL_ALIGNMENT or alignment & (alignment - 1) or not state.exact:
            self.fail(instruction, "no alignment of a known depth")
        return State(state.depth + alignment - CALL_ALIGNMENT + -state.depth % CALL_ALIGNMENT, False, state.frame)

    def from_frame(self, instruction, state, offset):
        if state.frame is None:
            self.fail(instruction, "rbp holds no frame here")
        return State(state.frame - offset, True, state.frame)

    def set_stack_pointer(self, instruction, state):
        """An instruction whose last operand is rsp."""
        name, source = instruction.name, instruction.operands[0]
        if name in READS_ONLY:
            return state
        if name in ("sub", "subq", "add", "addq") and source.startswith("$"):
            value = number(source[1:])
            return self.moved(instruction, state, value if name.startswith("sub") else -value)
        if name in ("and", "andq") and source.startswith("$"):
            return self.aligned(instruction, state, -number(source[1:]))
        match = re.fullmatch(r"(-?0x[0-9a-f]+)?\((%r[bs]p)\)", source)
        if name in ("lea", "leaq") and match:
            offset = number(match.group(1) or "0")
            if match.group(2) == "%rsp":
                return self.moved(instruction, state, -offset)
            return self.from_frame(instruction, state, offset)
        if name in ("mov", "movq") and source == "%rbp":
            return self.from_frame(instruction, state, 0)
        self.fail(instruction, "the stack pointer changes")

    def set_frame(self, instruction, state):
        """An instruction whose last operand is rbp, or part of it."""
        if instruction.name in READS_ONLY:
            return state
        source = instruction.operands[0]
        if instruction.name in ("mov", "movq") and source == "%rsp" and state.exact:
            return state._replace(frame=state.depth)
        match = re.fullmatch(r"(-?0x[0-9a-f]+)?\(%rsp\)", source)
        if instruction.name in ("lea", "leaq") and match and state.exact:
            return state._replace(frame=state.depth - number(match.group(1) or "0"))
        return state._replace(frame=None)

    def effect(self, instruction, state):
        name, operands = instruction.name, instruction.operands
        registers = [operand for operand in operands if operand.startswith("%")]
        if any(register in ("%esp", "%sp", "%spl") for register in registers):
            self.fail(instruction, "a part of the stack pointer")
        if name in ("push", "pushq"):
            return self.moved(instruction, state, WORD)
        if name in ("pop", "popq"):
            if operands == ["%rsp"]:
                self.fail(instruction, "the stack pointer changes")
            state = self.moved(instruction, state, -WORD)
            return state._replace(frame=None) if operands == ["%rbp"] else state
        if name in ("leave", "leaveq"):
            return self.moved(instruction, self.from_frame(instruction, state, 0), -WORD)._replace(frame=None)
        if re.match(r"push|pop(?!cnt)|enter|iret|sysret|sysexit|syscall|int$|ret", name):
            self.fail(instruction, "not expected here")
        if "%rsp" in registers and (name.startswith(("xchg", "xadd", "cmpxchg")) or len(operands) == 1):
            self.fail(instruction, "the stack pointer may change")
        if name.startswith(("xchg", "xadd", "cmpxchg")) and any(register in ("%rbp", "%ebp", "%bp", "%bpl") for register in registers):
            return state._replace(frame=None)
        if operands and operands[-1] == "%rsp":
            return self.set_stack_pointer(instruction, state)
        if operands and operands[-1] in ("%rbp", "%ebp", "%bp", "%bpl"):
            return self.set_frame(instruction, state)
        return state

    # -- the paths

    def leave_at(self, instruction, state):
        if state.depth != RETURN_ADDRESS or not state.exact:
            self.fail(instruction, f"leaves the function with {state.depth - RETURN_ADDRESS} bytes on the stack")

    def follow_jump(self, instruction, state, all_bases):
        """The next instructions of a jump; a jump out of the function is a call that does not come back."""
        target = self.target(instruction)
        if target is None:
            return self.jump_table(instruction, all_bases)
        if isinstance(target, Place) and self.holds(target):
            return {target.offset}
        self.leave_at(instruction, state)
        self.calls.append((state.depth - RETURN_ADDRESS, target))
        return set()

    def follow(self, instruction, state, after, all_bases):
        """The state after an instruction, and which instructions can come next."""
        name = instruction.name
        if name in ("ret", "retq"):
            if instruction.operands:
                self.fail(instruction, "a return that takes arguments off the stack")
            self.leave_at(instruction, state)
            return state, set()
        if name in ENDS:
            return state, set()
        if name in ("call", "callq"):
            target = self.target(instruction)
            if target is None:
                self.fail(instruction, "an indirect call")
            self.calls.append((state.depth, target))
            return state, {after}
        if name in ("jmp", "jmpq"):
            return state, self.follow_jump(instruction, state, all_bases)
        if name.startswith("j") or name.startswith("loop"):
            return state, self.follow_jump(instruction, state, all_bases) | {after}
        self.reaches(instruction, state)
        state = self.effect(instruction, state)
        self.own = max(self.own, state.depth)
        return state, {after}

    def enter(self, at, state, waiting, instruction):
        if at not in self.code:
            self.fail(instruction, "control runs out of the function")
        known = self.states.get(at)
        if known is not None and (known.depth, known.exact) != (state.depth, state.exact):
            self.fail(instruction, f"reaches {at - self.start.offset:#x} with two depths, {known.depth} and {state.depth}")
        if known is not None and known.frame != state.frame:
            state = state._replace(frame=None)
        if known != state:
            self.states[at] = state
            waiting.append(at)

    def analyse(self, all_bases):
        if self.start.offset not in self.code:
            raise NotUnderstood(f"{self.name}: no code")
        order = sorted(self.code)
        after = dict(zip(order, order[1:] + [None]))
        waiting = [self.start.offset]
        self.states[self.start.offset] = State(RETURN_ADDRESS, True, None)
        while waiting:
            at = waiting.pop()
            instruction = self.code[at]
            state, following = self.follow(instruction, self.states[at], after[at], all_bases)
            for place in following:
                self.enter(place, state, waiting, instruction)
        for at in order:
            if at not in self.states and self.code[at].name not in PADDING:
                self.fail(self.code[at], "no path reaches this")


# ---- The calls ----


class Archive:
    def __init__(self, path):
        self.functions = {}
        self.exported = {}
        members = read_archive(path)
        for member in members:
            self.add_functions(member)
        for function in self.functions.values():
            function.analyse({base for other in self.functions.values() if other.member is function.member for base in other.table_bases()})
        self.deepest = {}
        self.host = set()

    def add_functions(self, member):
        covered = {}
        for symbol in member.symbols:
            if not symbol.function or symbol.section == "*UND*":
                continue
            function = self.functions.setdefault((member.name, symbol.section, symbol.offset), Function(member, symbol))
            covered.setdefault(symbol.section, set()).update(function.code)
            if symbol.exported:
                if symbol.name in self.exported:
                    raise NotUnderstood(f"{symbol.name} is defined twice")
                self.exported[symbol.name] = function
        for section, code in member.code.items():
            for instruction in code:
                if instruction.at not in covered.get(section, ()) and instruction.name not in PADDING:
                    raise NotUnderstood(f"{section}+{instruction.at:#x}: code of no function: {instruction.text}")

    def callee(self, function, target):
        if isinstance(target, Place):
            found = self.functions.get((function.member.name, target.section, target.offset))
            if found is None:
                raise NotUnderstood(f"{function.name}: goes to {target.section}+{target.offset:#x}, where no function starts")
            return found
        if target in self.exported:
            return self.exported[target]
        if target in HOST:
            self.host.add(target)
            return None
        raise NotUnderstood(f"{function.name}: calls {target}, which is neither in the archive nor one of {', '.join(sorted(HOST))}")

    def deepest_of(self, function, above=()):
        """The bytes that a function takes at its deepest, with its return address, and the path there."""
        if function in above:
            names = [f.name for f in above[above.index(function):]] + [function.name]
            raise NotUnderstood(f"recursion: {' -> '.join(names)}")
        if function not in self.deepest:
            best = (function.own, [(function.name, function.own)])
            for depth, target in function.calls:
                callee = self.callee(function, target)
                below, path = self.deepest_of(callee, above + (function,)) if callee else (RETURN_ADDRESS, [(target, RETURN_ADDRESS)])
                if depth + below > best[0]:
                    best = (depth + below, [(function.name, depth)] + path)
            self.deepest[function] = best
        return self.deepest[function]


def print_functions(archive):
    for function in sorted(archive.functions.values(), key=lambda f: (f.name, f.start)):
        print(f"{function.own:6} {function.name}")


def print_calls(archive, limit, frame):
    """The table of exported calls; answers which limits are exceeded."""
    if not archive.exported:
        raise NotUnderstood("the archive exports no function")
    print(f"{'call':24} {'stack':>6} {'of these, arguments':>20}  path (each with what it takes there)")
    worst = ("", 0)
    for name, function in sorted(archive.exported.items()):
        below, path = archive.deepest_of(function)
        total = below + function.arguments
        worst = max(worst, (name, total), key=lambda pair: pair[1])
        print(f"{name:24} {total:6} {function.arguments:20}  {' -> '.join(f'{step} {taken}' for step, taken in path)}")
    if archive.host:
        print(f"of the host's {', '.join(sorted(archive.host))} only the return address is counted")
    largest = max(archive.functions.values(), key=lambda function: function.own)
    print(f"largest frame of a single function: {largest.name}, {largest.own} bytes; the limit is {frame}")
    print(f"deepest: {worst[0]}, {worst[1]} bytes; the limit is {limit}")
    exceeded = [f"a call needs more than {limit} bytes of stack"] if limit < worst[1] else []
    return exceeded + ([f"a function has a frame of more than {frame} bytes"] if frame < largest.own else [])


def compare(archive, path):
    """Holds the computed figures to those of a run, which has a frame of its own around each call."""
    with open(path, encoding="utf-8") as lines:
        seen = {name: int(taken) for name, taken in re.findall(r"(\w+): (\d+) bytes of stack", lines.read())}
    if set(seen) != set(archive.exported):
        raise NotUnderstood(f"{path} has not just the calls of the archive")
    for name, taken in sorted(seen.items()):
        function = archive.exported[name]
        if taken > archive.deepest_of(function)[0] + function.arguments + CALLER_FRAME:
            raise NotUnderstood(f"{name} was seen to take {taken} bytes, more than is computed")
    print(f"no call was seen to take more in a run, by {path}")


def main(arguments):
    if len(arguments) not in (1, 3, 4):
        print(__doc__, file=sys.stderr)
        return 2
    try:
        archive = Archive(arguments[0])
        if len(arguments) == 1:
            print_functions(archive)
            return 0
        exceeded = print_calls(archive, int(arguments[1]), int(arguments[2]))
        if exceeded:
            print(f"stack.py: {'; '.join(exceeded)}", file=sys.stderr)
            return 1
        if len(arguments) == 4:
            compare(archive, arguments[3])
        return 0
    except NotUnderstood as why:
        print(f"stack.py: {why}", file=sys.stderr)
        return 1


if __name__ == "__main__":
    sys.exit(main(sys.argv[1:]))
