"""Prints how many bytes of stack each call of the static library needs, by its code: /usr/bin/python3 tests/stack.py OBJDUMP LIBRARY.
A row is a call, its bytes, and the functions of the C library that it calls.

A call needs its return address, what it pushes and reserves, what it touches below the stack pointer (the red zone), and what the
functions need that it calls, along the deepest path. Each function is walked along its jumps, with the depth of the stack at every
instruction, so that a tail jump, whose frame is gone by then, is exact. An alignment counts with the most that it can skip. Below the
stack pointer the offset counts, and an index is taken to lead upwards from it; what is reached below it through another register is not
seen. A function of the C library counts with its return address alone.

What is not understood ends the run: recursion, an indirect call, a stack pointer that is set in another way than `moved` knows, or an
instruction that is reached at two depths, as in a loop that reserves a very large frame page by page."""
import re
import subprocess
import sys

WORD = 8  # bytes of a return address, and of what is pushed
PREFIXES = r"(?:(?:bnd|notrack|rep|repz|repnz|lock|data16|cs) )*"
C_LIBRARY = ("memcmp", "memcpy", "memmove", "memset")
UNKNOWN = r"\(bad\)|i?ret|l(?:call|jmp|ret)|sys|int"

# A jump by a table, and what the compiler may put between its instructions. Over %rbp and %r13 an address has a 0 besides.
OTHERS = r"(?:(?!j|call|ret|loop).*\n)*"
SWITCH = rf"lea \S+,(%\w+)\n{OTHERS}movslq (?:0x0)?\(\1,%\w+,4\),(%\w+)\n{OTHERS}add \1,\2\n{OTHERS}jmp \*\2"


def objdump(program, option, path):
    command = [program, option, "--wide", "--disassemble-zeroes", "--no-show-raw-insn", path]
    # In another language its words are other ones.
    done = subprocess.run(command, stdout=subprocess.PIPE, check=True, encoding="utf-8", env={"LC_ALL": "C"})
    return done.stdout.splitlines()


def number(digits):
    """A number as objdump writes it: a negative one in 64 bits, or with its sign."""
    value = int(digits, 16)
    return value - 2**64 if value >= 2**63 else value


def symbol(text):
    """The symbol that a relocation names, and what is added to it."""
    name, added = re.fullmatch(r"(.*?)([+-]0x[0-9a-f]+)?", text).groups()
    return name, number(added or "0")


def moved(text, depth, frame):
    """The depth behind an instruction, and the depth that the frame pointer holds, or none; nothing where the first is not known."""
    if found := re.fullmatch(r"(sub|add) \$(\w+),%rsp", text):
        return depth + number(found[2]) * (1 if found[1] == "sub" else -1), frame
    if found := re.fullmatch(r"and \$(0xf{8}\w{8}),%rsp", text):
        return depth - number(found[1]) - WORD, frame
    if found := re.fullmatch(r"lea (-?0x\w+)\(%(rsp|rbp)\),%rsp", text):
        start = depth if found[2] == "rsp" else frame
        return start and (start - number(found[1]), frame)
    if text == "mov %rsp,%rbp":
        return depth, depth
    if text == "mov %rbp,%rsp":
        return frame and (frame, frame)
    if text == "leave":
        return frame and (frame - WORD, None)
    if text.startswith("push "):
        return depth + WORD, frame
    if re.fullmatch(r"pop %r(?!sp)\w+", text):
        return depth - WORD, None if text == "pop %rbp" else frame
    if re.match(r"push|pop(?!cnt)|enter|(?:xchg|xadd|cmpxchg).*%[re]?[sb]pl?\b", text) or re.match(UNKNOWN, text):
        return None
    target = not re.match(r"cmp|test", text) and re.search(r"[ ,]%[re]?([sb])pl?$", text)
    if target and target[1] == "s":
        return None
    return depth, None if target else frame


class Library:
    """Its code. A place is a section and an address in it."""

    def __init__(self, program, path):
        self.code = {}  # place: the instruction, what its relocation names, and the place behind it
        self.functions = {}  # place: the name of the function that starts there
        self.tables = {}  # section without code: the address of each relocation in it, and what that names
        self.needs = {}  # place of a function: its bytes, and the functions of the C library that it calls
        section = last = None
        for line in objdump(program, "-dr", path):
            if found := re.fullmatch(r"Disassembly of section (.*):", line):
                section, last = found[1], None
            elif found := re.fullmatch(r"([0-9a-f]+) <(.*)>:", line):
                if found[2] in self.functions.values():
                    sys.exit(f"test: {path} has two functions {found[2]}")
                self.functions[section, int(found[1], 16)] = found[2]
            elif found := re.fullmatch(r" *([0-9a-f]+):\t([^\t#]*)[^\t]*(?:\t[0-9a-f]+: R_\w+\t(.*))?", line):
                place = section, int(found[1], 16)
                if place in self.code:
                    sys.exit(f"test: {path} has two sections {section} with code")
                text = re.sub(PREFIXES, "", " ".join(found[2].split()), count=1)
                self.code[place] = [text, symbol(found[3]) if found[3] else None, None]
                if last:
                    self.code[last][2] = place
                last = place
        for line in objdump(program, "-r", path):
            if found := re.fullmatch(r"RELOCATION RECORDS FOR \[(.*)\]:", line):
                section = found[1]
            elif (section, 0) not in self.code and (found := re.fullmatch(r"([0-9a-f]+) R_X86_64_PC32 +(.*)", line)):
                self.tables.setdefault(section, []).append((int(found[1], 16), symbol(found[2])))

    def fail(self, place, why):
        section, address = place
        _, function = max((at, name) for (within, at), name in self.functions.items() if within == section and at <= address)
        sys.exit(f"test: what stack {function} needs is not known: at {address:x} {why}, {self.code[place][0]!r}")

    def target(self, place):
        """Where a call or a jump leads, or the name of a function that is not in the library."""
        text, named, _ = self.code[place]
        if "*" in text:
            self.fail(place, "it goes where a register says")
        if not named:
            return place[0], int(text.split()[1], 16)
        # An address counts from its own end, so 4 is taken off what is added.
        name, added = named
        for start, function in self.functions.items():
            if (name, added + 4) in (start, (function, 0)):
                return start
        if added != -4 or name not in C_LIBRARY:
            self.fail(place, "it leads to no start of a function that is known")
        return name

    def switch(self, place):
        """Where a jump may lead by its table. An entry is the way from the table's start, and its relocation counts from the entry."""
        section, address = place
        here = {at: told for (within, at), told in self.code.items() if within == section}
        loads = {at: named for at, (_, named, _) in here.items() if named and named[0] in self.tables}
        load = max((at for at in loads if at < address), default=address)
        if not re.fullmatch(SWITCH, "\n".join(text for at, (text, _, _) in here.items() if load <= at <= address)):
            self.fail(place, "it goes where a register says")
        table, added = loads[load]
        starts = [more + 4 for name, more in loads.values() if name == table]
        end = min((start for start in starts if start > added + 4), default=sys.maxsize)
        entries = [(at, named) for at, named in self.tables[table] if added + 4 <= at < end]
        if not entries or any(to != section for _, (to, _) in entries):
            self.fail(place, "its table is empty, or leads out of the function")
        return [(section, more - at + added + 4) for at, (_, more) in entries]

    def need(self, function, callers=()):
        """The bytes that a function needs, and the functions of the C library that it calls."""
        if isinstance(function, str):
            return WORD, {function}
        if function in callers:
            self.fail(function, "it calls itself")
        if function not in self.needs:
            self.needs[function] = self.walk(function, (*callers, function))
        return self.needs[function]

    def reach(self, function, place, depth, frame, reached):
        """Notes the depth and the frame at a place; false where the walk has been there and has nothing to take back."""
        if place not in self.code or (place in self.functions and place != function):
            self.fail(function, "it does not end")
        if place in reached:
            if reached[place][0] != depth:
                self.fail(place, f"it is reached at the depths {depth} and {reached[place][0]}")
            if reached[place][1] in (frame, None):
                return False
            frame = None
        reached[place] = depth, frame
        return True

    def walk(self, function, callers):
        most, outside = WORD, set()
        reached, todo = {}, [(function, WORD, None)]
        while todo:
            place, depth, frame = todo.pop()
            if not self.reach(function, place, depth, frame, reached):
                continue
            depth, frame = reached[place]
            text, _, behind = self.code[place]
            name = text.split()[0]
            for offset, register in re.findall(r"-(0x\w+)\(%(rsp|rbp)\b", text):
                most = max(most, (depth if register == "rsp" else frame or 0) + number(offset))
            if name in ("ud2", "hlt") or (text == "ret" and depth == WORD):
                continue
            if text.startswith("jmp *"):
                todo += [(way, depth, frame) for way in self.switch(place)]
                continue
            if name.startswith("call"):
                bytes_there, outside_there = self.need(self.target(place), callers)
                most, outside = max(most, depth + bytes_there), outside | outside_there
            elif re.match(r"j|loop", name):
                ahead = self.target(place)
                if ahead in self.code and (ahead == function or ahead not in self.functions):
                    todo.append((ahead, depth, frame))
                elif depth == WORD:
                    bytes_there, outside_there = self.need(ahead, callers)
                    most, outside = max(most, bytes_there), outside | outside_there
                else:
                    self.fail(place, f"it leaves for another function at the depth {depth}")
                if name == "jmp":
                    continue
            elif not (after := moved(text, depth, frame)):
                self.fail(place, f"the stack is not followed from the depth {depth} on")
            else:
                depth, frame = after
            most = max(most, depth)
            todo.append((behind, depth, frame))
        return most, outside


def main(program, path):
    library = Library(program, path)
    for place, name in sorted(library.functions.items(), key=lambda item: item[1]):
        if name.startswith("peliranopi_"):
            needed, outside = library.need(place)
            print(name.removeprefix("peliranopi_"), needed, *sorted(outside))


if __name__ == "__main__":
    main(*sys.argv[1:])
