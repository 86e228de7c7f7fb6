"""The stack that the functions of an archive for x86-64 can take, read off their machine code: the frames along
the deepest way of calls, on any input.  What is not understood, a call through a pointer or a function that
calls itself among it, is a fault: then the code says nothing of the depth."""
import re

from archive import Fault, written

WORD = 8
INSTRUCTION = re.compile(r'^ +([0-9a-f]+):\t(?:(?:rep|repz|repnz|lock|notrack|bnd|data16|cs) )*(\S+)(?: +(.*?))?(?: +#.*)?$')
RELOCATION = re.compile(r'^\t+[0-9a-f]+: R_X86_64_\w+\t(?:\.text\.)?(\S+?)(?:-0x4)?$')    # a function has a section
SYMBOL = re.compile(r'^[0-9a-f]+ <(.+)>:$')


class Instruction:
    """One instruction, and the symbol that the linker puts into it."""

    def __init__(self, at, name, operands):
        self.at, self.name, self.operands, self.symbol = at, name, operands, None

    def target(self):
        """Where a jump inside the function goes to, or none."""
        found = re.fullmatch(r'([0-9a-f]+) <.*>', self.operands)
        return int(found[1], 16) if found else None


def code_of(archive):
    """The instructions of each function, in their order."""
    functions, body = {}, []
    for line in written(['objdump', '-d', '-r', '--no-show-raw-insn', archive]).decode().splitlines():
        if found := SYMBOL.match(line):
            body = functions.setdefault(found[1], [])
        elif found := INSTRUCTION.match(line):
            body.append(Instruction(int(found[1], 16), found[2], found[3] or ''))
        elif (found := RELOCATION.match(line)) and body:
            body[-1].symbol = found[1]
    return {name: body for name, body in functions.items() if body}


# ---- One function -----------------------------------------------------------------------------------

def moved(instruction, depth, base):
    """How deep the stack is after an instruction, and where its base is, if it has one."""
    name, operands = instruction.name, instruction.operands
    if name.startswith('push'):
        return depth + WORD, base
    if name.startswith('pop') and name != 'popcnt':
        return depth - WORD, base
    if found := re.fullmatch(r'\$(0x[0-9a-f]+),%rsp', operands):
        number = int(found[1], 16) - ((1 << 64) if len(found[1]) == 18 else 0)
        if name.startswith('sub'):
            return depth + number, base
        if name.startswith('add'):
            return depth - number, base
        if name.startswith('and') and number < 0:
            return depth - number - WORD, base
    if operands == '%rsp,%rbp' and name.startswith('mov'):
        return depth, depth
    if base is not None and name == 'leave':
        return base - WORD, base
    if base is not None and (found := re.fullmatch(r'-(0x[0-9a-f]+)\(%rbp\),%rsp', operands)) and name.startswith('lea'):
        return base + int(found[1], 16), base
    if base is not None and operands == '%rbp,%rsp' and name.startswith('mov'):
        return base, base
    if re.search(r'(^|,)%rsp$', operands) and not name.startswith(('cmp', 'test')):
        raise Fault(f'cannot follow the stack at {instruction.at:x}: {name} {operands}')
    return depth, base


def nexts(body, places, i, depth, base):
    """Where it goes on after an instruction, with the depth and the base there; none for a table of jumps."""
    one = body[i]
    if one.name.startswith('ret') or one.name in ('ud2', 'hlt'):
        return
    if one.name.startswith('j'):
        if one.operands.startswith('*'):
            yield None, depth, base
        elif one.symbol is None and one.target() in places:
            yield places[one.target()], depth, base
        if one.name.startswith('jmp'):
            return
    if i + 1 == len(body):
        raise Fault(f'the code at {one.at:x} runs on behind its function: {one.name} {one.operands}')
    yield i + 1, *moved(one, depth, base)


def depths(body):
    """How deep the stack is in front of each instruction, below the return address, and where its base is.
    A table of jumps leads to all that nothing else leads to."""
    places = {instruction.at: i for i, instruction in enumerate(body)}
    found, waiting, tables = {}, [(0, 0, None)], []
    while waiting:
        i, depth, base = waiting.pop()
        if i is None:
            tables.append((depth, base))
        elif found.get(i, (-1, None))[0] < depth:
            found[i] = depth, base
            waiting += nexts(body, places, i, depth, base)
        if not waiting and tables and len(found) < len(body):
            left = min(set(range(len(body))) - set(found))
            waiting.append((left, *max(tables, key=lambda each: each[0])))
    return found


def touched(instruction, depth, base):
    """How deep an instruction reaches, below the stack's end as a function that calls none may do."""
    reaches = [depth]
    for number, register in re.findall(r'-(0x[0-9a-f]+)\((%rsp|%rbp)[,)]', instruction.operands):
        if register == '%rsp':
            reaches.append(depth + int(number, 16))
        elif base is not None:
            reaches.append(base + int(number, 16))
    return max(reaches)


# ---- The way of calls -------------------------------------------------------------------------------

def needs(archive, outside):
    """The bytes that each function can take, its return address among them; `outside` has those of the
    functions that the archive leaves to its user."""
    functions, known = code_of(archive), dict(outside)

    def need(name, way):
        if name in way:
            raise Fault(f'{name} calls itself')
        if name not in known:
            if name not in functions:
                raise Fault(f'no code of {name}, which {way[-1]} calls')
            known[name] = WORD + max(deepest(name, way))
        return known[name]

    def deepest(name, way):
        inside = {one.at for one in functions[name]}
        for i, (depth, base) in depths(functions[name]).items():
            one = functions[name][i]
            yield touched(one, depth, base)
            if is_call(one, inside):
                callee = one.symbol or called_inside(one, functions)
                if callee is None:
                    raise Fault(f'{name} calls what cannot be read, at {one.at:x}')
                yield depth + need(callee, [*way, name]) - (0 if one.name.startswith('call') else WORD)

    return {name: need(name, []) for name in functions}


def is_call(instruction, inside):
    """Whether an instruction calls, or jumps out of its function as its last call."""
    if not instruction.name.startswith('j') or instruction.operands.startswith('*'):
        return instruction.name.startswith('call')
    return instruction.symbol is not None or instruction.target() not in inside


def called_inside(instruction, functions):
    """The function that a call names without the linker's help."""
    found = re.fullmatch(r'[0-9a-f]+ <([^+>]+)>', instruction.operands)
    return found[1] if found and found[1] in functions else None
