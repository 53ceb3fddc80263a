"""gcc's code for a C function, and the least number of cycles in which its instructions fit on the table ev6.

The table is that of crates/machine_table: slots U0 and L0 in cluster 0, U1 and L1 in cluster 1, and a value is seen one
cycle later in the other cluster. What the table lacks is added here: `ldq` and `stq` as `ldq_u` and `stq_u`, and a
conditional move as two instructions of a cycle each, as the 21264 executes it (its Compiler Writer's Guide)."""
import re
import subprocess
from collections import namedtuple

COMPILER = "alpha-linux-gnu-gcc"
U0, U1, L0, L1 = range(4)
CLUSTER = {U0: 0, U1: 1, L0: 0, L1: 1}
ANY, UPPER, LOWER = (U0, U1, L0, L1), (U0, U1), (L0, L1)
PLAIN = """addl s4addl s8addl subl s4subl s8subl addq s4addq s8addq subq s4subq s8subq cmpbge cmpult cmpeq cmpule cmplt cmple and
bic bis ornot xor eqv lda ldah"""
BYTES = """mskbl extbl insbl mskwl extwl inswl mskll extll insll zap zapnot mskql extql insql srl sll sra mskwh inswh extwh msklh
inslh extlh mskqh insqh extqh sextb sextw"""
TABLE = {name: (1, ANY) for name in PLAIN.split()}
TABLE |= {name: (1, UPPER) for name in BYTES.split()}
TABLE |= {name: (7, (U1,)) for name in "mull mulq umulh".split()}
TABLE |= {name: (3, LOWER) for name in "ldq_u ldq ldl ldwu ldbu".split()}
TABLE |= {name: (1, LOWER) for name in "stq_u stq stl stw stb".split()}
MOVES = "cmoveq cmovne cmovlt cmovge cmovle cmovgt cmovlbs cmovlbc".split()
BRANCHES = "br bsr jsr jmp beq bne blt ble bgt bge blbc blbs".split()

# An instruction: its latency, its slots, those whose values it reads, and the least distance in cycles to those that touch
# memory before it.
Op = namedtuple("Op", "latency slots reads after")


def compiled(c, name):
    """gcc's lines for the function, labels among them, without directives, its return, and what does nothing."""
    words = [COMPILER, "-O2", "-mcpu=ev6", "-S", "-xc", "-", "-o", "-"]
    text = subprocess.run(words, input=c, text=True, stdout=subprocess.PIPE, check=True).stdout
    inside = text.split(f"\n{name}:\n")[1].split(f"\t.end {name}\n")[0]
    lines = [" ".join(line.split("!")[0].split()) for line in inside.splitlines()]
    return [line for line in lines if line and not line.startswith(".") and not is_idle(line)]


def is_idle(line):
    """A return, padding, and what sets up the pointers to the stack and to constants."""
    return re.match(r"ret|nop|unop|lnop|fnop|(lda|ldah) \$(29|30),|bis \$31,\$31,\$31", line) is not None


def instructions(lines):
    return [line for line in lines if not line.endswith(":")]


def is_move(line):
    """A copy of a register, or of 0: no value is made."""
    return re.match(r"(mov|bis \$31,) ?\$\d+,\$\d+$|mov 0,|clr |bis \$31,\$31,", line) is not None


def turn_of(lines):
    """The instructions of the loop: from the label of the last branch that goes back, to that branch."""
    places = {line[:-1]: place for place, line in enumerate(lines) if line.endswith(":")}
    for place in reversed(range(len(lines))):
        parts = re.split("[ ,]", lines[place])
        if parts[0] in BRANCHES and places.get(parts[-1], place) < place:
            return instructions(lines[places[parts[-1]]:place + 1])
    return None


def operations(lines):
    """The instructions with what they read, registers renamed; None where there is a branch."""
    ops, value, touched = [], {}, []
    for line in instructions(lines):
        name, _, operands = line.partition(" ")
        if name in BRANCHES:
            return None
        parts = re.findall(r"\$\d+|-?\w+", operands)
        regs = [value.get(part) for part in parts]
        if is_move(line):
            value[parts[-1]] = regs[0] if len(parts) == 2 and parts[0].startswith("$") else None
        elif name in MOVES:
            ops.append(Op(1, ANY, [regs[0], regs[2]], []))
            ops.append(Op(1, ANY, [len(ops) - 1, regs[1]], []))
            value[parts[2]] = len(ops) - 1
        else:
            add_operation(ops, value, touched, expanded(name), parts, regs)
    return [op._replace(reads=[read for read in op.reads if read is not None]) for op in ops]


def expanded(name):
    return {"mov": "lda", "not": "ornot", "negq": "subq", "negl": "subl"}.get(name, name)


def add_operation(ops, value, touched, name, parts, regs):
    """One operation, load or store, and its place behind what touched memory before it."""
    latency, slots = TABLE[name]
    after = []
    if slots == LOWER:
        stores = name.startswith("st")
        after = [(op, 1 if stored else 0) for op, stored in touched if stored or stores]
        touched.append((len(ops), stores))
    writes_first = name in ("lda", "ldah") and len(parts) == 3 or slots == LOWER and not name.startswith("st")
    stored = slots == LOWER and name.startswith("st")
    made = None if stored else parts[0] if writes_first else parts[-1]
    reads = regs if stored else regs[1:] if writes_first else regs[:-1]
    ops.append(Op(latency, slots, reads, after))
    if made:
        value[made] = len(ops) - 1


def least_cycles(ops):
    """The least number of cycles in which each operation can be launched once, by the rules of schedule_meaning."""
    if not ops:
        return 0
    cycles = 1
    while not fits(ops, cycles):
        cycles += 1
    return cycles


def fits(ops, cycles):
    """Whether so many cycles suffice: all places of the operations are tried, the most urgent ones first."""
    latest = [cycles - op.latency for op in ops]
    for number in reversed(range(len(ops))):
        for read in ops[number].reads:
            latest[read] = min(latest[read], latest[number] - ops[read].latency)
        for before, distance in ops[number].after:
            latest[before] = min(latest[before], latest[number] - distance)
    order = sorted(range(len(ops)), key=lambda number: (latest[number], number))
    return placed(ops, order, latest, {}, set())


def placed(ops, order, latest, at, taken):
    """Whether the operations of the list can be placed beside those that are placed already."""
    if not order:
        return True
    number = order[0]
    op = ops[number]
    first = max([at[before][0] + distance for before, distance in op.after], default=0)
    for cycle in range(first, latest[number] + 1):
        for slot in op.slots:
            if (cycle, slot) in taken or any(ready(ops, at, read, slot) > cycle for read in op.reads):
                continue
            at[number] = (cycle, slot)
            if placed(ops, order[1:], latest, at, taken | {(cycle, slot)}):
                return True
            del at[number]
    return False


def ready(ops, at, read, slot):
    """From which cycle on the slot's cluster sees what the operation makes."""
    cycle, place = at[read]
    return cycle + ops[read].latency + (CLUSTER[place] != CLUSTER[slot])
