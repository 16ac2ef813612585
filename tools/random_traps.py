"""Random modules whose runs trap in many places, each guarded by the value of the first argument. Used by compare_v8."""
import random

from wasm_bytes import (BLOCK, BR_IF, BR_TABLE, CALL, CALL_INDIRECT, DROP, ELSE, EMPTY, END, I32, IF, LOOP, NOP, UNREACHABLE,
                        export, func_type, i32_const, i64_const, local_get, local_set, module, sized, uleb, vector)

EQ, EQZ = b"\x46", b"\x45"
LOADS = [0x28, 0x29, 0x2C, 0x2D, 0x2E, 0x2F, 0x30, 0x31, 0x32, 0x33, 0x34, 0x35]
STORES_OF_I32, STORES_OF_I64 = [0x36, 0x3A, 0x3B], [0x37, 0x3C, 0x3D, 0x3E]
DIVISIONS_OF_I32, DIVISIONS_OF_I64 = [0x6D, 0x6E, 0x6F, 0x70], [0x7F, 0x80, 0x81, 0x82]
PAST_TABLE = [9, 10, -1]


class Bodies:
    """Writes the bodies of one module; `guards` is how many values of the first argument lead to a trap's guard."""

    def __init__(self, seed):
        self.random = random.Random(seed)
        self.functions = self.random.randrange(1, 4)
        self.guards = 0

    def padding(self):
        """Code without effect, so that offsets differ."""
        number = self.random.randrange(-(2**31), 2**31)
        return self.random.choice([b"", NOP, NOP + NOP, i32_const(number) + DROP, local_get(0) + local_set(1)])

    def division(self):
        below = self.random.randrange(1, 99)
        return self.random.choice([
            i32_const(below) + i32_const(0) + bytes([self.random.choice(DIVISIONS_OF_I32)]),
            i32_const(-(2**31)) + i32_const(-1) + b"\x6D",
            i64_const(below) + i64_const(0) + bytes([self.random.choice(DIVISIONS_OF_I64)]),
            i64_const(-(2**63)) + i64_const(-1) + b"\x7F",
        ]) + DROP

    def access(self):
        """A load or a store behind the memory's one page."""
        if self.random.random() < 0.5:
            address = i32_const(self.random.choice([65536, -1, 65534]))
            return address + bytes([self.random.choice(LOADS)]) + b"\0" + uleb(self.random.choice([3, 65535, 0xFFFFFFFF])) + DROP
        address, offset = i32_const(self.random.choice([65536, -1])), b"\0" + uleb(self.random.choice([0, 7, 70000]))
        if self.random.random() < 0.5:
            return address + i32_const(5) + bytes([self.random.choice(STORES_OF_I32)]) + offset
        return address + i64_const(5) + bytes([self.random.choice(STORES_OF_I64)]) + offset

    def indirect(self):
        """A call of no row, of an empty row, or of a row with a function of another type."""
        kind = self.random.randrange(3)
        if kind == 2:
            return i32_const(0) + CALL_INDIRECT + b"\1\0"
        row = self.random.choice(PAST_TABLE) if kind == 0 else 5
        return i32_const(1) + i32_const(2) + i32_const(row) + CALL_INDIRECT + b"\0\0" + DROP

    def trap(self, function):
        kind = self.random.randrange(12)
        if kind < 4:
            return self.division()
        if kind < 6:
            return self.access()
        if kind < 9:
            return self.indirect()
        if kind == 9 and function + 1 < self.functions:
            return local_get(0) + i32_const(0) + CALL + uleb(function + 1) + DROP + UNREACHABLE
        return UNREACHABLE

    def guarded(self, function):
        """A trap that runs where the first argument is the number of its guard."""
        meets, trap = local_get(0) + i32_const(self.guards) + EQ, self.trap(function)
        self.guards += 1
        kind = self.random.randrange(4)
        if kind == 0:
            return meets + IF + EMPTY + self.padding() + trap + self.padding() + END
        if kind == 1:
            return meets + EQZ + IF + EMPTY + self.padding() + ELSE + self.padding() + trap + END
        if kind == 2:
            return BLOCK + EMPTY + meets + EQZ + BR_IF + b"\0" + self.padding() + trap + END
        return meets + IF + bytes([I32]) + trap + i32_const(3) + ELSE + i32_const(4) + END + DROP

    def statement(self, function, depth):
        kind = self.random.randrange(11)
        if depth <= 0 or kind < 3 or (kind == 9 and function + 1 >= self.functions):
            return self.guarded(function)
        inner = lambda: self.sequence(function, depth - 1)
        if kind in (3, 4):
            return (BLOCK, LOOP)[kind - 3] + EMPTY + inner() + END
        if kind in (5, 6):
            return (local_get(1), i32_const(0))[kind - 5] + IF + EMPTY + inner() + ELSE + inner() + END
        if kind == 7:
            return i32_const(1) + i32_const(2) + BLOCK + b"\0" + inner() + b"\x6A" + END + DROP
        if kind == 8:
            table = self.padding() + local_get(1) + BR_TABLE + b"\2\0\1\2" + END
            return (BLOCK + EMPTY) * 3 + table + inner() + END + inner() + END
        if kind == 9:
            return local_get(0) + local_get(1) + CALL + uleb(function + 1) + DROP
        return LOOP + bytes([I32]) + inner() + i32_const(9) + END + DROP

    def sequence(self, function, depth):
        count = self.random.randrange(1, 4)
        return b"".join(self.padding() + self.statement(function, depth) for _ in range(count))


def make(seed):
    """A module, and the values of the first argument to call its `f` with; the second is 0 or 1."""
    bodies = Bodies(seed)
    written = [sized(b"\0" + bodies.sequence(it, 3) + local_get(1) + END) for it in range(bodies.functions)]
    name = (0, b"\3abc" + bytes(bodies.random.randrange(0, 200)))
    sections = [name] if bodies.random.random() < 0.5 else []
    sections += [
        (1, vector([func_type([I32, I32], [I32]), func_type([], [])])),
        (3, vector([b"\0"] * bodies.functions + [b"\1"])),
        (4, b"\1\x70\0\x09"),
        (5, b"\1\1\1\1"),
        (7, vector([export("f", 0)])),
        (9, b"\1\0" + i32_const(0) + END + vector([b"\0"])),
        (10, vector([*written, sized(b"\0" + END)])),
    ]
    return module(sections), range(bodies.guards + 1)
