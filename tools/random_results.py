"""Random modules of functions with several results, blocks with parameters, and branches that carry several values. Used by compare_v8.

Functions call those before them alone, and each loop counts one number down, so every run ends.
"""
import random

from wasm_bytes import (BLOCK, BR, BR_IF, BR_TABLE, CALL, CALL_INDIRECT, DROP, ELSE, EMPTY, END, I32, I64, IF, LOOP, RETURN, SELECT, UNREACHABLE,
                        export, func_type, i32_const, i64_const, local_get, local_set, module, sized, sleb, uleb, vector)

EQZ, ADD, SUB, AND = b"\x45", b"\x6A", b"\x6B", b"\x71"
EDGES = [0, 1, -1, 2, 127, 128, 255, 256, -128, 32767, -32768, 65535, 2**31 - 1, -(2**31)]
LONG_EDGES = [2**63 - 1, -(2**63), 2**32, -(2**32)]
UNARY = {I32: [0xC0, 0xC1, 0x67, 0x68, 0x69, 0x45], I64: [0xC2, 0xC3, 0xC4, 0x79, 0x7A, 0x7B]}
# (without division, so that most runs give values)
BINARY = {I32: [0x6A, 0x6B, 0x6C, *range(0x71, 0x79)], I64: [0x7C, 0x7D, 0x7E, *range(0x83, 0x8B)]}
COMPARE = {I32: range(0x46, 0x50), I64: range(0x51, 0x5B)}


class Types:
    """The types of a module, each once."""

    def __init__(self):
        self.listed = []

    def index(self, parameters, results):
        it = (tuple(parameters), tuple(results))
        if it not in self.listed:
            self.listed.append(it)
        return self.listed.index(it)


class Body:
    """Writes the body of one function; `earlier` are the types of those that it may call."""

    def __init__(self, random_from, types, earlier, parameters, results):
        self.random, self.types, self.earlier = random_from, types, earlier
        self.results = list(results)
        self.declared = [I32, I64, I32, I64, I32]
        self.locals = [*parameters, *self.declared]
        self.fuel = len(self.locals) - 1
        self.labels, self.left = [self.results], random_from.choice([30, 60, 120])

    def some_types(self, most):
        return [self.random.choice([I32, I64]) for _ in range(self.random.randrange(most + 1))]

    def locals_of(self, value_type):
        return [at for at, it in enumerate(self.locals) if it == value_type and at != self.fuel]

    def value(self, value_type):
        if self.random.randrange(3) == 0:
            return local_get(self.random.choice(self.locals_of(value_type)))
        number = self.random.choice([*EDGES, self.random.randrange(-(2**31), 2**31)])
        if value_type == I32:
            return i32_const(number)
        if self.random.random() < 0.4:
            number = self.random.choice([*LONG_EDGES, self.random.randrange(-(2**63), 2**63)])
        return i64_const(number)

    def values(self, types):
        return b"".join(map(self.value, types))

    def condition(self):
        compared = local_get(0) + i32_const(self.random.randrange(-1, 4)) + bytes([self.random.choice([0x46, 0x47, 0x48, 0x4A])])
        return self.random.choice([compared, local_get(0) + i32_const(1) + AND, i32_const(self.random.randrange(2)), local_get(1) + EQZ])

    def block_type(self, parameters, results):
        if not parameters and self.random.random() < 0.7:
            if not results:
                return EMPTY
            if len(results) == 1:
                return bytes(results)
        return sleb(self.types.index(parameters, results))

    def reaching(self, stack, wanted):
        """Code behind which the wanted types lie on the stack, and what lies below them: values that fit may stay."""
        kept = self.random.randrange(len(wanted) + 1)
        while kept and stack[-kept:] != wanted[:kept]:
            kept -= 1
        if kept and self.random.random() < 0.6:
            return self.values(wanted[kept:]), stack[:-kept]
        return self.values(wanted), stack

    def numeric(self, stack):
        """One numeric or parametric instruction for the topmost operands, where there is one."""
        top, pair = stack[-1], len(stack) > 1 and stack[-1] == stack[-2]
        kind = self.random.randrange(6)
        if kind == 0 and pair:
            if self.random.random() < 0.3:
                return bytes([self.random.choice(COMPARE[top])]), [*stack[:-2], I32]
            return bytes([self.random.choice(BINARY[top])]), stack[:-1]
        if kind == 1:
            return bytes([self.random.choice(UNARY[top])]), stack
        if kind == 2 and top == I32:
            return bytes([self.random.choice([0xAC, 0xAD])]), [*stack[:-1], I64]
        if kind == 2:
            return bytes([self.random.choice([0xA7, 0x50])]), [*stack[:-1], I32]
        if kind == 3:
            return local_set(self.random.choice(self.locals_of(top))), stack[:-1]
        if kind == 4 and pair:
            return self.condition() + SELECT, stack[:-1]
        return DROP, stack[:-1]

    def nested(self, stack, depth):
        """A block, a loop or an `if` that takes some operands and gives up to four values."""
        count = self.random.randrange(min(4, len(stack)) + 1)
        taken, results = stack[len(stack) - count :], self.some_types(4)
        kind = self.random.choice([BLOCK, LOOP, IF])
        code = (self.condition() if kind == IF else b"") + kind + self.block_type(taken, results)
        self.labels.append(taken if kind == LOOP else results)
        if kind == LOOP:
            stop = local_get(self.fuel) + EQZ + IF + EMPTY + UNREACHABLE + END
            code += stop + local_get(self.fuel) + i32_const(1) + SUB + local_set(self.fuel)
        code += self.sequence(taken, results, depth + 1)
        if kind == IF and (taken != results or self.random.random() < 0.8):
            code += ELSE + self.sequence(taken, results, depth + 1)
        self.labels.pop()
        return code + END, stack[: len(stack) - count] + results

    def conditional_branch(self, stack):
        label = self.random.randrange(len(self.labels))
        wanted = list(self.labels[-1 - label])
        code, rest = self.reaching(stack, wanted)
        return code + self.condition() + BR_IF + uleb(label), rest + wanted

    def call(self, stack):
        function = self.random.randrange(len(self.earlier))
        parameters, results = self.earlier[function]
        code, rest = self.reaching(stack, list(parameters))
        if self.random.random() < 0.5:
            code += CALL + uleb(function)
        else:
            code += i32_const(function) + CALL_INDIRECT + uleb(self.types.index(parameters, results)) + b"\0"
        return code, rest + list(results)

    def leaving(self, stack):
        """A branch, a table of branches or a return."""
        kind, label = self.random.randrange(3), self.random.randrange(len(self.labels))
        wanted = list(self.labels[-1 - label])
        if kind == 0:
            return self.reaching(stack, wanted)[0] + BR + uleb(label)
        if kind == 1:
            return self.reaching(stack, self.results)[0] + RETURN
        same = [it for it in range(len(self.labels)) if self.labels[-1 - it] == wanted]
        others = self.random.randrange(5)
        labels = b"".join(uleb(self.random.choice(same)) for _ in range(others + 1))
        return self.reaching(stack, wanted)[0] + local_get(0) + BR_TABLE + uleb(others) + labels

    def unreachable_code(self, results):
        """What stands behind such an instruction, up to the end of its block."""
        kind = self.random.randrange(4)
        if kind == 3 and results and self.random.random() < 0.5:
            return self.values(results[1:])
        code = (b"", ADD + DROP, SELECT + DROP, b"")[kind]
        return code if self.random.random() < 0.5 else code + self.values(results)

    def sequence(self, taken, results, depth):
        """Code from these operands to exactly these results."""
        stack, code = list(taken), b""
        for _ in range(self.random.randrange(1, 7)):
            if self.left <= 0:
                break
            self.left -= 1
            kind = self.random.randrange(16)
            if kind < 2:
                new = self.random.choice([I32, I64])
                more, stack = self.value(new), [*stack, new]
            elif kind < 8 and stack:
                more, stack = self.numeric(stack)
            elif 8 <= kind < 11 and depth < 5:
                more, stack = self.nested(stack, depth)
            elif 11 <= kind < 13:
                more, stack = self.conditional_branch(stack)
            elif kind == 13 and self.earlier:
                more, stack = self.call(stack)
            elif kind == 14 and self.random.random() < 0.5:
                return code + self.leaving(stack) + self.unreachable_code(list(results))
            else:
                more = b""
            code += more
        return code + self.to_results(stack, list(results))

    def to_results(self, stack, results):
        kept = len(results)
        while kept and stack[-kept:] != results[:kept]:
            kept -= 1
        if len(stack) != kept:
            return DROP * len(stack) + self.values(results)
        return self.values(results[kept:])

    def whole(self):
        groups = vector([b"\1" + bytes([it]) for it in self.declared])
        fuel = i32_const(self.random.choice([3, 6])) + local_set(self.fuel)
        return groups + fuel + self.sequence([], self.results, 0) + END


def make(seed):
    """A module, and the values of the first argument to call its `f` with; the second is 0 or 1."""
    random_from, types = random.Random(seed), Types()
    count, functions, bodies = random_from.randrange(1, 5), [], []
    for at in range(count):
        more = 0 if at == count - 1 else random_from.randrange(3)
        parameters = [I32, I32, *[random_from.choice([I32, I64]) for _ in range(more)]]
        results = [random_from.choice([I32, I64]) for _ in range(random_from.randrange(6))]
        types.index(parameters, results)
        bodies.append(Body(random_from, types, list(functions), parameters, results).whole())
        functions.append((parameters, results))
    sections = [
        (1, vector([func_type(*it) for it in types.listed])),
        (3, vector([uleb(types.index(*it)) for it in functions])),
        (4, b"\1\x70\0" + uleb(count)),
        (7, vector([export("f", count - 1)])),
        (9, b"\1\0" + i32_const(0) + END + vector([uleb(it) for it in range(count)])),
        (10, vector([sized(it) for it in bodies])),
    ]
    return module(sections), [-1, 0, 1, 2, 3]
