"""The bytes of modules: numbers, vectors, sections, and the opcodes that the generators use. Used by the tools beside it."""

HEADER = b"\0asm\1\0\0\0"
I32, I64 = 0x7F, 0x7E
EMPTY = b"\x40"
UNREACHABLE, NOP, ELSE, END = b"\x00", b"\x01", b"\x05", b"\x0B"
BLOCK, LOOP, IF = b"\x02", b"\x03", b"\x04"
BR, BR_IF, BR_TABLE, RETURN, CALL, CALL_INDIRECT = b"\x0C", b"\x0D", b"\x0E", b"\x0F", b"\x10", b"\x11"
DROP, SELECT = b"\x1A", b"\x1B"


def uleb(number):
    """An unsigned number by LEB128."""
    out = bytearray()
    while True:
        low, number = number & 127, number >> 7
        out.append(low | (128 if number else 0))
        if not number:
            return bytes(out)


def sleb(number):
    """A signed number by LEB128."""
    out = bytearray()
    while True:
        low, number = number & 127, number >> 7
        is_last = (number == 0 and not low & 64) or (number == -1 and low & 64)
        out.append(low | (0 if is_last else 128))
        if is_last:
            return bytes(out)


def sized(content):
    return uleb(len(content)) + content


def vector(items):
    return uleb(len(items)) + b"".join(items)


def section(number, content):
    return bytes([number]) + sized(content)


def func_type(parameters, results):
    return b"\x60" + sized(bytes(parameters)) + sized(bytes(results))


def i32_const(number):
    return b"\x41" + sleb(number)


def i64_const(number):
    return b"\x42" + sleb(number)


def local_get(index):
    return b"\x20" + uleb(index)


def local_set(index):
    return b"\x21" + uleb(index)


def export(name, index):
    """The export section's entry of a function."""
    return sized(name.encode()) + b"\0" + uleb(index)


def module(sections):
    """A module of sections, given as pairs of a number and the content."""
    return HEADER + b"".join(section(number, content) for number, content in sections)
