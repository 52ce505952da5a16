"""Lowers a WebAssembly module whose memory has 64 bits to one of 32 bits, which all engines have.

Numbers stay as they are: addresses have 64 bits in the code, and are wrapped where the memory is used. What a module may
have is what the toolchain's compiler writes; it fails at anything else. Custom sections, such as names, are left out. An
engine checks the types of each instruction of what comes out.
"""

from support.command import Failed

HEAD = b"\0asm\1\0\0\0"
CUSTOM, TYPES, FUNCTIONS, TABLES, MEMORIES, CODE, DATA = 0, 1, 3, 4, 5, 10, 11
I32, I64, F32, F64 = 0x7F, 0x7E, 0x7D, 0x7C
GET, SET, CALL_INDIRECT = 0x20, 0x21, 0x11
I32_CONST, I64_CONST, END, WRAP, EXTEND = 0x41, 0x42, 0x0B, 0xA7, 0xAC
LOADS, STORES, SIZE, GROW = range(0x28, 0x36), range(0x36, 0x3F), 0x3F, 0x40
# The type of the value of each store.
STORED = dict(zip(STORES, (I32, I64, F32, F64, I32, I32, I64, I64, I64)))
# Instructions after 0xFC: conversions, and those of whole areas of memory.
MORE, CONVERSIONS, COPY, FILL = 0xFC, range(8), 10, 11

# What stands after each instruction: so many numbers, or one with a sign, or so many bytes. All others have nothing.
NUMBERS = {**dict.fromkeys((0x0C, 0x0D, 0x10, *range(0x20, 0x25), SIZE, GROW), 1), CALL_INDIRECT: 2}
NUMBERS.update(dict.fromkeys((*LOADS, *STORES), 2))
SIGNED = (0x02, 0x03, 0x04, I32_CONST, I64_CONST)
BYTES = {0x43: 4, 0x44: 8}
BARE = {0x00, 0x01, 0x05, END, 0x0F, 0x1A, 0x1B, *range(0x45, 0xC5)}
BRANCHES = 0x0E

# How many values each instruction takes that gives one.
LEAVES = (GET, 0x23, I32_CONST, I64_CONST, 0x43, 0x44)
UNARY = (0x22, 0x45, 0x50, *LOADS, *range(0x67, 0x6A), *range(0x79, 0x7C), *range(0x8B, 0x92), *range(0x99, 0xA0))
TAKES = {**dict.fromkeys(range(0x45, 0xA7), 2), **dict.fromkeys(range(WRAP, 0xC5), 1), 0x1B: 3}
TAKES.update({**dict.fromkeys(UNARY, 1), **dict.fromkeys(LEAVES, 0), **{(MORE, it): 1 for it in CONVERSIONS}})


def unknown(what):
    return Failed(f"the module is not as expected: {what}")


class Reader:
    def __init__(self, data, at=0):
        self.data, self.at = data, at

    def byte(self):
        self.at += 1
        return self.data[self.at - 1]

    def bytes(self, count):
        self.at += count
        return self.data[self.at - count : self.at]

    def number(self):
        """A number without a sign, which ends with its first byte below 128."""
        value, shift = 0, 0
        while True:
            byte = self.byte()
            value |= (byte & 127) << shift
            shift += 7
            if byte < 128:
                return value

    def signed(self):
        """A number with a sign, which is in the last of its bytes."""
        start = self.at
        value = self.number()
        return value - (1 << 7 * (self.at - start)) if self.data[self.at - 1] & 64 else value

    def ends(self):
        return self.at >= len(self.data)


def unsigned(value):
    out = bytearray()
    while value > 127:
        out.append(value & 127 | 128)
        value >>= 7
    return bytes([*out, value])


def signed(value):
    out = bytearray()
    while not -64 <= value < 64:
        out.append(value & 127 | 128)
        value >>= 7
    return bytes([*out, value & 127])


def vector(items):
    return unsigned(len(items)) + b"".join(items)


def sized(content):
    return unsigned(len(content)) + content


# Functions


def read_instruction(reader):
    """The code of an instruction, or that and the second one after 0xFC, and its bytes, with numbers as short as can be."""
    code = reader.byte()
    if code == MORE:
        second = reader.number()
        if second not in (*CONVERSIONS, COPY, FILL):
            raise unknown(f"instruction 0xFC {second}")
        return (MORE, second), bytes([MORE, second]) + reader.bytes({COPY: 2, FILL: 1}.get(second, 0))
    return code, bytes([code]) + operands(code, reader)


def operands(code, reader):
    if code in NUMBERS:
        numbers = [reader.number() for _ in range(NUMBERS[code])]
        if max(numbers) >= 2**32:
            raise unknown(f"the number {max(numbers)} after an instruction")
        return b"".join(map(unsigned, numbers))
    if code in SIGNED:
        return signed(reader.signed())
    if code in BYTES:
        return reader.bytes(BYTES[code])
    if code == BRANCHES:
        return vector([unsigned(reader.number()) for _ in range(reader.number())]) + unsigned(reader.number())
    if code not in BARE:
        raise unknown(f"instruction 0x{code:02X}")
    return b""


class Function:
    """The body of a function, whose addresses are wrapped. `parameters` is how many it has."""

    def __init__(self, body, parameters):
        self.reader, self.out, self.added = Reader(body), [], []
        locals_ = [(self.reader.number(), self.reader.byte()) for _ in range(self.reader.number())]
        self.locals, self.count = locals_, parameters + sum(count for count, _ in locals_)

    def lowered(self):
        while not self.reader.ends():
            self.take(*read_instruction(self.reader))
        groups = [*self.locals, *((1, it) for it in self.added)]
        return vector([unsigned(count) + bytes([kind]) for count, kind in groups]) + b"".join(it for _, it in self.out)

    def take(self, code, written):
        """Adds an instruction, with what its addresses need before it."""
        if code in LOADS or code == GROW:
            self.add(WRAP)
        elif code in STORES:
            self.wrap_below(STORED[code])
        elif code == (MORE, COPY):
            self.wrap_all([I64, I64])
        elif code == (MORE, FILL):
            self.wrap_all([I32, I64])
        self.out.append((code, written))
        if code in (SIZE, GROW):
            self.add(EXTEND)

    def add(self, code, local=None):
        self.out.append((code, bytes([code]) + (b"" if local is None else unsigned(local))))

    def wrap_below(self, kind):
        """Wraps the value below the last one, which is of this type: before the last one is made, where that is seen."""
        at = self.start_of_last()
        if at is None:
            self.wrap_all([kind], wrapping=())
        else:
            self.out.insert(at, (WRAP, bytes([WRAP])))

    def start_of_last(self):
        """The place of the first of the instructions that make the last value, or None."""
        wanted, at = 1, len(self.out)
        while wanted and at:
            at -= 1
            taken = TAKES.get(self.out[at][0])
            if taken is None:
                return None
            wanted += taken - 1
        return None if wanted else at

    def wrap_all(self, kinds, wrapping=(I64,)):
        """Wraps the value below the last ones, which are of these types, and those of them whose type is in `wrapping`."""
        places = [self.local(it, kinds[:at].count(it)) for at, it in enumerate(kinds)]
        for place in reversed(places):
            self.add(SET, place)
        self.add(WRAP)
        for kind, place in zip(kinds, places):
            self.add(GET, place)
            if kind in wrapping:
                self.add(WRAP)

    def local(self, kind, number):
        """A local of this type that is added: the first of them, or the second."""
        there = [at for at, it in enumerate(self.added) if it == kind]
        if number >= len(there):
            self.added.append(kind)
            there.append(len(self.added) - 1)
        return self.count + there[number]


# Sections


def items_of(section, read):
    reader = Reader(section)
    return [read(reader) for _ in range(reader.number())]


def read_type(reader):
    """How many parameters a type of functions has."""
    if reader.byte() != 0x60:
        raise unknown("a type of something else than functions")
    parameters = reader.number()
    reader.bytes(parameters)
    reader.bytes(reader.number())
    return parameters


def read_memory(reader):
    """The limits of a memory of 64 bits, as those of one of 32 bits."""
    flags = reader.byte()
    if flags not in (4, 5):
        raise unknown(f"a memory with the flags {flags}")
    return bytes([flags & 1]) + b"".join(unsigned(min(reader.number(), 65536)) for _ in range(1 + (flags & 1)))


def read_table(reader):
    kind, flags = reader.byte(), reader.byte()
    if flags not in (0, 1):
        raise unknown(f"a table with the flags {flags}")
    return bytes([kind, flags]) + b"".join(unsigned(reader.number()) for _ in range(1 + flags))


def read_data(reader):
    """Data that is put at a constant address when the module begins."""
    kind, code = reader.number(), reader.byte()
    if (kind, code) != (0, I64_CONST):
        raise unknown(f"data of the kind {kind}")
    address = reader.signed()
    if not 0 <= address < 2**31 or reader.byte() != END:
        raise unknown(f"data at {address}")
    return bytes([kind, I32_CONST]) + signed(address) + bytes([END]) + sized(reader.bytes(reader.number()))


def lowered(module):
    if not module.startswith(HEAD):
        raise unknown("a file that is no module")
    reader, sections = Reader(module, len(HEAD)), []
    while not reader.ends():
        sections.append((reader.byte(), reader.bytes(reader.number())))
    found = dict(sections)
    parameters = items_of(found[TYPES], read_type)
    of_functions = iter([parameters[it] for it in items_of(found[FUNCTIONS], Reader.number)])
    readers = {TABLES: read_table, MEMORIES: read_memory, DATA: read_data}
    readers[CODE] = lambda it: sized(Function(it.bytes(it.number()), next(of_functions)).lowered())
    made = [(kind, vector(items_of(it, readers[kind])) if kind in readers else it) for kind, it in sections if kind != CUSTOM]
    return HEAD + b"".join(bytes([kind]) + sized(it) for kind, it in made)
