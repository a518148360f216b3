#!/usr/bin/env python3
"""Writes `stdin`, the descriptions of the section files, and `stdout`, the refusal that document 01 gives each.

Run it in this folder after a change. A vector is a name, the refusal by hand, and a file."""
import struct

u16 = lambda v: struct.pack("<H", v)
NONE = 65535


def name(text):
    return bytes([len(text)]) + text


class Section:
    """A small section with one entry in each list; every part can be replaced."""

    def __init__(self, **parts):
        self.rule_set = 0
        self.names = [b"n%d" % i for i in range(16)]
        self.spaces = [u16(0) + b"\0" + u16(8)]
        self.registers = [u16(1) + u16(4), u16(2) + u16(4)]
        self.bit_ranges = [u16(3) + u16(1) + u16(0) + u16(8)]
        self.tables = [u16(4) + u16(NONE)]
        self.user_ops = [u16(5)]
        self.macros = [u16(6) + b"\x01" + u16(7) + u16(1) + b"\x00"]
        self.others = [u16(8)]
        self.fields = [u16(9) + u16(NONE)]
        self.subtables = [u16(10) + u16(0)]
        self.statements = [b"\x00"]
        self.default_space = 0
        self.roles = [11, 12, 13, 14]
        self.counts = {}
        self.tail = b""
        self.__dict__.update(parts)

    LISTS = ["names", "spaces", "registers", "bit_ranges", "tables", "user_ops", "macros", "others", "fields", "subtables", "statements"]

    def stream(self):
        out = u16(self.rule_set)
        for key in self.LISTS:
            out += u16(self.counts.get(key, len(getattr(self, key))))
        out += u16(self.default_space) + b"".join(u16(r) for r in self.roles)
        out += b"".join(name(n) for n in self.names)
        for key in self.LISTS[1:]:
            out += b"".join(getattr(self, key))
        return out + self.tail


vectors = []


def runs_of(stream):
    """The stretches of a stream that are not zero, gaps of a few zeros included, each of 255 bytes at most."""
    found = []
    for p, b in enumerate(stream):
        if b == 0:
            continue
        if found and p - found[-1][1] < 6 and p - found[-1][0] < 255:
            found[-1][1] = p + 1
        else:
            found.append([p, p + 1])
    return [(p, stream[p:end]) for p, end in found]


def file(label, refusal, stream, length=None, checks=1, last=0):
    length = length if length is not None else max(1, -(-len(stream) // 510)) * 512
    runs = runs_of(stream)
    body = b"".join(struct.pack("<IB", p, len(b)) + b for p, b in runs)
    text = label.encode()
    vectors.append((label, refusal, bytes([len(text)]) + text + struct.pack("<IH", length, len(runs)) + body + bytes([checks, last])))


def section(label, refusal, **parts):
    file(label, refusal, Section(**parts).stream())


def statement(label, refusal, code):
    section(label, refusal, statements=[code])


def expression(label, refusal, code):
    statement(label, refusal, b"\x01" + code)


X = b"\0" + u16(1)  # the expression that is name 1


def nested(depth):
    return b"\x03" * (depth - 1) + X + u16(4) * (depth - 1)


# the file
file("empty", 1, b"", length=0)
file("511 bytes", 1, b"", length=511)
file("513 bytes", 1, b"", length=513)
file("65,537 bytes", 1, b"", length=65537)
file("check off by one", 2, Section().stream(), last=1)
file("check off by one in the last block", 2, Section().stream(), length=1024, last=1)
file("no checks", 2, Section().stream(), checks=0)
file("second block's check without its number", 2, Section().stream(), length=1024, checks=0)
file("all zero", 5, b"")
file("all ones", 2, b"\xff" * 510, checks=0, last=255)
file("ones with a right check", 4, b"\xff" * 510)
file("65,536 bytes", 0, Section().stream(), length=65536)
section("small", 0)
file("a zero block after it", 0, Section().stream(), length=1024)
section("a byte after the end", 3, tail=b"\x01")
file("a byte after the end in the next block", 3, Section().stream().ljust(600, b"\0") + b"\x01")

# the header
section("rule set 1", 4, rule_set=1)
for key, limit in [("names", 1024), ("spaces", 8), ("registers", 1024), ("bit_ranges", 1024), ("tables", 256), ("user_ops", 256), ("macros", 128), ("others", 1024), ("fields", 64), ("subtables", 32), ("statements", 1024)]:
    section(f"count of {key} at its limit and one more", 4, counts={key: limit + 1})
    section(f"count of {key} 65,535", 4, counts={key: 65535})
section("no default space", 0, default_space=NONE)
section("default space names nothing", 5, default_space=1)
section("no names", 5, counts={"names": 0})
for i, role in enumerate(["inst_start", "inst_next", "const", "delay slot"]):
    section(f"{role} names nothing", 5, roles=[16 if j == i else 11 + j for j in range(4)])
section("the four names are one", 0, roles=[15, 15, 15, 15])
section("a role is absent", 5, roles=[NONE, 12, 13, 14])

# the names
many = [bytes([48 + i // 32, 48 + i % 32]) for i in range(1024)]
section("a spelling twice", 6, names=[b"n%d" % i for i in range(15)] + [b"n0"])
section("the same letters, one more", 0, names=[b"n%d" % i for i in range(15)] + [b"n0n"])
section("name of 24", 0, names=[b"a" * 24] + [b"n%d" % i for i in range(1, 16)])
section("name of 25", 4, names=[b"a" * 25] + [b"n%d" % i for i in range(1, 16)])
section("name of 0", 4, names=[b""] + [b"n%d" % i for i in range(1, 16)])
section("a last letter apart", 0, names=[b"abcdefgh", b"abcdefgi"] + [b"n%d" % i for i in range(2, 16)])
section("a last name twice in 1,024", 6, names=many[:-1] + [many[0]])

# the lists
section("space kind 2", 0, spaces=[u16(0) + b"\x02" + u16(8)])
section("space kind 3", 3, spaces=[u16(0) + b"\x03" + u16(8)])
section("space of 1,024", 0, spaces=[u16(0) + b"\0" + u16(1024)])
section("space of 1,025", 4, spaces=[u16(0) + b"\0" + u16(1025)])
section("eight spaces", 0, names=[b"m%d" % i for i in range(28)], spaces=[u16(20 + i) + b"\0" + u16(8) for i in range(8)])
section("register of 1,025", 4, registers=[u16(1) + u16(1025), u16(2) + u16(4)])
section("register without a size", 4, registers=[u16(1) + u16(NONE), u16(2) + u16(4)])
section("register without a name", 5, registers=[u16(NONE) + u16(4), u16(2) + u16(4)])
section("register named as a space", 6, registers=[u16(0) + u16(4), u16(2) + u16(4)])
section("register named as a space, with a bad size", 6, registers=[u16(0) + u16(1025), u16(2) + u16(4)])
section("two registers of one name", 6, registers=[u16(1) + u16(4), u16(1) + u16(4)])
section("bits of register 2 of two", 5, bit_ranges=[u16(3) + u16(2) + u16(0) + u16(8)])
section("first bit 8,192", 0, bit_ranges=[u16(3) + u16(1) + u16(8192) + u16(8192)])
section("first bit 8,193", 4, bit_ranges=[u16(3) + u16(1) + u16(8193) + u16(8)])
section("bit count 8,193", 4, bit_ranges=[u16(3) + u16(1) + u16(0) + u16(8193)])
section("table of size 0", 0, tables=[u16(4) + u16(0)])
section("table of 1,025", 4, tables=[u16(4) + u16(1025)])
section("user op named as a table", 6, user_ops=[u16(4)])
section("user op names nothing", 5, user_ops=[u16(16)])
section("macro named as a user op", 6, macros=[u16(5) + b"\0" + u16(0)])
section("8 parameters", 0, macros=[u16(6) + b"\x08" + u16(7) * 8 + u16(0)])
section("9 parameters", 4, macros=[u16(6) + b"\x09" + u16(7) * 9 + u16(0)])
section("a parameter names nothing", 5, macros=[u16(6) + b"\x01" + u16(16) + u16(0)])
section("1,024 statements in a macro", 0, macros=[u16(6) + b"\0" + u16(1024) + b"\0" * 1024])
section("1,025 statements in a macro", 4, macros=[u16(6) + b"\0" + u16(1025) + b"\0" * 1025])
section("a bad statement in a macro", 3, macros=[u16(6) + b"\0" + u16(1) + b"\x0b"])
section("other symbol named as a macro", 6, others=[u16(6)])
section("field named as a global", 0, fields=[u16(0) + u16(NONE)])
section("field of 1,025", 4, fields=[u16(9) + u16(1025)])
section("subtable named as a field", 6, subtables=[u16(9) + u16(0)])
section("subtable of table 1 of one", 5, subtables=[u16(10) + u16(1)])

# every count at its limit: the long lists one by one, the others together
def at_limit(key, entries, **parts):
    section(f"count of {key} at its limit", 0, names=many, **{key: entries}, **parts)


none = dict(spaces=[], registers=[], bit_ranges=[], tables=[], user_ops=[], macros=[], others=[], subtables=[], default_space=NONE)
at_limit("registers", [u16(i) + u16(4) for i in range(1024)], **{k: v for k, v in none.items() if k != "registers"})
section("1,024 bit ranges, the second named as the first", 6, bit_ranges=[u16(3) + u16(0) + u16(0) + u16(8)] * 2, counts={"bit_ranges": 1024})
at_limit("others", [u16(i) for i in range(1024)], **{k: v for k, v in none.items() if k != "others"})
section("count of statements at its limit", 0, statements=[b"\0"] * 1024)
section("the other counts at their limits", 0, names=many, registers=[], bit_ranges=[], others=[],
        spaces=[u16(i) + b"\0" + u16(8) for i in range(8)], tables=[u16(8 + i) + u16(8) for i in range(256)],
        user_ops=[u16(264 + i) for i in range(256)], macros=[u16(520 + i) + b"\0" + u16(0) for i in range(128)],
        fields=[u16(i) + u16(4) for i in range(64)], subtables=[u16(64 + i) + u16(i) for i in range(32)])

# statements and expressions
statement("statement code 11", 3, b"\x0b")
for label, code in [
    ("unimplemented", b"\x00"), ("export", b"\x01" + X), ("local", b"\x02" + u16(1) + u16(NONE)),
    ("local assignment", b"\x03" + u16(1) + u16(4) + X), ("build", b"\x04" + u16(4)), ("copy", b"\x05" + X + X),
    ("store", b"\x06" + u16(NONE) + u16(NONE) + X + X), ("call", b"\x07" + u16(5) + b"\x01" + X),
    ("branch", b"\x08\x00\x00" + u16(1) + b"\x02"), ("indirect branch", b"\x08\x01\x01" + b"\xff" * 8 + u16(8) + b"\x00"),
    ("branch to a label", b"\x08\x02" + u16(1) + b"\x01"), ("conditional branch", b"\x09" + X + b"\x02" + u16(1) + b"\x00"),
    ("label", b"\x0a" + u16(1)),
]:
    statement(f"statement: {label}", 0, code)
statement("hint 3", 3, b"\x08\x02" + u16(1) + b"\x03")
statement("branch destination 3", 3, b"\x08\x03" + u16(1) + b"\x00")
statement("jump label 2", 3, b"\x08\x00\x02" + u16(1) + b"\x00")
statement("jump label of 1,025", 4, b"\x08\x00\x01" + b"\0" * 8 + u16(1025) + b"\x00")
statement("local without a name", 5, b"\x02" + u16(NONE) + u16(NONE))
statement("9 arguments of a call statement", 4, b"\x07" + u16(5) + b"\x09" + X * 9)
for label, code in [
    ("name", X), ("integer", b"\x01" + b"\xff" * 8), ("address of", b"\x02" + u16(8) + u16(1)), ("truncate", b"\x03" + X + u16(4)),
    ("slice", b"\x04" + X + u16(0) + u16(8192)), ("last operator", b"\x05" + X + b"\x26" + X), ("dereference", b"\x06" + u16(0) + u16(NONE) + X),
    ("constant pool", b"\x07\x08" + X * 8), ("call", b"\x08" + u16(5) + b"\x08" + X * 8),
]:
    expression(f"expression: {label}", 0, code)
expression("expression code 9", 3, b"\x09")
expression("operator 39", 3, b"\x05" + X + b"\x27" + X)
expression("slice of 8,193", 4, b"\x04" + X + u16(0) + u16(8193))
expression("9 arguments of the constant pool", 4, b"\x07\x09" + X * 9)
expression("9 arguments of a call", 4, b"\x08" + u16(5) + b"\x09" + X * 9)
expression("a name that names nothing", 5, b"\0" + u16(16))
expression("nesting 32", 0, nested(32))
expression("nesting 33", 4, nested(33))
expression("an unknown code at depth 33", 3, b"\x03" * 32 + b"\x09")

# cuts: names of a length that puts the end of the block into each kind of field
def names_of(total):
    """Names whose bytes, with their lengths, come to that total: 16 of zeros alone, then longer ones."""
    names = [bytes(n) for n in range(1, 17)]
    rest = total - sum(len(n) + 1 for n in names)
    longer = []
    while rest > 26:
        longer.append(24)
        rest -= 25
    longer += [11, 13] if rest == 26 else [rest - 1]
    return names + [bytes([i + 1]) + bytes(n - 1) for i, n in enumerate(longer)]


lists = [
    ("a space's name", u16(0)), ("a space's kind", b"\0"), ("a space's size", u16(8)), ("a register's name", u16(1)), ("a register's size", u16(4)),
    ("a bit range's name", u16(3)), ("a bit range's register", u16(0)), ("a first bit", u16(0)), ("a bit count", u16(8)),
    ("a table's name", u16(4)), ("an export size", u16(8)), ("a user op's name", u16(5)), ("a macro's name", u16(6)), ("a parameter count", b"\x01"),
    ("a parameter", u16(7)), ("a macro's statement count", u16(1)), ("a macro's statement", b"\0"), ("another symbol's name", u16(8)),
    ("a field's name", u16(9)), ("a field's size", u16(4)), ("a subtable's name", u16(10)), ("a subtable's table", u16(0)),
]
codes = [
    ("a local's code", b"\x02"), ("a local's name", u16(1)), ("a local's size", u16(4)), ("an assignment's code", b"\x03"), ("an assignment's name", u16(1)),
    ("an assignment's size", u16(4)), ("an integer's code", b"\x01"), ("an integer", b"\x07" * 8), ("a build's code", b"\x04"), ("a build's name", u16(4)),
    ("a copy's code", b"\x05"), ("an address's code", b"\x02"), ("an address's size", u16(8)), ("an address's name", u16(1)), ("a truncation's code", b"\x03"),
    ("a name's code", b"\x00"), ("a name", u16(1)), ("a truncation's size", u16(4)), ("a store's code", b"\x06"), ("a store's space", u16(0)),
    ("a store's size", u16(4)), ("a slice's code", b"\x04" + X), ("a slice's first bit", u16(1)), ("a slice's bit count", u16(2)), ("an operator's first part", b"\x05" + X),
    ("an operator", b"\x05"), ("an operator's second part", X), ("a call's code", b"\x07"), ("a call's name", u16(5)), ("an argument count", b"\x02"),
    ("a dereference's code", b"\x06"), ("a dereference's space", u16(0)), ("a dereference's size", u16(4)), ("a dereference's pointer", X),
    ("a constant pool's code", b"\x07"), ("a constant pool's count", b"\x01"), ("a constant pool's part", X), ("a branch's code", b"\x08"),
    ("a destination's code", b"\x00"), ("a jump label's code", b"\x01"), ("a jump label's integer", b"\x09" * 8), ("a jump label's size", u16(8)), ("a hint", b"\x01"),
    ("a conditional branch's code", b"\x09"), ("a condition's code", b"\x08"), ("a function's name", u16(5)), ("a function's argument count", b"\x00"),
    ("a destination label's code", b"\x02"), ("a destination label", u16(1)), ("its hint", b"\x01"), ("a label's code", b"\x0a"), ("a label", u16(1)),
]
entries, statements = b"".join(b for _, b in lists), b"".join(b for _, b in codes)
offset = 0
again = ["a condition's code", "a function's name", "a function's argument count", "a destination label's code", "a destination label", "its hint"]
for label, field in lists + codes:
    inside = offset + len(field) // 2
    names = names_of(510 - 34 - inside)
    head = Section(names=names, registers=[b""], statements=[b""] * 9).stream()[:34] + b"".join(name(n) for n in names)
    if label not in again:  # kinds of field that are cut elsewhere
        file(f"cut in {label}", 3, (head + entries + statements)[:510], length=512)
    offset += len(field)
whole = Section(names=names, registers=[b""], statements=[b""] * 9).stream()[:34] + b"".join(name(n) for n in names) + entries + statements
file("nothing cut", 0, whole)
file("cut in the names", 3, Section(names=[b"abcdefghijklmnopqrstuvwx"[:20] + b"%04d" % i for i in range(64)]).stream()[:510], length=512)

with open("stdin", "wb") as out:
    out.write(u16(len(vectors)))
    for _, _, data in vectors:
        out.write(data)
with open("stdout", "w") as out:
    for label, refusal, _ in vectors:
        out.write(f"{label} {refusal}\n")
print(len(vectors), "vectors")
