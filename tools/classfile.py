"""Class files as the tools read them (Java Virtual Machine Specification, chapter 4): names, members, code and the
tables that lead from code to the source. What the converter accepts is decided by the program alone."""
import struct

STATIC, INTERFACE, ABSTRACT = 0x0008, 0x0200, 0x0400


class BadClass(Exception):
    """The bytes are no class file, as far as the tools read one."""


class Reader:
    """Numbers from left to right, high byte first."""

    def __init__(self, data, at=0):
        self.data, self.at = data, at

    def take(self, count):
        if self.at + count > len(self.data):
            raise BadClass(f"the bytes end at {len(self.data)}")
        self.at += count
        return self.data[self.at - count:self.at]

    def u1(self):
        return self.take(1)[0]

    def u2(self):
        return int.from_bytes(self.take(2), "big")

    def u4(self):
        return int.from_bytes(self.take(4), "big")


class Code:
    """The code of a method: its bytes, its handlers (start, end, target, catch index) and its lines by offset."""

    def __init__(self, data, handlers, lines):
        self.data, self.handlers, self.lines = data, handlers, lines

    def line_at(self, offset):
        """The number of the source line that the instruction at an offset came from, or None."""
        known = [pair for pair in self.lines if pair[0] <= offset]
        return max(known, key=lambda pair: pair[0])[1] if known else None


class Member:
    """A field or a method; `code` is None where there is none."""

    def __init__(self, flags, name, descriptor, code):
        self.flags, self.name, self.descriptor, self.code = flags, name, descriptor, code

    def spelt(self):
        """As a refusal has it: of a field `NAME:DESC`, of a method `NAMEDESC`."""
        return self.name + ("" if self.descriptor.startswith("(") else ":") + self.descriptor


class ClassFile:
    """What the tools take of a class file; names have slashes."""

    def __init__(self, data):
        reader = Reader(data)
        if reader.u4() != 0xCAFEBABE:
            raise BadClass("it does not begin with CAFEBABE")
        self.minor, self.major = reader.u2(), reader.u2()
        self.pool = read_pool(reader)
        self.flags = reader.u2()
        self.name, self.super = self.class_name(reader.u2()), self.class_name(reader.u2())
        self.interfaces = [self.class_name(reader.u2()) for _ in range(reader.u2())]
        self.fields = [self.member(reader) for _ in range(reader.u2())]
        self.methods = [self.member(reader) for _ in range(reader.u2())]
        self.source = None
        for name, body in self.attributes(reader):
            if name == "SourceFile" and len(body) == 2:
                self.source = self.text(Reader(body).u2())

    def entry(self, index, *tags):
        entry = self.pool.get(index)
        if entry is None or entry[0] not in tags:
            raise BadClass(f"the constant pool has nothing of that kind at {index}")
        return entry

    def text(self, index):
        return self.entry(index, 1)[1]

    def class_name(self, index):
        return self.text(self.entry(index, 7)[1]) if index else None

    def named_member(self, index):
        """The class, the name and the descriptor of a Fieldref, Methodref or InterfaceMethodref."""
        _, owner, pair = self.entry(index, 9, 10, 11)
        _, name, descriptor = self.entry(pair, 12)
        return self.class_name(owner), self.text(name), self.text(descriptor)

    def attributes(self, reader):
        pairs = []
        for _ in range(reader.u2()):
            name = self.text(reader.u2())
            pairs.append((name, reader.take(reader.u4())))
        return pairs

    def member(self, reader):
        flags, name, descriptor = reader.u2(), self.text(reader.u2()), self.text(reader.u2())
        code = None
        for attribute, body in self.attributes(reader):
            if attribute == "Code":
                code = self.code(Reader(body))
        return Member(flags, name, descriptor, code)

    def code(self, reader):
        reader.take(4)
        data = reader.take(reader.u4())
        handlers = [struct.unpack(">4H", reader.take(8)) for _ in range(reader.u2())]
        lines = []
        for name, body in self.attributes(reader):
            if name == "LineNumberTable":
                table = Reader(body)
                lines += [(table.u2(), table.u2()) for _ in range(table.u2())]
        return Code(data, handlers, lines)

    def find(self, spelt):
        """The member that a refusal spells so, or None."""
        found = [m for m in self.fields + self.methods if m.spelt() == spelt or m.name + m.descriptor == spelt]
        return found[0] if found else None


def read_pool(reader):
    """The entries by their index, each with its tag first; texts are strings."""
    count, pool, index = reader.u2(), {}, 1
    while index < count:
        tag = reader.u1()
        if tag == 1:
            pool[index] = (1, reader.take(reader.u2()).decode("utf-8", "replace"))
        elif tag == 3:
            pool[index] = (3, struct.unpack(">i", reader.take(4))[0])
        elif tag in (5, 6):
            pool[index] = (tag, reader.take(8))
        elif tag in (4,):
            pool[index] = (tag, reader.take(4))
        elif tag in (7, 8, 16, 19, 20):
            pool[index] = (tag, reader.u2())
        elif tag in (9, 10, 11, 12, 17, 18):
            pool[index] = (tag, reader.u2(), reader.u2())
        elif tag == 15:
            pool[index] = (tag, reader.u1(), reader.u2())
        else:
            raise BadClass(f"the constant pool has an entry of tag {tag}")
        index += 2 if tag in (5, 6) else 1
    return pool


def read(path):
    with open(path, "rb") as source:
        return ClassFile(source.read())


def bare(descriptor):
    """A descriptor without the names of classes."""
    for name in classes_of(descriptor):
        descriptor = descriptor.replace(f"L{name};", "L")
    return descriptor


def has_int(descriptor):
    return "I" in bare(descriptor)


def classes_of(descriptor):
    """The names of classes in a descriptor, in order, each once."""
    names, at = [], 0
    while (at := descriptor.find("L", at)) >= 0:
        end = descriptor.find(";", at)
        if end < 0:
            break
        if descriptor[at + 1:end] not in names:
            names.append(descriptor[at + 1:end])
        at = end
    return names


def class_of_type(name):
    """The class of a Class entry: of an array that of its elements, None where these are no class."""
    if not name.startswith("["):
        return name
    inner = name.lstrip("[")
    return inner[1:-1] if inner.startswith("L") else None
