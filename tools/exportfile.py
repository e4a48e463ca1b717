"""Export files as the tools read them (docs/FORMATS.md, "Export files"): the package, and its classes with the names
of what stands above them and their members."""
from classfile import BadClass, Member, Reader


class BadExport(Exception):
    """The bytes are no export file, as far as the tools read one."""


class ExportClass:
    """A class of an export file, by the words of a class file; `supers` are all that it lists."""

    def __init__(self, token, flags, name, supers, interfaces):
        self.token, self.flags, self.name, self.supers, self.interfaces = token, flags, name, supers, interfaces
        self.fields, self.methods = [], []

    @property
    def super(self):
        return self.supers[0] if self.supers else None


class ExportFile:
    """The package's name, AID, version as (major, minor), and classes."""

    def __init__(self, data):
        try:
            self.fill(Reader(data))
        except (BadClass, IndexError, TypeError) as fault:
            raise BadExport(str(fault)) from fault

    def fill(self, reader):
        if reader.u4() != 0x00FACADE:
            raise BadExport("it does not begin with 00FACADE")
        minor, major = reader.u1(), reader.u1()
        if major != 2 or minor not in (1, 2):
            raise BadExport(f"it has format {major}.{minor}; 2.1 and 2.2 are read")
        self.format = (major, minor)
        self.pool = [self.entry(reader) for _ in range(reader.u2())]
        tag, name, self.version, self.aid = self.pool[reader.u2()]
        if tag != 13:
            raise BadExport("the entry of its package is none")
        self.package = self.text(name)
        self.classes = [self.read_class(reader) for _ in range(reader.u1())]

    def entry(self, reader):
        tag = reader.u1()
        if tag == 1:
            return (1, reader.take(reader.u2()).decode("utf-8", "replace"))
        if tag == 3:
            return (3, reader.u4())
        if tag == 7:
            return (7, reader.u2())
        if tag == 13:
            reader.u1()
            name, minor, major = reader.u2(), reader.u1(), reader.u1()
            return (13, name, (major, minor), reader.take(reader.u1()))
        raise BadExport(f"the constant pool has an entry of tag {tag}")

    def text(self, index):
        return self.pool[index][1]

    def class_name(self, index):
        return self.text(self.pool[index][1])

    def read_class(self, reader):
        token, flags, name = reader.u1(), reader.u2(), self.class_name(reader.u2())
        supers = [self.class_name(reader.u2()) for _ in range(reader.u2())]
        interfaces = [self.class_name(reader.u2()) for _ in range(reader.u1())]
        found = ExportClass(token, flags, name, supers, interfaces)
        for _ in range(reader.u2()):
            reader.u1()
            found.fields.append(Member(reader.u2(), self.text(reader.u2()), self.text(reader.u2()), None))
            for _ in range(reader.u2()):
                reader.u2()
                reader.take(reader.u4())
        for _ in range(reader.u2()):
            reader.u1()
            found.methods.append(Member(reader.u2(), self.text(reader.u2()), self.text(reader.u2()), None))
        return found


def read(path):
    with open(path, "rb") as source:
        return ExportFile(source.read())
