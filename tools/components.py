"""Component files of a package (docs/FORMATS.md, "Components"), as far as a CAP file tells what is in them."""
from classfile import BadClass, Reader

NAMES = ["Header", "Directory", "Applet", "Import", "ConstantPool", "Class", "Method", "StaticField", "RefLocation",
         "Export", "Descriptor", "Debug"]
FILES = [name + ".cap" for name in NAMES]
# the order in which a card takes them (Java Card Virtual Machine Specification 2.2.2, section 6.2)
LOADED = [1, 2, 4, 3, 6, 7, 8, 10, 5, 9, 11, 12]
LONGEST = 3 + 0xFFFF


class Refused(Exception):
    """A component that breaks a rule: the rule, the file's name, the offset."""

    def __init__(self, rule, name, offset):
        super().__init__(f"refused {rule} {name} - - {offset}")


def info(tag, data):
    """A reader at the info of a component, whose tag and size are tested."""
    name = FILES[tag - 1]
    if not data or data[0] != tag:
        raise Refused(106, name, 0)
    if len(data) < 3 or int.from_bytes(data[1:3], "big") != len(data) - 3:
        raise Refused(106, name, 1)
    return Reader(data, 3)


def parsed(tag, data, how):
    """What is read of a component's info to its end."""
    reader = info(tag, data)
    try:
        found = how(reader)
    except BadClass:
        raise Refused(106, FILES[tag - 1], reader.at) from None
    if reader.at != len(data):
        raise Refused(106, FILES[tag - 1], reader.at)
    return found


def version(reader):
    minor, major = reader.u1(), reader.u1()
    return (major, minor)


def read_header(reader):
    """The format, the flags, the package's version, AID and name; formats before 2.2 have no name."""
    if reader.u4() != 0xDECAFFED:
        raise Refused(106, FILES[0], 3)
    found = {"format": version(reader), "flags": reader.u1(), "version": version(reader)}
    found["aid"] = reader.take(reader.u1())
    ends = reader.at == len(reader.data)
    found["name"] = "" if ends else reader.take(reader.u1()).decode("utf-8", "replace")
    return found


def read_directory(reader, form):
    """The sizes of components by their tags; before format 2.2 there is none of Debug."""
    sizes = {tag: reader.u2() for tag in range(1, 13 if form >= (2, 2) else 12)}
    reader.take(len(reader.data) - reader.at)
    return sizes


def read_applets(reader):
    """The AIDs of the applets."""
    found = []
    for _ in range(reader.u1()):
        found.append(reader.take(reader.u1()))
        reader.u2()
    return found


def read_imports(reader):
    """The version and the AID of each package that is imported."""
    return [(version(reader), reader.take(reader.u1())) for _ in range(reader.u1())]


class Components:
    """The components that Directory counts, by their tags, with what a manifest says of them. `fetch` gives the bytes
    of a file by its name, and raises where it is missing."""

    def __init__(self, fetch):
        self.data = {1: fetch(FILES[0]), 2: fetch(FILES[1])}
        self.header = parsed(1, self.data[1], read_header)
        self.sizes = parsed(2, self.data[2], lambda reader: read_directory(reader, self.header["format"]))
        for tag, size in self.sizes.items():
            if size and tag > 2:
                self.data[tag] = fetch(FILES[tag - 1])
                info(tag, self.data[tag])
        for tag in sorted(self.sizes):
            if self.sizes[tag] != (len(self.data[tag]) - 3 if tag in self.data else 0) or self.lacks(tag):
                raise Refused(701, FILES[1], 1 + 2 * tag)
        self.applets = parsed(3, self.data[3], read_applets) if 3 in self.data else []
        self.imports = parsed(4, self.data[4], read_imports)

    def lacks(self, tag):
        """Whether a component that no package is without is absent."""
        return tag not in self.data and tag not in (3, 10, 11, 12)

    def names(self):
        return [FILES[tag - 1] for tag in LOADED if tag in self.data]
