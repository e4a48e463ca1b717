"""The items of component files by their places, as far as a name for a byte needs them (docs/FORMATS.md)."""

SHOWN_ITEMS = 12
SHOWN_BYTES = 16

DIRECTORY = ("header", "directory", "applet", "import", "constant_pool", "class", "method", "static_field",
             "ref_location", "export", "descriptor", "debug")


class Cut(Exception):
    """The bytes end inside an item."""


class Walk:
    """Goes through the bytes of a file and keeps the place, the size and the name of each item."""

    def __init__(self, content):
        self.content = content
        self.at = 0
        self.found = []

    def take(self, size, name):
        """An item of so many bytes, and its number."""
        if self.at + size > len(self.content):
            raise Cut
        self.found.append((self.at, size, name))
        self.at += size
        return int.from_bytes(self.content[self.at - size:self.at], "big")

    def is_over(self):
        return self.at >= len(self.content)

    def aid(self, name):
        self.take(self.take(1, f"{name} AID length"), f"{name} AID")


def header(walk):
    walk.take(4, "magic")
    for name in ("minor_version", "major_version", "flags", "package minor", "package major"):
        walk.take(1, name)
    walk.aid("package")
    walk.take(walk.take(1, "name length"), "name")


def directory(walk):
    for name in DIRECTORY:
        walk.take(2, f"size of {name}")
    for name in ("image size", "array_init_count", "array_init_size"):
        walk.take(2, name)
    for name in ("import_count", "applet_count", "custom_count"):
        walk.take(1, name)


def applet(walk):
    for place in range(walk.take(1, "count")):
        walk.aid(f"applet {place}")
        walk.take(2, f"applet {place} install_method_offset")


def imports(walk):
    for place in range(walk.take(1, "count")):
        walk.take(1, f"package {place} minor")
        walk.take(1, f"package {place} major")
        walk.aid(f"package {place}")


def pool(walk):
    for place in range(walk.take(2, "count")):
        walk.take(1, f"entry {place} tag")
        walk.take(3, f"entry {place}")


def interface(walk, name, count):
    for place in range(count):
        walk.take(2, f"{name} superinterface {place}")


def class_entry(walk, name, count):
    walk.take(2, f"{name} super_class")
    for item in ("declared_instance_size", "first_reference_token", "reference_count"):
        walk.take(1, f"{name} {item}")
    counts = []
    for table in ("public", "package"):
        walk.take(1, f"{name} {table} base")
        counts.append((table, walk.take(1, f"{name} {table} count")))
    for table, entries in counts:
        for place in range(entries):
            walk.take(2, f"{name} {table} method {place}")
    for place in range(count):
        walk.take(2, f"{name} interface {place}")
        for index in range(walk.take(1, f"{name} interface {place} count")):
            walk.take(1, f"{name} interface {place} index {index}")


def classes(walk):
    walk.take(2, "signature_pool_length")
    while not walk.is_over():
        name = f"info at {walk.at - 3}"
        bits = walk.take(1, f"{name} flags and interface_count")
        (interface if bits & 0x80 else class_entry)(walk, name, bits & 15)


def methods(walk):
    for place in range(walk.take(1, "handler_count")):
        for item in ("start", "stop bit and length", "handler", "catch_type_index"):
            walk.take(2, f"handler {place} {item}")
    walk.take(len(walk.content) - walk.at, "methods")


def statics(walk):
    walk.take(2, "image_size")
    walk.take(2, "reference_count")
    for place in range(walk.take(2, "array_init_count")):
        walk.take(1, f"array {place} type")
        walk.take(walk.take(2, f"array {place} count"), f"array {place} values")
    walk.take(2, "default_value_count")
    walk.take(walk.take(2, "non_default_value_count"), "non_default_values")


def locations(walk):
    for name in ("byte_index", "byte2_index"):
        for place in range(walk.take(2, f"{name}_count")):
            walk.take(1, f"{name} distance {place}")


def exports(walk):
    for place in range(walk.take(1, "class_count")):
        walk.take(2, f"class {place} offset")
        fields = walk.take(1, f"class {place} static_field_count")
        static = walk.take(1, f"class {place} static_method_count")
        for field in range(fields):
            walk.take(2, f"class {place} field {field}")
        for method in range(static):
            walk.take(2, f"class {place} method {method}")


def described(walk, name):
    walk.take(1, f"{name} token")
    walk.take(1, f"{name} flags")
    walk.take(2, f"{name} class_ref")
    interfaces = walk.take(1, f"{name} interface_count")
    fields = walk.take(2, f"{name} field_count")
    methods_here = walk.take(2, f"{name} method_count")
    for place in range(interfaces):
        walk.take(2, f"{name} interface {place}")
    for place in range(fields):
        for item, size in (("token", 1), ("flags", 1), ("ref", 3), ("type", 2)):
            walk.take(size, f"{name} field {place} {item}")
    for place in range(methods_here):
        for item, size in (("token", 1), ("flags", 1), ("offset", 2), ("type", 2), ("bytecode_count", 2),
                           ("handler_count", 2), ("handler_index", 2)):
            walk.take(size, f"{name} method {place} {item}")


def descriptor(walk):
    for place in range(walk.take(1, "class_count")):
        described(walk, f"class {place}")
    for place in range(walk.take(2, "constant_pool_count")):
        walk.take(2, f"constant_pool_type {place}")
    place = 0
    while not walk.is_over():
        count = walk.take(1, f"type {place} nibble_count")
        walk.take((count + 1) // 2, f"type {place}")
        place += 1


FORMATS = {
    "Header.cap": header, "Directory.cap": directory, "Applet.cap": applet, "Import.cap": imports,
    "ConstantPool.cap": pool, "Class.cap": classes, "Method.cap": methods, "StaticField.cap": statics,
    "RefLocation.cap": locations, "Export.cap": exports, "Descriptor.cap": descriptor,
}


def items(name, content):
    """The items of a file. What no item covers, a whole file of another format among it, is one without a name."""
    walk = Walk(content)
    try:
        if name in FORMATS:
            walk.take(1, "tag")
            walk.take(2, "size")
            FORMATS[name](walk)
    except Cut:
        pass
    if not walk.is_over():
        walk.found.append((walk.at, len(content) - walk.at, ""))
    return walk.found


def item_difference(name, item, wanted, found):
    """One line of an item: up to so many bytes from the first on that differs."""
    at, size, label = item
    here, there = wanted[at:at + size], found[at:at + size]
    skip = next((place for place in range(len(here)) if here[place:place + 1] != there[place:place + 1]), 0)
    shown = [part[skip:skip + SHOWN_BYTES].hex(" ").upper() or "nothing" for part in (here, there)]
    return f"{name} +0x{at + skip:02X}{f' ({label})' if label else ''}: {shown[0]} wanted, {shown[1]} found\n"


def differences(name, wanted, found):
    """The lines that tell how the bytes of a file differ."""
    if wanted == found:
        return
    if len(wanted) != len(found):
        yield f"{name}: {len(wanted)} bytes wanted, {len(found)} found\n"
    wrong = [item for item in items(name.split("/")[-1], wanted)
             if wanted[item[0]:item[0] + item[1]] != found[item[0]:item[0] + item[1]]]
    for item in wrong[:SHOWN_ITEMS]:
        yield item_difference(name, item, wanted, found)
    if len(wrong) > SHOWN_ITEMS:
        yield f"{name}: and {len(wrong) - SHOWN_ITEMS} items more\n"
