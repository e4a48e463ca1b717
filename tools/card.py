"""The card's opcodes by their names, with what each takes, and the methods of Method.cap (docs/FORMATS.md, "The card's
opcodes"; docs/MACHINES.md, "What an instruction does")."""
import items

LETTERS, JUMPS = "asbi", "ifeq ifne iflt ifge ifgt ifle ifnull ifnonnull if_acmpeq if_acmpne if_scmpeq if_scmpne" \
    " if_scmplt if_scmpge if_scmpgt if_scmple goto"


def names():
    """The names from opcode 00 to B8."""
    numbers = ["m1", *"012345"]
    moved = [f"{letter}{{}}_{k}" for letter in "asi" for k in range(4)]
    found = ["nop", "aconst_null", *(f"sconst_{n}" for n in numbers), *(f"iconst_{n}" for n in numbers)]
    found += "bspush sspush bipush sipush iipush aload sload iload".split() + [it.format("load") for it in moved]
    found += "aaload baload saload iaload astore sstore istore".split() + [it.format("store") for it in moved]
    found += "aastore bastore sastore iastore pop pop2 dup dup2 dup_x swap_x".split()
    found += [letter + what for what in "add sub mul div rem neg shl shr ushr and or xor inc".split() for letter in "si"]
    found += ["s2b", "s2i", "i2b", "i2s", "icmp", *JUMPS.split(), "jsr", "ret"]
    found += "stableswitch itableswitch slookupswitch ilookupswitch areturn sreturn ireturn return".split()
    found += [f"{what}_{letter}" for what in ("getstatic", "putstatic", "getfield", "putfield") for letter in "absi"]
    found += "invokevirtual invokespecial invokestatic invokeinterface new newarray anewarray".split()
    found += "arraylength athrow checkcast instanceof sinc_w iinc_w".split() + [jump + "_w" for jump in JUMPS.split()]
    return found + [f"{what}_{letter}_{how}" for what in ("getfield", "putfield") for how in ("w", "this")
                    for letter in "absi"]


NAMES = {**dict(enumerate(names())), 0xFE: "impdep1", 0xFF: "impdep2"}
# the operands that are other than none, in bytes
SIZES = {**dict.fromkeys([0x10, 0x12, *range(0x15, 0x18), *range(0x28, 0x2B), 0x3F, 0x40, *range(0x60, 0x71), 0x72,
                          *range(0x83, 0x8B), 0x90, *range(0xAD, 0xB1), *range(0xB5, 0xB9)], 1),
         **dict.fromkeys([0x11, 0x13, 0x59, 0x5A, 0x71, *range(0x7B, 0x83), *range(0x8B, 0x8E), 0x8F, 0x91,
                          *range(0x98, 0xAD), *range(0xB1, 0xB5)], 2),
         **dict.fromkeys([0x94, 0x95, 0x96, 0x97], 3), 0x14: 4, 0x8E: 4}
SWITCHES = range(0x73, 0x77)

ARRAYS = {"a": "an array of references", "b": "an array of boolean or byte", "s": "an array of short",
          "i": "an array of int"}
VALUES = {"a": "a reference", "b": "a number", "s": "a number", "i": "two numbers, an int"}
# what instructions take by name, where the letter and the kind do not say it; the top of the stack first
TAKEN = {"pop": "a word", "pop2": "two words", "dup": "a word", "dup2": "two words",
         "dup_x": "as many words as its operand says", "swap_x": "as many words as its operand says",
         "arraylength": "an array", "athrow": "a java/lang/Throwable", "newarray": "a number, the length",
         "anewarray": "a number, the length", "checkcast": "a reference", "instanceof": "a reference",
         "ifnull": "a reference", "ifnonnull": "a reference", "if_acmpeq": "two references",
         "if_acmpne": "two references", "areturn": "a reference to what the method's result is",
         "sreturn": "a number", "ireturn": "two numbers, an int",
         "invokevirtual": "the arguments of its entry's type, the last on top, and below them an object of its entry's class",
         "invokespecial": "the arguments of its entry's type, the last on top, and below them an object of its class",
         "invokestatic": "the arguments of its entry's type, the last on top",
         "invokeinterface": "the arguments of the method's type, the last on top, and below them an object of the interface",
         "stableswitch": "a number", "slookupswitch": "a number", "itableswitch": "two numbers, an int",
         "ilookupswitch": "two numbers, an int", "s2b": "a number", "s2i": "a number", "i2b": "two numbers, an int",
         "i2s": "two numbers, an int", "icmp": "four numbers, two ints", "sneg": "a number",
         "ineg": "two numbers, an int"}
ONE = ("ifeq", "ifne", "iflt", "ifge", "ifgt", "ifle")
TWO = "add sub mul div rem shl shr ushr and or xor".split()


def taken(name):
    """What the instruction of a name takes, or nothing where it takes no word."""
    plain = name[:-2] if name.endswith("_w") else name
    if plain in TAKEN:
        return TAKEN[plain]
    if plain in ONE:
        return "a number"
    if plain.startswith("if_scmp"):
        return "two numbers"
    if plain[1:] in TWO:
        return "two numbers" if plain[0] == "s" else "four numbers, two ints"
    if plain[1:] in ("aload", "aload_0") and len(plain) > 5 and plain[0] in ARRAYS:
        return f"a number, the index, and below it {ARRAYS[plain[0]]}"
    if plain[1:] == "astore" and plain[0] in ARRAYS:
        return f"{VALUES[plain[0]]}, below it a number, the index, and {ARRAYS[plain[0]]}"
    return of_local(plain) or of_field(plain)


def of_local(name):
    """The same of instructions that name a local."""
    letter, what = name[0], name[1:].split("_")[0]
    if what == "load":
        return {"a": "a local that holds a reference", "s": "a local that holds a number",
                "i": "two locals that hold numbers, an int"}.get(letter, "")
    if what == "store":
        return VALUES.get(letter, "")
    if what == "inc":
        return "a local that holds a number" if letter == "s" else "two locals that hold numbers, an int"
    return ""


def of_field(name):
    """The same of instructions that name a field."""
    parts = name.split("_")
    value = VALUES.get(parts[1], "") if len(parts) > 1 else ""
    there = "an object of the field's class in local 0" if parts[-1] == "this" else "an object of the field's class"
    return {"getstatic": "", "putstatic": f"{value} of the field's type", "getfield": there,
            "putfield": f"{value} of the field's type" + (", and " if parts[-1] == "this" else ", and below it ") + there,
            }.get(parts[0], "")


def size(data, at):
    """The number of bytes of the instruction at a place, or 0 where none stands."""
    opcode = data[at]
    if opcode in SWITCHES:
        width = 2 if opcode in (0x73, 0x75) else 4
        number = [int.from_bytes(data[at + 3 + k * width:at + 3 + (k + 1) * width], "big", signed=True) for k in (0, 1)]
        count = int.from_bytes(data[at + 3:at + 5], "big")
        return 3 + 2 * width + 2 * (number[1] - number[0] + 1) if opcode < 0x75 else 5 + count * (width + 2)
    return 1 + SIZES.get(opcode, 0) if opcode in NAMES else 0


class Header:
    """A method of Method.cap, by its places in Descriptor and its offsets in the file."""

    def __init__(self, of, number, start, length, data):
        self.of, self.number, self.start = of, number, start
        self.code = start + (4 if start < len(data) and data[start] & 0x80 else 2)
        self.end = self.code + length

    def spelt(self):
        return f"method {self.number} of class {self.of} in Descriptor"


def headers(descriptor, data):
    """The methods of classes, as Descriptor places them."""
    number = {label: int.from_bytes(descriptor[at:at + size], "big") for at, size, label in
              items.items("Descriptor.cap", descriptor)}
    return [Header(of, k, 3 + number[f"class {of} method {k} offset"],
                   number[f"class {of} method {k} bytecode_count"], data)
            for of in range(number.get("class_count", 0)) if not number[f"class {of} flags"] & 0x40
            for k in range(number[f"class {of} method_count"])]


def place(descriptor, data, offset):
    """What stands at an offset of Method.cap, in lines; nothing where Descriptor does not tell."""
    try:
        methods = headers(descriptor, data)
    except KeyError:
        return []
    for method in methods:
        if method.start <= offset < method.code:
            return [f"Method.cap, byte {offset}: the header of {method.spelt()}"]
        if method.code <= offset < method.end:
            return instruction(method, data, offset)
    return []


def instruction(method, data, offset):
    at = method.code
    while at < offset and at < len(data) and size(data, at):
        at += size(data, at)
    if at != offset:
        return [f"Method.cap, byte {offset}: in {method.spelt()}, where no instruction starts"]
    name = NAMES.get(data[at], f"{data[at]:02X}, no opcode")
    takes = taken(name)
    return [f"Method.cap, byte {offset}: {name}, of {method.spelt()}, byte {offset - method.code} of its code"] + (
        [f"it takes {takes}"] if takes else [])
