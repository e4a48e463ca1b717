"""The instructions of a class file by the names that javap gives them (Java Virtual Machine Specification, 6.5)."""
import struct

NAMES = """nop aconst_null iconst_m1 iconst_0 iconst_1 iconst_2 iconst_3 iconst_4 iconst_5 lconst_0 lconst_1
fconst_0 fconst_1 fconst_2 dconst_0 dconst_1 bipush sipush ldc ldc_w ldc2_w iload lload fload dload aload iload_0
iload_1 iload_2 iload_3 lload_0 lload_1 lload_2 lload_3 fload_0 fload_1 fload_2 fload_3 dload_0 dload_1 dload_2
dload_3 aload_0 aload_1 aload_2 aload_3 iaload laload faload daload aaload baload caload saload istore lstore
fstore dstore astore istore_0 istore_1 istore_2 istore_3 lstore_0 lstore_1 lstore_2 lstore_3 fstore_0 fstore_1
fstore_2 fstore_3 dstore_0 dstore_1 dstore_2 dstore_3 astore_0 astore_1 astore_2 astore_3 iastore lastore fastore
dastore aastore bastore castore sastore pop pop2 dup dup_x1 dup_x2 dup2 dup2_x1 dup2_x2 swap iadd ladd fadd dadd
isub lsub fsub dsub imul lmul fmul dmul idiv ldiv fdiv ddiv irem lrem frem drem ineg lneg fneg dneg ishl lshl ishr
lshr iushr lushr iand land ior lor ixor lxor iinc i2l i2f i2d l2i l2f l2d f2i f2l f2d d2i d2l d2f i2b i2c i2s lcmp
fcmpl fcmpg dcmpl dcmpg ifeq ifne iflt ifge ifgt ifle if_icmpeq if_icmpne if_icmplt if_icmpge if_icmpgt if_icmple
if_acmpeq if_acmpne goto jsr ret tableswitch lookupswitch ireturn lreturn freturn dreturn areturn return getstatic
putstatic getfield putfield invokevirtual invokespecial invokestatic invokeinterface invokedynamic new newarray
anewarray arraylength athrow checkcast instanceof monitorenter monitorexit wide multianewarray ifnull ifnonnull
goto_w jsr_w""".split()

ARRAY_TYPES = dict(zip(range(4, 12), "boolean char float double byte short int long".split()))
MEMBERS = range(0xB2, 0xBA)
CLASSES = (0xBB, 0xBD, 0xC0, 0xC1, 0xC5)
LENGTHS = {**dict.fromkeys([0x10, 0x12, *range(0x15, 0x1A), *range(0x36, 0x3B), 0xA9, 0xBC], 2),
           **dict.fromkeys([0x11, 0x13, 0x14, 0x84, *range(0x99, 0xA9), *range(0xB2, 0xB9), 0xBB, 0xBD, 0xC0, 0xC1,
                            0xC6, 0xC7], 3),
           0xC5: 4, 0xB9: 5, 0xBA: 5, 0xC8: 5, 0xC9: 5}


def s4(data, at):
    return struct.unpack_from(">i", data, at)[0]


def length(data, at):
    """The number of bytes of the instruction at a place."""
    opcode = data[at]
    if opcode == 0xC4:
        return 6 if data[at + 1] == 0x84 else 4
    table = (at + 4) & ~3
    if opcode == 0xAA:
        return table + 12 + 4 * (s4(data, table + 8) - s4(data, table + 4) + 1) - at
    if opcode == 0xAB:
        return table + 8 + 8 * s4(data, table + 4) - at
    return LENGTHS.get(opcode, 1)


def offsets(data):
    """Where instructions start, up to the first byte that starts none."""
    at, found = 0, []
    while 0 <= at < len(data) and data[at] < len(NAMES):
        found.append(at)
        try:
            step = length(data, at)
        except (struct.error, IndexError):
            break
        if step < 1:
            break
        at += step
    return found


def index_at(data, at):
    return int.from_bytes(data[at + 1:at + 3], "big")


def constant(of, index):
    """A constant that an ldc names, in words."""
    entry = of.pool.get(index, (0,))
    words = {3: "int", 4: "float", 5: "long", 6: "double", 7: "class", 8: "String", 15: "MethodHandle",
             16: "MethodType"}.get(entry[0], "constant")
    if entry[0] == 3:
        return f"int {entry[1]}"
    if entry[0] == 8:
        return f'String "{of.text(entry[1])}"'
    return f"class {of.class_name(index)}" if entry[0] == 7 else words


def member_words(of, index):
    owner, name, descriptor = of.named_member(index)
    return f"{owner}.{name}{'' if descriptor.startswith('(') else ':'}{descriptor}"


def operands(of, data, at):
    opcode = data[at]
    if opcode in MEMBERS:
        return f" {member_words(of, index_at(data, at))}"
    if opcode in CLASSES:
        return f" {of.class_name(index_at(data, at))}"
    if opcode in (0x12, 0x13, 0x14):
        return f" {constant(of, data[at + 1] if opcode == 0x12 else index_at(data, at))}"
    if opcode == 0xBC:
        return f" {ARRAY_TYPES.get(data[at + 1], data[at + 1])}"
    if opcode == 0x10:
        return f" {struct.unpack_from('b', data, at + 1)[0]}"
    if opcode == 0x84:
        return f" {data[at + 1]}, {struct.unpack_from('b', data, at + 2)[0]}"
    if opcode == 0x11:
        return f" {struct.unpack_from('>h', data, at + 1)[0]}"
    if 0x99 <= opcode <= 0xA8 or opcode in (0xC6, 0xC7):
        return f" {at + struct.unpack_from('>h', data, at + 1)[0]}"
    return f" {data[at + 1]}" if LENGTHS.get(opcode) == 2 else ""


def words(of, code, at):
    """The instruction at a place of a method's code, as javap writes it, or None where none starts there."""
    if at not in offsets(code.data):
        return None
    try:
        return NAMES[code.data[at]] + operands(of, code.data, at)
    except Exception:  # a name in the pool that is none, or a cut operand: the opcode's name is all there is to say
        return NAMES[code.data[at]]
