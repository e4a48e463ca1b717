"""What is told of a refusal at a class file: the line of its class, member or instruction, and the name that is
missing or refused."""
import classfile
import opcodes
from source import Source

DECLARED = {201, 202, 204, 208, 304, 305, 306, 307, 403, 404, 405, 406, 413, 415, 417}
FLAGS = [(0x0001, "public"), (0x0002, "private"), (0x0004, "protected"), (0x0008, "static"), (0x0010, "final"),
         (0x0020, "synchronized"), (0x0100, "native"), (0x0400, "abstract"), (0x0800, "strictfp")]
FIELD_FLAGS = [*FLAGS[:5], (0x0040, "volatile"), (0x0080, "transient")]
TYPES = {"J": "long", "F": "float", "D": "double", "C": "char"}
SYNTHETIC, FIELD_PUT = 0x1000, 0xB3


def lines(told, of, source):
    """What is said of a refusal whose class file and source are known."""
    member = of.find(told.refusal.member) if told.refusal.member else None
    if member is None:
        return at_class(told, of, source)
    descriptor = of_descriptor(told, member) if told.refusal.offset == 0 else []
    if member.code is None or told.rule in DECLARED or (descriptor and not of_instruction(told, of, member)):
        return called_by(told, of, member) + at_declaration(told, of, source, member) + descriptor
    beside = ["or, of the method itself:", *descriptor] if descriptor else []
    return (called_by(told, of, member) + at_instruction(told, of, source, member) + of_instruction(told, of, member)
            + beside)


def at(source, number, otherwise):
    """The place in the source; where there is none, why."""
    if number:
        return [source.place(number)]
    return [f"{source.name}: the line is not known. {otherwise}"]


def at_class(told, of, source):
    found = at(source, source.class_line(), "The source is not beside the class file.")
    if told.refusal.member:
        return found + [f"{told.refusal.member} is not declared there: the class gets it from an interface."]
    found.append(f"class {of.name}")
    if told.rule == 203:
        supers = [("its superclass", of.super)] + [("its interface", name) for name in of.interfaces]
        missing = [(what, name) for what, name in supers if is_missing(told, of, name)]
        found += [f"missing: {name}, {what}{in_no_file(told)}" for what, name in missing]
    return found


def at_declaration(told, of, source, member):
    found = at(source, source.member_line(member), "The source is not beside the class file.")
    flags = FLAGS if member.descriptor.startswith("(") else FIELD_FLAGS
    words = " ".join(word for bit, word in flags if member.flags & bit)
    return found + [f"{of.name} {member.spelt()}" + (f", which is {words}" if words else "")]


def of_descriptor(told, member):
    """What of a member's descriptor breaks 203, 301 or 302."""
    if told.rule == 203:
        missing = [name for name in classfile.classes_of(member.descriptor) if is_missing(told, None, name)]
        return [f"missing: {name}, of its descriptor{in_no_file(told)}" for name in missing]
    if told.rule not in (301, 302):
        return []
    bare = classfile.bare(member.descriptor)
    if told.rule == 302:
        return ["its descriptor has the type int"] if classfile.has_int(member.descriptor) else []
    types = [word for letter, word in TYPES.items() if letter in bare.replace("V", "")]
    types += ["an array of arrays"] if "[[" in bare else []
    return [f"its descriptor has the type {', '.join(types)}"] if types else []


def at_instruction(told, of, source, method):
    offset = told.refusal.offset
    without = f"{told.refusal.file} has no line numbers: compile it with `javac -g`."
    found = at(source, method.code.line_at(offset), without)
    words = opcodes.words(of, method.code, offset)
    found.append(f"{of.name} {method.spelt()}, instruction {offset}: {words}" if words else
                 f"{of.name} {method.spelt()}, offset {offset}, where no instruction starts")
    return found


def called_by(told, of, method):
    """Of a method that javac added, where it is called, since no source names it."""
    if not (method.flags & SYNTHETIC and method.name.startswith("access$")):
        return []
    found = []
    for caller, path, place, offset in told.around().callers(of.name, method.spelt())[:5]:
        found += at(Source(caller, path), place.code.line_at(offset), f"In {caller.name} {place.spelt()}.")
    return found + [f"calls {method.name}, which javac made for a private member of another class:"]


def of_instruction(told, of, method):
    """What is missing or refused of an instruction, or of a catch type whose handler begins there."""
    if told.rule in (205, 206, 310):
        return of_member(told, of, method)
    if told.rule == 203:
        missing = [name for name in names_at(of, method, told.refusal.offset) if is_missing(told, of, name)]
        return [f"missing: {name}{in_no_file(told)}" for name in missing]
    return of_statement(of, method, told.refusal.offset) if told.rule == 308 else []


def names_at(of, method, offset):
    """The classes that the instruction at an offset names, and the catch types whose handlers begin there."""
    data, names = method.code.data, []
    if offset in opcodes.offsets(data):
        if data[offset] in opcodes.CLASSES:
            names.append(of.class_name(opcodes.index_at(data, offset)))
        elif data[offset] in opcodes.MEMBERS:
            owner, _, descriptor = of.named_member(opcodes.index_at(data, offset))
            names += [owner, *classfile.classes_of(descriptor)]
    names += [of.class_name(index) for _, _, target, index in method.code.handlers if target == offset and index]
    return list(dict.fromkeys(name for name in map(classfile.class_of_type, names) if name))


def is_missing(told, of, name):
    """Whether no file has a class; where no list is known, whether it may be so."""
    known = told.known()
    if known is not None:
        return name not in known
    return name not in ("java/lang/Object", told.refusal.of)


def in_no_file(told):
    return ": no file of the list has it" if told.known() is not None else " (or name the list: `explain .. LIST`)"


def of_member(told, of, method):
    """Of the member that an instruction names: what it is, and what of that name there is."""
    data, offset = method.code.data, told.refusal.offset
    if offset not in opcodes.offsets(data) or data[offset] not in opcodes.MEMBERS:
        return [f"refused: {name}" for name in names_at(of, method, offset)]
    owner, name, descriptor = of.named_member(opcodes.index_at(data, offset))
    spelt = name + ("" if descriptor.startswith("(") else ":") + descriptor
    found = [f"{'missing' if told.rule == 205 else 'refused'}: {spelt} of {owner}"]
    if owner.startswith("["):
        return found + ["an array has no members on the card"]
    for holder, member in told.around().members_named(owner, name)[:5]:
        words = " ".join(word for bit, word in FLAGS[:5] + FLAGS[7:8] if member.flags & bit)
        found.append(f"  {holder.name} has {member.spelt()}" + (f", {words}" if words else ""))
    return found


def of_statement(of, method, offset):
    """The static field whose first value the statement at an offset of an initialiser gives."""
    for place in opcodes.offsets(method.code.data):
        if place >= offset and method.code.data[place] == FIELD_PUT:
            owner, name, descriptor = of.named_member(opcodes.index_at(method.code.data, place))
            return [f"the field whose first value it gives: {owner}.{name}:{descriptor}"]
    return ["it gives no field its first value"]
