"""What is told of a refusal at a file that is no class with members: a list, a script, an export file, a component,
or a class file of another version."""
import os

import card
import components
import exportfile
import items
import listfile

# the classes of java/lang without which no package is converted
NEEDED = ["Object", "Throwable", "ArithmeticException", "ArrayIndexOutOfBoundsException", "ArrayStoreException",
          "ClassCastException", "NegativeArraySizeException", "NullPointerException"]


def lines(told, data):
    """What is said of a refusal at such a file."""
    rule, offset = told.rule, told.refusal.offset
    if rule == 107:
        return of_list(data, told.refusal.file, offset)
    if rule == 105:
        return [f"{told.refusal.file}:{line_number(data, offset)}", f"    {shown(line_at(data, offset))}"]
    if rule == 102:
        return of_version(data)
    if rule == 104:
        return of_export(data, offset)
    if rule == 309:
        return of_applets(told)
    if rule == 207:
        return of_language(told)
    if data[:4] == b"\x00\xfa\xca\xde":
        return of_export_class(told, data)
    if rule == 101:
        return [f"{told.refusal.file}, byte {offset} of {len(data)}: {kind(data)}"]
    return [f"{told.refusal.file} as a whole" if not offset else f"{told.refusal.file}, byte {offset} of {len(data)}"]


def line_number(data, offset):
    return data[:offset].count(b"\n") + 1


def line_at(data, offset):
    return data[offset:].split(b"\n")[0]


def shown(line):
    """A line so that what is not seen in it is."""
    text = line.decode("utf-8", "backslashreplace")
    for unseen, escape in (("\t", "\\t"), ("\r", "\\r"), ("\ufeff", "\\ufeff")):
        text = text.replace(unseen, escape)
    return text[:-1] + "\u2423" if text.endswith(" ") else text


def of_list(data, name, offset):
    """What is wrong in a list."""
    if offset >= len(data):
        return [f"{name} has no line but empty ones and comments; it begins with: package NAME AID MAJOR.MINOR"]
    wrong = listfile.Listing(data).wrong
    found = [f"{name}:{line_number(data, offset)}", f"    {shown(line_at(data, offset))}"]
    if wrong is None or wrong[0].at != offset:
        return found + ["the list changed since the refusal"]
    return found + [f"  {fault}" for fault in wrong[1]]


def of_version(data):
    major = int.from_bytes(data[6:8], "big")
    release = f"Java {major - 44}" if major > 48 else "no Java that is known"
    return [f"major version {major}, which is {release}; 45 to 52 are read, 52 is Java 8"]


def kind(data):
    """What a file is by how it begins."""
    if not data:
        return "it is empty"
    begins = [(b"\xca\xfe\xba\xbe", "it begins as a class file does"), (b"\x00\xfa\xca\xde", "it is an export file"),
              (b"PK", "it is a JAR or CAP file; name the files that are packed in it"),
              (b"\x01", "it may be a component")]
    return next((words for magic, words in begins if data.startswith(magic)), "it begins as none of the files does")


def of_export(data, offset):
    """Why a file is no export file, where that is seen."""
    if data[:4] == b"\x00\xfa\xca\xde" and len(data) > 5 and offset in (4, 5):
        return [f"it is an export file of format {data[5]}.{data[4]}; formats 2.1 and 2.2 are read"]
    if data[:4] != b"\x00\xfa\xca\xde":
        return [f"byte {offset} of {len(data)}: {kind(data)}"]
    return [f"byte {offset} of {len(data)}" + (", its end: the file is cut" if offset >= len(data) - 1 else "")]


def of_export_class(told, data):
    try:
        of = exportfile.ExportFile(data)
    except exportfile.BadExport as fault:
        return [f"{told.refusal.file} can't be read any more as an export file: {fault}"]
    words = " ".join(filter(None, [told.refusal.of, told.refusal.member]))
    package = f"{of.package} {of.version[0]}.{of.version[1]}"
    return [f"{told.refusal.file}, the export file of {package}" + (f": {words}" if words else "")]


def of_component(refusal, folder):
    """Where in a component a refusal points. The refusal does not tell its folder: it is the one that is named, or else
    the current one or its folder out."""
    name, tag = refusal.file, (refusal.offset - 1) // 2
    if refusal.rule == 701 and name == components.FILES[1] and 3 <= refusal.offset < 27:
        return [f"Directory's size of {components.FILES[tag - 1]}: it is not that of the file, or the file is missing"]
    for place in [folder] if folder else [".", "out"]:
        found = in_component(place, name, refusal.offset)
        if found:
            return found
    return [f"byte {refusal.offset} of the file {name}, whose tag and size are bytes 0 to 2"]


def component(folder, name):
    """The bytes of a component in a folder, or none."""
    try:
        with open(os.path.join(folder, name), "rb") as source:
            return source.read()
    except OSError:
        return b""


def in_component(folder, name, offset):
    """The item of a component at an offset; of Method.cap the header or the instruction."""
    data = component(folder, name)
    if name == "Method.cap" and data:
        found = card.place(component(folder, "Descriptor.cap"), data, offset)
        if found:
            return found
    for at, size, label in items.items(name, data):
        if at <= offset < at + size and label:
            return [f"{name}, byte {offset}: {label}, {data[at:at + min(size, 8)].hex(' ').upper()}"]
    return []


def of_language(told):
    """What of java/lang the export files of a list do not have."""
    exports = told.world.exports if told.world else []
    found = [(file, {each.name for each in of.classes}) for file, of in exports if of.package == "java/lang"]
    if not found:
        return [f"{told.refusal.file}: no export file that it names is that of java/lang"]
    lacking = [name for name in NEEDED if "java/lang/" + name not in found[0][1]]
    return [f"{found[0][0]}: java/lang lacks {', '.join(lacking)}" if lacking else
            f"{found[0][0]}: an exception of java/lang is no subclass of Throwable there"]


def of_applets(told):
    """Which applet line breaks 309."""
    found, seen = [], {}
    for name, aid in told.world.listing.applets if told.world else []:
        fault = applet_fault(told.world, name)
        if aid in seen:
            fault = f"its AID is that of {seen[aid]} too"
        seen.setdefault(aid, name)
        if fault:
            found.append(f"applet {name} {aid.hex().upper()}: {fault}")
    return found or [f"{told.refusal.file}: its applet lines"]


def applet_fault(world, name):
    if name not in world.own:
        return "no class file of the list has this class"
    of = world.own[name][1]
    if of.flags & 0x0400:
        return "the class is abstract"
    if "javacard/framework/Applet" not in world.supers(name):
        return f"it is no subclass of javacard/framework/Applet by the files of the list, but of {of.super}"
    install = of.find("install([BSB)V")
    if install is None:
        return "it declares no `public static void install(byte[] b, short o, byte l)`"
    return "" if install.flags & 0x9 == 0x9 else "its install method is not public static"
