"""`jcconv advise`: what is allowed in a list and its files and likely wrong."""
import sys

import classfile
import helping
import listfile
import world

APPLET, ABSTRACT = "javacard/framework/Applet", 0x0400


def package_of(name):
    return name.rpartition("/")[0]


def unlisted_applets(of):
    """Classes below Applet that no applet line names."""
    listed = {name for name, _ in of.listing.applets}
    for name, (file, each, _) in of.own.items():
        if APPLET in of.supers(name) and not each.flags & ABSTRACT and name not in listed:
            yield f"{file}: {name} is below {APPLET} and has no applet line: no card can install it"


def odd_aids(of):
    """AIDs of applets that do not fit the package's, and of the package that are those of imports."""
    aid = of.listing.aid
    for name, other in of.listing.applets:
        if other == aid:
            yield f"applet {name}: its AID {other.hex().upper()} is the package's own; a card has each AID once"
        elif other[:5] != aid[:5]:
            yield (f"applet {name}: its AID begins with {other[:5].hex().upper()}, the package's with"
                   f" {aid[:5].hex().upper()}: an applet has the RID, the first five bytes, of its package")
    for file, export in of.exports:
        if export.aid == aid:
            yield f"{file}: {export.package} has the AID of the package itself"


def names_in(of):
    """The classes that a class file names, as far as its constant pool is one."""
    names = set()
    for tag, *parts in of.pool.values():
        try:
            if tag == 7:
                names.add(classfile.class_of_type(of.text(parts[0])))
            elif tag == 12:
                names.update(classfile.classes_of(of.text(parts[1])))
        except classfile.BadClass:
            pass
    for member in of.fields + of.methods:
        names.update(classfile.classes_of(member.descriptor))
    return names


def used_names(of):
    """The classes that own class files name, and all that stands above them."""
    names = {name for _, each, _ in of.own.values() for name in names_in(each) if name}
    for name in list(names):
        for above in of.above(name):
            names.update([above.name, *above.interfaces])
        names |= of.supers(name)
    return names


def unused_exports(of):
    """Export files whose package no class names, java/lang aside, which every package needs."""
    packages = {package_of(name) for name in used_names(of)}
    for file, export in of.exports:
        if export.package not in packages and export.package != "java/lang":
            yield (f"{file}: no class of the list uses {export.package};"
                   " a card has to have every package that is imported")


def disordered_classes(of):
    """The first class line that stands behind one of a greater name."""
    names = [(name, file) for name, (file, _, _) in of.own.items()]
    files = [file for _, file in names]
    if files == sorted(files):
        return
    for (name, file), (after, other) in zip(names, names[1:]):
        if after < name:
            yield (f"{file} stands before {other}: class lines are not in the order of their classes' names. Their"
                   " order gives the tokens, so keep it from release to release (docs/EXPORTS.md)")
            return


def unread_files(of):
    for name in of.unread:
        yield f"{name!r} is not found, or can't be read; nothing is told of it"


def advice(of):
    """All that is told of a list, line by line."""
    for told in (unread_files, unlisted_applets, odd_aids, unused_exports, disordered_classes):
        yield from told(of)


def main(words):
    """Prints advice on a list; gives the exit status."""
    if len(words) != 1:
        return helping.usage("advise")
    try:
        listing = listfile.read(words[0])
    except OSError:
        print(f"absent {words[0]}", file=sys.stderr)
        return 3
    if listing.wrong or listing.package is None:
        at = listing.wrong[0].at if listing.wrong else len(listing.data)
        print(f"refused 107 {words[0]} - - {at}", file=sys.stderr)
        return 2
    for line in advice(world.World(listing, words[0])):
        print(line)
    return 0
