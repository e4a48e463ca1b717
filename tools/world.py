"""The classes of a list's files by their names: which there are, and where a member is declared."""
import os

import classfile
import exportfile
import listfile
import opcodes


def find(name, listing_path):
    """Where a file that a list names stands: from the current folder, or else from the list's; None where nowhere."""
    for path in (name, os.path.join(os.path.dirname(listing_path or ""), name)):
        if os.path.isfile(path):
            return path
    return None


class World:
    """What the files of a list give, without a word of those that can't be read."""

    def __init__(self, listing, path):
        self.listing, self.classes, self.own, self.unread = listing, {}, {}, []
        self.exports = []
        for name in listing.classes:
            self.add(name, find(name, path), self.add_class)
        for name in listing.exports:
            self.add(name, find(name, path), self.add_export)

    def add(self, name, path, how):
        try:
            if path is None:
                raise OSError
            how(name, path)
        except (OSError, classfile.BadClass, exportfile.BadExport):
            self.unread.append(name)

    def add_class(self, name, path):
        of = classfile.read(path)
        self.own[of.name] = (name, of, path)
        self.classes.setdefault(of.name, of)

    def add_export(self, name, path):
        of = exportfile.read(path)
        self.exports.append((name, of))
        for each in of.classes:
            self.classes.setdefault(each.name, each)

    def above(self, name):
        """The class of a name and all that stands above it, that some file has, each once."""
        found, waiting = [], [name]
        while waiting:
            of = self.classes.get(waiting.pop(0))
            if of is not None and of not in found:
                found.append(of)
                waiting += [*(getattr(of, "supers", None) or [of.super]), *of.interfaces]
        return found

    def supers(self, name):
        """The names of all superclasses that files list of a class and of what stands above it."""
        return {s for of in self.above(name) for s in [of.super, *getattr(of, "supers", [])] if s}

    def members_named(self, owner, name):
        """The members of a name in a class and above it, each with its class."""
        return [(of, m) for of in self.above(owner) for m in of.fields + of.methods if m.name == name]

    def callers(self, owner, spelt):
        """The instructions of own classes that call a method: (class, path, method, offset)."""
        return [call for _, of, path in self.own.values() for call in calls_in(of, path, owner, spelt)]


def calls_in(of, path, owner, spelt):
    found = []
    for method in of.methods:
        for at in opcodes.offsets(method.code.data) if method.code else []:
            if method.code.data[at] in opcodes.MEMBERS:
                named, name, descriptor = of.named_member(opcodes.index_at(method.code.data, at))
                if (named, name + descriptor) == (owner, spelt):
                    found.append((of, path, method, at))
    return found


def of_list(path):
    """The world of a list, or None where there is no such file."""
    try:
        return World(listfile.read(path), path)
    except OSError:
        return None


def beside(path):
    """The world of the class files in the folder of one, for where no list is known."""
    folder = os.path.dirname(path)
    listing = listfile.Listing(b"")
    listing.classes = [os.path.join(folder, name) for name in sorted(os.listdir(folder or "."))
                       if name.endswith(".class")]
    return World(listing, None)
