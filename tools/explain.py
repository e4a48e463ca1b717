"""`jcconv explain`: what a refusal says, where in the source it points, and the section of its rule."""
import os
import sys

import classfile
import components
import files
import methods
import rules
import world
from source import Source

USE = """usage: jcconv explain RULE
       jcconv explain 'refused RULE FILE CLASS MEMBER OFFSET' [LIST or DIR]
       jcconv convert LIST DIR 2>&1 | jcconv explain - [LIST or DIR]"""
# the rules whose file is the list
OF_LISTS = {107, 108, 207, 309, 401, 402, 407, 408, 409, 411, 414, 416}
# the rules that `link` tells of a class at its package's list
OF_GROUPS = {203, 735}
OTHER = {
    "absent": "No file has this name. Names are used as they stand in the list, from the folder where you run jcconv.",
    "too long": "The file has more than 262,144 bytes, which no file that is read may have.",
    "shelf fault": "The system could not open, read, make or write the file: is its folder there, and may you write?",
    "sink fault": "Standard output did not take all of the text.",
    "no memory": "There was no memory left.",
    "usage:": "The words are of no form that the program has: `jcconv --help` tells the forms.",
}


class Refusal:
    """The parts of a line `refused RULE FILE CLASS MEMBER OFFSET`; a part that does not apply is None."""

    def __init__(self, words):
        if len(words) < 6 or words[0] != "refused" or not words[1].isdigit() or not words[-1].isdigit():
            raise ValueError(" ".join(words))
        self.rule, self.offset = int(words[1]), int(words[-1])
        self.file = " ".join(words[2:-3])
        self.of, self.member = (None if word == "-" else word for word in words[-3:-1])
        self.line = " ".join(words)


class Told:
    """A refusal with the files that it speaks of, as far as they are found."""

    def __init__(self, refusal, listing):
        self.refusal, self.rule = refusal, refusal.rule
        self.folder = listing if listing and os.path.isdir(listing) else None
        listing = None if self.folder else listing
        if listing is None:
            listing = refusal.file if self.rule in OF_LISTS else "list" if lists("list", refusal.file) else None
        self.world = world.of_list(listing) if listing else None
        self.path = world.find(refusal.file, listing)

    def lines(self):
        """What is to be said of the place, line by line."""
        if self.refusal.file in components.FILES:
            return files.of_component(self.refusal, self.folder)
        if self.path is None:
            return [f"{self.refusal.file} is not found from this folder, so its place in the source is not told."]
        with open(self.path, "rb") as file:
            data = file.read()
        if self.refusal.of is None or data[:4] == b"\x00\xfa\xca\xde":
            return files.lines(self, data)
        if self.rule in OF_GROUPS and data[:4] != b"\xca\xfe\xba\xbe":
            return [f"{self.refusal.of} is the class, of the package that this list names in its group."]
        try:
            of = classfile.ClassFile(data)
            if of.name != self.refusal.of:
                return [f"{self.refusal.file} is now class {of.name}, not {self.refusal.of}: it changed since then."]
            return methods.lines(self, of, Source(of, self.path))
        except classfile.BadClass as fault:
            return [f"{self.refusal.file} can't be read as a class file: {fault}."]

    def known(self):
        """The classes that files have, or None where no list is known."""
        return None if self.world is None else self.world.classes

    def around(self):
        """The classes of the list, or else those in the folder of the class file."""
        return self.world or world.beside(self.path)


def lists(path, name):
    of = world.of_list(path)
    return of is not None and name in [path, *of.listing.classes, *of.listing.exports]


def whole(refusal, listing):
    """All that is printed of a refusal."""
    section = rules.section(refusal.rule)
    if not section:
        raise LookupError(refusal.rule)
    title = section.split("\n")[0].split(" ", 2)[2]
    told = [f"{refusal.line}: {title}", "", *Told(refusal, listing).lines(), "", section]
    return "\n".join(told)


def unknown(rule):
    """Says that there is no such rule, and which there are."""
    print(f"jcconv: there is no rule {rule}", file=sys.stderr)
    print(f"The rules:\n\n{rules.all_rules()}")
    return 1


def explain_line(words, listing):
    try:
        print(whole(Refusal(words), listing))
    except ValueError:
        print(f"jcconv: this is no refusal: {' '.join(words)}\n{USE}", file=sys.stderr)
        return 1
    except LookupError as rule:
        return unknown(rule)
    return 0


def explain_input(listing):
    """Explains the first line of standard input that says how a run ended."""
    for line in sys.stdin:
        line = line.rstrip("\r\n")
        if line.startswith("refused "):
            return explain_line(line.split(" "), listing)
        for begin, meaning in OTHER.items():
            if line.startswith(begin):
                print(f"{line}\n\n{meaning}\nSee docs/COMMANDS.md, \"How a run ends\".")
                return 0
    print("jcconv: no line of the input is a refusal", file=sys.stderr)
    return 1


def main(words):
    """Explains a rule, a refusal, or the refusal in standard input; gives the exit status."""
    if not words:
        print(f"{USE}\n\nThe rules:\n\n{rules.all_rules()}")
        return 0
    if words[0] == "-" and len(words) <= 2:
        return explain_input(words[1] if len(words) == 2 else None)
    if words[0].startswith("refused ") and len(words) <= 2:
        return explain_line(words[0].split(), words[1] if len(words) == 2 else None)
    if words[0] == "refused":
        with_list = len(words) > 6 and not words[-1].isdigit()
        return explain_line(words[:-1] if with_list else words, words[-1] if with_list else None)
    if len(words) == 1 and words[0].isdigit():
        section = rules.section(words[0])
        return unknown(words[0]) if not section else print(section) or 0
    print(USE if len(words) > 1 else f"jcconv: there is no rule {words[0]}\n{USE}", file=sys.stderr)
    return 1
