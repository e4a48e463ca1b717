"""What there is: the help of `jcconv`, of each of its words, and its version."""
import os
import subprocess
import sys

TOP = os.path.dirname(os.path.dirname(os.path.abspath(__file__)))
# which program runs, and how it is built or proved
PROGRAM = os.path.join(TOP, "tools", "program")
# as the first heading of CHANGELOG.md has them
VERSION, STATE = "0.1.0", "not released"

# of each word: its form, what it does, and an example
WORDS = {
    "convert": ("convert LIST DIR", """
        reads the list and the files that it names, and writes the components of the package and its export file into
        the folder DIR""",
        "cd examples/first && mkdir -p out && ../../jcconv convert list out"),
    "check": ("check LIST DIR", """
        tells whether the components in the folder DIR are consistent with each other and with the export files that
        the list names; prints ok, and writes nothing""",
        "cd examples/first && ../../jcconv check list out"),
    "jvm": ("jvm LIST SCRIPT N", """
        runs at most N instructions of the class files that the list names, called by the script, and prints what was
        called, given back and thrown, and what is in memory at the end""",
        "cd examples/wallet && ../../jcconv jvm list script 10000"),
    "card": ("card LIST DIR SCRIPT N", """
        runs at most N instructions of the components in the folder DIR, as jvm runs class files""",
        "cd examples/wallet && ../../jcconv card list out script 10000"),
    "make": ("make NUMBER SIZE", """
        makes a package of SIZE classes (1 to 250) from a number, converts it, runs class files and components, and
        tells how that went; reads and writes no file""",
        "jcconv make 7 3"),
    "verify": ("verify LIST DIR", """
        tests the types of the components in the folder DIR against the class files that the list names: whether each
        instruction finds what it needs; prints ok, and writes nothing""",
        "cd examples/wallet && ../../jcconv verify list out"),
    "link": ("link GROUP SCRIPT N", """
        runs at most N instructions of the components of several packages together, as card runs those of one; GROUP
        has a line LIST DIR for each, a package behind those that it imports""",
        "cd examples/loyalty && ../../jcconv link group script 10000"),
    "linkjvm": ("linkjvm GROUP SCRIPT N", """
        runs at most N instructions of the class files of several packages together, as jvm runs those of one""",
        "cd examples/loyalty && ../../jcconv linkjvm group script 10000"),
    "compat": ("compat OLD NEW", """
        tells whether a new version of a package may stand in the place of the old one, by their export files; prints
        ok, and writes nothing""",
        "cd tests/cases/compat_a_new_method && ../../../jcconv compat in/old.exp in/new.exp"),
    "explain": ("explain RULE, explain 'REFUSAL' [LIST], explain - [LIST]", """
        what a refusal means, where in the source it points, and how to repair it: by the number of a rule, the whole
        line, or the line on standard input""",
        "jcconv convert list out 2>&1 | jcconv explain -"),
    "pack": ("pack [--deflate] DIR FILE.cap [LIST]", """
        writes the components in the folder DIR into a CAP file, as loaders take it; with the list it names the
        applets' classes too""",
        "cd examples/wallet && ../../jcconv pack out out/wallet.cap list"),
    "unpack": ("unpack FILE.cap DIR", """
        writes the components of a CAP file, of whatever converter, into the folder DIR, for check and card""",
        "mkdir -p parts && jcconv unpack wallet.cap parts"),
    "advise": ("advise LIST", """
        tells what is allowed in a list and likely wrong, a line each""",
        "cd examples/wallet && ../../jcconv advise list"),
}

OTHERS = """  jcconv --prove             proves the converter and builds it, which takes hours; what is proved runs from
                             then on. Without it a program is built without its proofs, in minutes, and each run
                             says so
  jcconv --version           the version, which of the two would run, the kit, and what is converted
  jcconv --help, -h, help    this text; jcconv WORD --help the part of it on one word"""
# words that no other word may follow
ALONE = ("--help", "-h", "--version", "--prove")

PAGES = [("COMMANDS", "commands, the list, exit statuses, what stands after each answer"),
         ("RULES", "each refusal, its place, and its repair"),
         ("EXPORTS", "where export files come from, and how a library's own stays stable"),
         ("FORMATS", "class files, export files, components"),
         ("MACHINES", "what a run of class files and of components is"),
         ("PROVED", "what is proved, and what is not")]


def wrapped(text, first, rest, width=118):
    """The words of a text in lines of a width, the first behind one beginning and the others behind another."""
    lines, line = [], first
    for word in text.split():
        if len(line) + 1 + len(word) > width and line.strip():
            lines.append(line)
            line = rest
        line += word if not line or line.endswith(" ") else " " + word
    return lines + [line]


def of_word(word):
    form, text, example = WORDS[word]
    begin = f"  jcconv {form}"
    lines = [begin] if len(begin) > 28 else []
    lines += wrapped(text, " " * 29 if lines else begin.ljust(29), " " * 29)
    return "\n".join(lines + [f"      {example}"])


def everything():
    parts = ["jcconv converts a Java Card package: class files and export files into the components that a card"
             " loads.\nIt also tests components, runs class files and components, and packs components into CAP files."]
    parts += [of_word(word) for word in WORDS]
    parts.append(OTHERS)
    pages = "\n".join(f"  docs/{name + '.md':14} {text}" for name, text in PAGES)
    words = f"Words are completed in bash after: . {TOP}/tools/completion.bash"
    return "\n\n".join([*parts, f"Pages, in {TOP}:\n{pages}\n{words}"])


def version_lines():
    """The version, which program would run, and what it converts."""
    which = subprocess.run([sys.executable, PROGRAM, "which"], stdout=subprocess.PIPE, check=False, text=True).stdout
    return f"jcconv {VERSION}, {STATE}\n{which}converts every package that breaks no rule, int too"


def usage(word):
    print(f"usage: jcconv {WORDS[word][0]}", file=sys.stderr)
    return 1


def is_asked(words):
    """Whether the words ask for help or the version, or there are none, or more than may stand together."""
    return not words or words[0] in ("help", *ALONE) or (len(words) == 2 and words[1] in ("-h", "--help"))


def main(words):
    """Prints what is asked; without any words the same on standard error, with the status of the usage line."""
    if not words:
        print(everything(), file=sys.stderr)
        return 1
    if len(words) > 1 and words[0] in ALONE:
        return wrong(f"these words stand alone: {', '.join(ALONE)}")
    if len(words) > 2:
        return wrong("help takes one word")
    if words == ["--version"]:
        print(version_lines())
    elif len(words) == 1:
        print(everything())
    else:
        return help_of(words[1] if words[0] == "help" else words[0])
    return 0


def help_of(word):
    if word not in WORDS:
        return wrong(f"there is no word {word}; there are: {', '.join(WORDS)}")
    print(of_word(word))
    return 0


def wrong(why):
    print(f"jcconv: {why}", file=sys.stderr)
    return 1
