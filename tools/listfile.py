"""A list, as docs/COMMANDS.md has it, read for telling: what a line says, or what is wrong in it."""
import re

NAME = re.compile(rb"[A-Za-z0-9_$]+(/[A-Za-z0-9_$]+)*\Z")
FORMS = {b"package": "package NAME AID MAJOR.MINOR", b"applet": "applet CLASS AID", b"class": "class FILE",
         b"export": "export FILE", b"int": "int"}
LIMITS = {b"class": 1024, b"export": 128}


class Line:
    """A line that is not passed over: its number from 1 on, the offset of its first byte, its bytes, its words."""

    def __init__(self, number, at, text):
        self.number, self.at, self.text = number, at, text
        self.words = [word for word in text.split(b" ") if word]


class Listing:
    """What the well-formed lines say, up to the first malformed one: `wrong` is that line and what is wrong in it."""

    def __init__(self, data):
        self.data, self.wrong = data, None
        self.package = self.aid = self.version = None
        self.applets, self.classes, self.exports, self.ints = [], [], [], False
        for line in lines_of(data):
            told = self.fault(line)
            if told:
                self.wrong = (line, told)
                return
            self.keep(line)

    def fault(self, line):
        """What is wrong in a line that stands behind those read so far, or nothing."""
        if told := fault_of_text(line.text):
            return told
        word = line.words[0]
        if self.package is None and word != b"package":
            return ["the first line that is not passed over has to be the package line: package NAME AID MAJOR.MINOR"]
        if word not in FORMS:
            return [unknown_word(word)]
        if len(line.words) != len(FORMS[word].split()):
            return [f"it has {len(line.words)} words; the form is: {FORMS[word]}"] + fault_of_words(line.words)
        if word == b"package" and self.package is not None:
            return ["it is a second package line; a list is of one package"]
        if word == b"int" and self.ints:
            return ["it is a second line `int`; one says it"]
        kept = {b"class": self.classes, b"export": self.exports}.get(word, [])
        if len(kept) >= LIMITS.get(word, 1 << 30):
            return [f"there are {len(kept)} {word.decode()} lines before it, and no list may have more"]
        return fault_of_words(line.words)

    def keep(self, line):
        words = [word.decode("utf-8", "surrogateescape") for word in line.words]
        if words[0] == "package":
            self.package, self.aid = words[1], bytes.fromhex(words[2])
            self.version = tuple(int(part) for part in words[3].split("."))
        elif words[0] == "applet":
            self.applets.append((words[1], bytes.fromhex(words[2])))
        elif words[0] == "int":
            self.ints = True
        else:
            (self.classes if words[0] == "class" else self.exports).append(words[1])


def lines_of(data):
    """The lines that are not passed over."""
    at, pieces, found = 0, data.split(b"\n"), []
    for number, piece in enumerate(pieces, 1):
        text = piece[:-1] if piece.endswith(b"\r") and number < len(pieces) else piece
        if text and not text.startswith(b"#"):
            found.append(Line(number, at, text))
        at += len(piece) + 1
    return found


def fault_of_text(text):
    """What is wrong in a line before its words are asked for."""
    if text.startswith(b"\xef\xbb\xbf"):
        return ["it begins with a byte order mark (EF BB BF): save the list as UTF-8 without one"]
    if b"\0" in text or text.startswith((b"\xff\xfe", b"\xfe\xff")):
        return ["it has bytes of a text in UTF-16: save the list as plain text, UTF-8 or ASCII"]
    told = []
    if b"\t" in text.rstrip(b"\t ").lstrip(b"\t ") or text.startswith(b"\t"):
        told.append(f"there is a tab at byte {text.index(9) + 1} of the line; words are separated by spaces")
    if text.startswith(b" "):
        told.append("it begins with a space")
    if text.endswith(b" "):
        told.append("there is a space at its end")
    if text.endswith(b"\t"):
        told.append("there is a tab at its end")
    if text.endswith(b"\r"):
        told.append("there is a carriage return at its end and no line feed behind it")
    elif b"\r" in text:
        told.append("there is a carriage return inside it: lines end with a line feed")
    words = [word for word in text.split(b" ") if word]
    # a file's name may have tabs and carriage returns inside
    fits_a_name = len(words) == 2 and words[0] in LIMITS and text[:1] != b" " and text[-1:] != b" "
    return [] if fits_a_name else told


def unknown_word(word):
    shown = word.decode("utf-8", "replace")
    if word.lower() in FORMS:
        return f"`{shown}` is written in small letters: {word.lower().decode()}"
    if word.startswith((b"//", b";", b"--")):
        return "a comment begins with `#`"
    return f"`{shown}` begins no line; lines begin with package, applet, class, export or int"


def fault_of_words(words):
    """What is wrong in the words of a line of this form."""
    word, told = words[0], []
    if word in (b"package", b"applet"):
        if len(words) > 1:
            told += fault_of_name(words[1])
        if len(words) > 2:
            told += fault_of_aid(words[2])
    if word == b"package" and len(words) > 3:
        told += fault_of_version(words[3])
    return told


def fault_of_name(word):
    name = word.decode("utf-8", "replace")
    if NAME.match(word):
        return []
    if b"." in word:
        return [f"the name `{name}` has dots; its parts are joined by slashes: {name.replace('.', '/')}"]
    if not all(word.split(b"/")):
        return [f"the name `{name}` has an empty part: a slash at an end, or two in a row"]
    return [f"the name `{name}` has a character that is no letter of ASCII, digit, `_` or `$`"]


def fault_of_aid(word):
    aid = word.decode("utf-8", "replace")
    if word[:2].lower() == b"0x":
        shown = aid.replace("0x", "").replace("0X", "").replace(":", "").replace(",", "")
        return [f"the AID `{aid}` begins with `0x`; write its digits alone: {shown}"]
    if re.search(rb"[^0-9A-Fa-f]", word):
        return [f"the AID `{aid}` has characters that are no hexadecimal digits; write two a byte, nothing between"]
    if len(word) % 2:
        return [f"the AID `{aid}` has {len(word)} digits, an odd number; write two digits a byte"]
    if not 10 <= len(word) <= 32:
        return [f"the AID `{aid}` has {len(word) // 2} bytes; an AID has 5 to 16"]
    return []


def fault_of_version(word):
    version = word.decode("utf-8", "replace")
    parts = word.split(b".")
    if len(parts) != 2 or not all(re.fullmatch(rb"[0-9]+", part) for part in parts):
        return [f"the version `{version}` is not two decimal numbers with a dot between, as 1.0"]
    if max(int(part) for part in parts) > 255:
        return [f"the version `{version}` has a number above 255"]
    return []


def read(path):
    with open(path, "rb") as source:
        return Listing(source.read())
