"""From a class file to the source that it came from: which line a class, a member or an instruction stands on."""
import os
import re

WORDS = {"B": "byte", "C": "char", "D": "double", "F": "float", "I": "int", "J": "long", "S": "short", "Z": "boolean",
         "V": "void"}
COMMENT = re.compile(r"\s*(\*|//|/\*)")


class Source:
    """The source of a class file: its name by SourceFile, and its lines where it stands beside the class file."""

    def __init__(self, of, path):
        self.of = of
        outer = of.name.split("/")[-1].split("$")[0]
        self.name = of.source or outer + ".java"
        self.lines = None
        for folder in dict.fromkeys([os.path.dirname(path), ""]):
            try:
                with open(os.path.join(folder, self.name), encoding="utf-8", errors="replace") as text:
                    self.lines = text.read().split("\n")
                    return
            except OSError:
                pass

    def text(self, number):
        """A line by its number from 1 on, or None."""
        return self.lines[number - 1].rstrip("\r") if self.lines and number and number <= len(self.lines) else None

    def place(self, number):
        """`NAME:NUMBER`, with the line below where the source is there."""
        told = f"{self.name}:{number}"
        text = self.text(number)
        return told if text is None else f"{told}\n    {text.strip()}"

    def search(self, pattern, first=1):
        """The number of the first line from a given one on that a pattern is in, comments passed over."""
        for number, line in enumerate(self.lines or [], 1):
            if number >= first and not COMMENT.match(line) and re.search(pattern, line):
                return number
        return None

    def class_line(self):
        simple = re.split(r"[/$]", self.of.name)[-1]
        found = self.search(rf"\b(class|interface|enum)\s+{re.escape(simple)}\b")
        return found or min((n for m in self.of.methods if m.code for _, n in m.code.lines), default=None)

    def member_line(self, member):
        """Where a field or a method is declared, as far as that can be told."""
        if not member.descriptor.startswith("("):
            return self.field_line(member)
        if member.name == "<clinit>":
            return member.code.line_at(0) if member.code else None
        name = re.split(r"[/$]", self.of.name)[-1] if member.name == "<init>" else member.name
        body = member.code.line_at(0) if member.code else None
        if body is None:
            return self.search(rf"(^|[^.\w$]){re.escape(name)}\s*\(", self.class_line() or 1)
        for number in range(body, 0, -1):
            line = self.text(number)
            if line is None:
                break
            if not COMMENT.match(line) and re.search(rf"[\w>\]]\s+{re.escape(name)}\s*\(", line):
                return number
        return body

    def field_line(self, member):
        inner = member.descriptor.lstrip("[")
        word = WORDS.get(inner) or re.split(r"[/$]", inner[1:-1])[-1]
        name = re.escape(member.name)
        first = self.class_line() or 1
        return (self.search(rf"\b{re.escape(word)}\b[^;(){{}}]*[^.\w$]{name}\s*(=|;|,|\[|$)", first)
                or self.search(rf"[^.\w$]{name}\s*(=|;|,|\[|$)", first))
