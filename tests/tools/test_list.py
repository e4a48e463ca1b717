"""What is told of a malformed list, and where."""
import os
import unittest

import listfile
from common import CONVERTER, Run, folder_of, jcconv, write

GOOD = b"package p A000000001 1.0\n"
# the line that is malformed, what stands before it, and what is told
WRONG = [
    (b"class T.class ", GOOD, "there is a space at its end"),
    (b" class T.class", GOOD, "it begins with a space"),
    (b"class\tT.class", GOOD, "there is a tab at byte 6 of the line"),
    (b"\tclass T.class", GOOD, "there is a tab at byte 1 of the line"),
    (b"applet p/T A00000000101\t", GOOD, "there is a tab at its end"),
    (b"applet p/T A00000000101 ", GOOD, "there is a space at its end"),
    (b"applet p/T\tA00000000101", GOOD, "there is a tab at byte 11 of the line"),
    (b"\xef\xbb\xbfpackage p A000000001 1.0", b"", "byte order mark"),
    (b"\xff\xfep\0a\0c\0", b"", "UTF-16"),
    (b"package p 0xA000000001 1.0", b"# a comment\n\n",
     "the AID `0xA000000001` begins with `0x`; write its digits alone: A000000001"),
    (b"package p 0xA0:0x00:0x00:0x00:0x01 1.0", b"", "write its digits alone: A000000001"),
    (b"package p A0:00:00:00:01 1.0", b"", "no hexadecimal digits"),
    (b"package p A00000001 1.0", b"", "has 9 digits, an odd number"),
    (b"package p A0000000 1.0", b"", "has 4 bytes; an AID has 5 to 16"),
    (b"package p " + b"A0" * 17 + b" 1.0", b"", "has 17 bytes"),
    (b"package com.example.p A000000001 1.0", b"", "joined by slashes: com/example/p"),
    (b"package p/ A000000001 1.0", b"", "an empty part"),
    (b"package p-q A000000001 1.0", b"", "no letter of ASCII"),
    (b"package p A000000001 1", b"", "not two decimal numbers"),
    (b"package p A000000001 1.256", b"", "a number above 255"),
    (b"package p A000000001", b"", "it has 3 words; the form is: package NAME AID MAJOR.MINOR"),
    (b"class T.class", b"", "has to be the package line"),
    (b"package p A000000001 1.0", GOOD, "a second package line"),
    (b"int", GOOD + b"int\n", "a second line `int`"),
    (b"int 1", GOOD, "it has 2 words; the form is: int"),
    (b"int", b"", "has to be the package line"),
    (b"INT", GOOD, "in small letters: int"),
    (b"Class T.class", GOOD, "in small letters: class"),
    (b"import lang.exp", GOOD, "`import` begins no line"),
    (b"class My T.class", GOOD, "it has 3 words"),
    (b"package p A000000001 1.0\r", b"", "carriage return at its end"),
    (b"applet p.T A00000000101", GOOD, "joined by slashes: p/T"),
    (b"class T.class", GOOD + b"class T.class\n" * 1024, "there are 1024 class lines before it"),
    (b"export x.exp", GOOD + b"export x.exp\n" * 128, "there are 128 export lines before it"),
]


class Lists(unittest.TestCase):
    """Malformed lines."""

    def test_wrong_lines(self):
        for line, before, told in WRONG:
            listing = listfile.Listing(before + line)
            self.assertIsNotNone(listing.wrong, line)
            self.assertEqual(listing.wrong[0].at, len(before), line)
            self.assertTrue(any(told in each for each in listing.wrong[1]), (line, listing.wrong[1]))

    def test_good_lines(self):
        text = (b"# c\r\n\r\npackage p/q A000000001 001.255\r\nclass  T.class\nexport a\tb\napplet p/q/T a00000000101\n"
                b"int\r\nclass T\r\r\nclass last")
        listing = listfile.Listing(text)
        self.assertIsNone(listing.wrong)
        self.assertTrue(listing.ints)
        self.assertEqual((listing.package, listing.version, listing.aid.hex()), ("p/q", (1, 255), "a000000001"))
        self.assertEqual((listing.classes, listing.exports), (["T.class", "T\r", "last"], ["a\tb"]))

    def test_explained(self):
        folder = folder_of(self, list=b"# mine\npackage p A000000001 1.0\nexport lang.exp\nclass T.class \n")
        run = jcconv("explain", "refused", "107", "list", "-", "-", "48", folder=folder)
        self.assertEqual(run.status, 0)
        told = ("refused 107 list - - 48: malformed line of the list\n\nlist:4\n    class T.class\u2423\n"
                "  there is a space at its end\n\n### 107 ")
        self.assertEqual(run.out[:len(told)], told)

    def test_explained_without_lines(self):
        folder = folder_of(self, list=b"# mine\n")
        self.assertIn("no line but empty ones", jcconv("explain", "refused 107 list - - 7", folder=folder).out)

    def test_changed_list(self):
        folder = folder_of(self, list=GOOD + b"class T.class\n")
        self.assertIn("the list changed", jcconv("explain", "refused 107 list - - 25", folder=folder).out)

    @unittest.skipUnless(CONVERTER, "needs a converter")
    def test_the_converter_says_the_same(self):
        folder = folder_of(self)
        for line, before, _ in WRONG:
            write(os.path.join(folder, "list"), before + line)
            run = Run([CONVERTER, "convert", "list", "out"], folder)
            self.assertEqual(run.err, f"refused 107 list - - {len(before)}\n", line)
