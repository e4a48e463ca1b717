"""`jcconv pack` and `jcconv unpack`: the CAP file of the wallet, and what is refused."""
import io
import os
import shutil
import unittest
import zipfile

import components
import packing
from common import CONVERTER, Run, TOP, WALLET, folder_of, jcconv, read, write

LIST = os.path.join(TOP, "examples", "wallet", "list")
LOADED = ["Header", "Directory", "Import", "Applet", "Class", "Method", "StaticField", "ConstantPool", "RefLocation",
          "Descriptor"]
FILES = [f"{name}.cap" for name in LOADED]
MANIFEST = """Manifest-Version: 1.0
Created-By: jcconv 0.1.0
Java-Card-Converter-Provider: jcconv
Java-Card-Converter-Version: 0.1.0
Java-Card-CAP-File-Version: 2.2
Java-Card-Package-Version: 1.0
Java-Card-Package-Name: p
Java-Card-Package-AID: 0xa0:0x00:0x00:0x00:0x01
Java-Card-Applet-1-Name: Wallet
Java-Card-Applet-1-AID: 0xa0:0x00:0x00:0x00:0x01:0x01
Java-Card-Imported-Package-1-AID: 0xf0:0x6a:0x63:0x63:0x76:0x00:0x01
Java-Card-Imported-Package-1-Version: 1.0
Java-Card-Imported-Package-2-AID: 0xf0:0x6a:0x63:0x63:0x76:0x01:0x01
Java-Card-Imported-Package-2-Version: 1.0
Java-Card-Integer-Support-Required: FALSE

"""


class Case(unittest.TestCase):
    """A folder `out` with the wallet's components."""

    def setUp(self):
        self.folder = folder_of(self)
        self.out = os.path.join(self.folder, "out")
        shutil.copytree(WALLET, self.out)

    def run_here(self, *words):
        return jcconv(*words, folder=self.folder)

    def path(self, *names):
        return os.path.join(self.folder, *names)

    def refused(self, line, status, *words):
        run = self.run_here(*(words or ("pack", "out", "w.cap")))
        self.assertEqual((run.status, run.err.split("\n")[0]), (status, line))
        self.assertFalse(os.path.exists(self.path("w.cap")) and not words)
        return run


class Pack(Case):
    """What a CAP file has."""

    def test_entries(self):
        run = self.run_here("pack", "out", "w.cap", LIST)
        self.assertEqual((run.status, run.err), (0, ""))
        sizes = [("META-INF/MANIFEST.MF", 623)] + [(f"p/javacard/{n}", len(read(WALLET, n))) for n in FILES]
        self.assertEqual(run.out, "".join(f"{name} {size}\n" for name, size in sizes))
        with zipfile.ZipFile(self.path("w.cap")) as archive:
            self.assertIsNone(archive.testzip())
            self.assertEqual([(e.filename, e.file_size) for e in archive.infolist()], sizes)
            self.assertTrue(all(e.date_time == (1980, 1, 1, 0, 0, 0) for e in archive.infolist()))
            self.assertTrue(all(e.compress_type == zipfile.ZIP_STORED for e in archive.infolist()))
            for name in FILES:
                self.assertEqual(archive.read(f"p/javacard/{name}"), read(WALLET, name))

    def test_page_shows_what_is_printed(self):
        page = read(TOP, "docs", "COMMANDS.md").decode()
        out = self.run_here("pack", "out", "w.cap", LIST).out
        self.assertIn("".join(f"    {line}\n" for line in out.splitlines()), page)

    @unittest.skipUnless(shutil.which("unzip"), "needs unzip")
    def test_unzip_lists_and_tests_it(self):
        self.run_here("pack", "out", "w.cap")
        self.run_here("pack", "--deflate", "out", "d.cap")
        for name in ("w.cap", "d.cap"):
            self.assertIn("11 files", Run(["unzip", "-l", name], self.folder).out)
            self.assertEqual(Run(["unzip", "-tq", name], self.folder).status, 0)

    def test_manifest(self):
        self.run_here("pack", "out", "w.cap", LIST)
        with zipfile.ZipFile(self.path("w.cap")) as archive:
            self.assertEqual(archive.read("META-INF/MANIFEST.MF").decode(), MANIFEST.replace("\n", "\r\n"))
        self.run_here("pack", "out", "v.cap")
        with zipfile.ZipFile(self.path("v.cap")) as archive:
            self.assertNotIn(b"Applet-1-Name", archive.read("META-INF/MANIFEST.MF"))

    def test_long_lines_of_a_manifest_are_continued(self):
        lines = packing.manifest([("Java-Card-Package-Name", "x" * 200)]).split(b"\r\n")
        self.assertTrue(all(len(line) <= 72 for line in lines))
        self.assertEqual(lines[0] + b"".join(line[1:] for line in lines[1:]), b"Java-Card-Package-Name: " + b"x" * 200)

    def test_equal_components_give_equal_files(self):
        for words in ((), ("--deflate",)):
            self.run_here("pack", *words, "out", "a.cap")
            os.utime(self.path("out", "Class.cap"), (1, 1))
            self.run_here("pack", *words, "out", "b.cap")
            self.assertEqual(read(self.path("a.cap")), read(self.path("b.cap")))

    def test_stale_components_are_left_out_and_told(self):
        shutil.copy(self.path("out", "Class.cap"), self.path("out", "Export.cap"))
        run = self.run_here("pack", "out", "w.cap")
        self.assertEqual((run.status, run.err),
                         (0, "left out Export.cap: Directory counts no such component; it is an earlier package's\n"))
        with zipfile.ZipFile(self.path("w.cap")) as archive:
            self.assertNotIn("p/javacard/Export.cap", archive.namelist())

    def test_stale_applet(self):
        directory = bytearray(read(WALLET, "Directory.cap"))
        directory[7:9] = b"\0\0"
        write(self.path("out", "Directory.cap"), bytes(directory))
        run = self.run_here("pack", "out", "w.cap")
        self.assertEqual(run.err.split(":")[0], "left out Applet.cap")
        self.assertNotIn("Applet", run.out)


class Names(Case):
    """Components without a package's name, as other converters write them."""

    def setUp(self):
        super().setUp()
        header = bytearray(read(WALLET, "Header.cap"))
        header[-2:] = b"\0"
        header[2] -= 1
        write(self.path("out", "Header.cap"), bytes(header))
        directory = bytearray(read(WALLET, "Directory.cap"))
        directory[4] -= 1
        write(self.path("out", "Directory.cap"), bytes(directory))

    def test_name_of_the_export_file(self):
        shutil.copy(os.path.join(TOP, "examples", "wallet", "lang.exp"), self.path("out", "a.exp"))
        self.assertIn("p/javacard/Header.cap 19\n", self.run_here("pack", "out", "w.cap").out)

    def test_name_of_the_list(self):
        os.unlink(self.path("out", "p.exp"))
        self.assertIn("p/javacard/Header.cap 19\n", self.run_here("pack", "out", "w.cap", LIST).out)

    def test_no_name(self):
        os.unlink(self.path("out", "p.exp"))
        self.refused("jcconv: Header has no package name, and no export file in the folder has it: name the list too",
                     1)

    def test_format_2_1(self):
        header, directory = bytearray(read(self.path("out", "Header.cap"))), read(self.path("out", "Directory.cap"))
        header[7] = 1
        header = header[:-1]
        header[2] -= 1
        write(self.path("out", "Header.cap"), bytes(header))
        sizes = bytearray(directory[3:25])
        sizes[1] -= 1
        sizes[3] -= 2
        write(self.path("out", "Directory.cap"), b"\x02\x00\x1f" + bytes(sizes) + directory[27:])
        run = self.run_here("pack", "out", "w.cap")
        self.assertEqual((run.status, run.err), (0, ""))
        with zipfile.ZipFile(self.path("w.cap")) as archive:
            self.assertIn(b"CAP-File-Version: 2.1\r\n", archive.read("META-INF/MANIFEST.MF"))


class Refused(Case):
    """What is refused, in the words of the converter."""

    def change(self, name, change):
        if change is None:
            os.unlink(self.path("out", name))
        else:
            write(self.path("out", name), change(read(WALLET, name)))

    CHANGES = [
        ("Directory.cap", None, "absent out/Directory.cap", 3),
        ("Header.cap", None, "absent out/Header.cap", 3),
        ("Class.cap", None, "absent out/Class.cap", 3),
        ("Applet.cap", None, "absent out/Applet.cap", 3),
        ("Class.cap", lambda b: b[:-1], "refused 106 Class.cap - - 1", 2),
        ("Class.cap", lambda b: b"\x07" + b[1:], "refused 106 Class.cap - - 0", 2),
        ("Class.cap", lambda b: b"", "refused 106 Class.cap - - 0", 2),
        ("Header.cap", lambda b: b[:3] + b"\0" + b[4:], "refused 106 Header.cap - - 3", 2),
        ("Directory.cap", lambda b: b[:14] + bytes([b[14] + 1]) + b[15:], "refused 701 Directory.cap - - 13", 2),
        ("Directory.cap", lambda b: b[:13] + b"\0\0" + b[15:], "refused 701 Directory.cap - - 13", 2),
    ]

    def test_each(self):
        for name, change, line, status in self.CHANGES:
            self.change(name, change)
            self.refused(line, status)
            shutil.copy(os.path.join(WALLET, name), self.out)

    @unittest.skipUnless(CONVERTER, "needs a converter")
    def test_the_converter_says_the_same(self):
        for name in ("list", "lang.exp", "framework.exp"):
            shutil.copy(os.path.join(TOP, "examples", "wallet", name), self.folder)
        for name, change, line, status in self.CHANGES:
            self.change(name, change)
            run = Run([CONVERTER, "check", "list", "out"], self.folder)
            self.assertEqual((run.status, run.err), (status, line + "\n"))
            shutil.copy(os.path.join(WALLET, name), self.out)

    def test_lists(self):
        write(self.path("list"), "package p A000000002 1.0\nclass T.class\n")
        self.refused("jcconv: list is the list of another package: its AID is not that of Header", 2, "pack", "out",
                     "w.cap", "list")
        write(self.path("list"), "package p A000000001 1.0\nclass T.class \n")
        self.refused("refused 107 list - - 25", 2, "pack", "out", "w.cap", "list")
        self.refused("absent no", 3, "pack", "out", "w.cap", "no")

    def test_words_and_folders(self):
        self.refused("usage: jcconv pack [--deflate] DIR FILE.cap [LIST]", 1, "pack", "out")
        self.refused("usage: jcconv unpack FILE.cap DIR", 1, "unpack", "w.cap")
        self.refused("absent no/Header.cap", 3, "pack", "no", "w.cap")
        self.refused("shelf fault no/w.cap", 5, "pack", "out", "no/w.cap")


class Unpack(Case):
    """The inverse of pack."""

    def packed(self, *words):
        self.assertEqual(self.run_here("pack", *words, "out", "w.cap").status, 0)
        os.mkdir(self.path("parts"))

    def test_the_same_bytes(self):
        for words in ((), ("--deflate",)):
            self.packed(*words)
            run = self.run_here("unpack", "w.cap", "parts")
            self.assertEqual((run.status, run.err), (0, ""))
            self.assertEqual(sorted(os.listdir(self.path("parts"))), sorted(FILES))
            for name in FILES:
                self.assertEqual(read(self.path("parts", name)), read(WALLET, name))
            shutil.rmtree(self.path("parts"))

    def test_lines(self):
        self.packed()
        out = self.run_here("unpack", "w.cap", "parts").out
        tags = [name for name in components.FILES if name in FILES]
        self.assertEqual(out, "".join(f"{name} {len(read(WALLET, name))}\n" for name in tags))

    def test_stale_component_is_told(self):
        self.packed()
        write(self.path("parts", "Export.cap"), b"")
        self.assertEqual(self.run_here("unpack", "w.cap", "parts").err,
                         "parts/Export.cap is no component that Directory counts\n")

    def jar_of(self, pairs):
        out = io.BytesIO()
        with zipfile.ZipFile(out, "w") as archive:
            for name, data in pairs:
                archive.writestr(name, data)
        write(self.path("w.cap"), out.getvalue())
        os.makedirs(self.path("parts"), exist_ok=True)

    def pairs(self, folder="com/x/javacard/"):
        return [(folder + name, read(WALLET, name)) for name in FILES]

    def test_files_of_others(self):
        others = [(name, b"") for name in ("META-INF/MANIFEST.MF", "com/x/javacard/x.exp", "APPLET-INF/a.xml")]
        self.jar_of(others[:1] + self.pairs() + others[1:])
        self.assertEqual(self.run_here("unpack", "w.cap", "parts").status, 0)
        self.assertEqual(sorted(os.listdir(self.path("parts"))), sorted(FILES))

    def test_names_do_not_leave_the_folder(self):
        self.jar_of([*self.pairs(), ("com/x/javacard/../../Debug.cap", b"x"), ("/javacard/../Export.cap", b"x")])
        self.assertEqual(self.run_here("unpack", "w.cap", "parts").status, 0)
        self.assertEqual(sorted(os.listdir(self.folder)), ["out", "parts", "w.cap"])

    def refused_file(self, line, status=2):
        run = self.run_here("unpack", "w.cap", "parts")
        self.assertEqual((run.status, run.err), (status, line + "\n"))
        self.assertEqual(os.listdir(self.path("parts")), [])

    def test_refused_files(self):
        self.jar_of([*self.pairs(), *self.pairs("com/y/javacard/")])
        self.refused_file("jcconv: w.cap has components of 2 packages, and has to have those of one")
        self.jar_of([])
        self.refused_file("jcconv: w.cap has components of 0 packages, and has to have those of one")
        self.jar_of([pair for pair in self.pairs() if "Class" not in pair[0]])
        self.refused_file("absent Class.cap in w.cap", 3)
        self.jar_of([*self.pairs(), ("com/x/javacard/Debug.cap", bytes(65539))])
        self.refused_file("jcconv: w.cap has a component twice, or one of more than 65538 bytes")
        write(self.path("w.cap"), b"PK")
        self.refused_file("jcconv: w.cap is no JAR file")
        os.unlink(self.path("w.cap"))
        self.refused_file("absent w.cap", 3)

    def test_folder_that_is_not_there(self):
        self.jar_of(self.pairs())
        run = self.run_here("unpack", "w.cap", "no")
        self.assertEqual((run.status, run.err), (5, "shelf fault no/Header.cap\n"))
