"""`jcconv explain`: refusals of sources that javac compiled, and what is told of each."""
import os
import unittest

import card
import classfile
import explain
import opcodes
import rules
from common import CONVERTER, HERE, Run, TOP, folder_of, jcconv, read, write

CASES = os.path.join(HERE, "refusals")
# of each case: where its refusal points, and what else is told
POINTS = {
    "102": ("New.class", "major version 61, which is Java 17"),
    "203-catch": ("Reader.java:8", "missing: java/lang/IllegalStateException"),
    "203-constant": ("Limits.java:9", "missing: java/util/Objects"),
    "203-descriptor": ("Named.java:6", "missing: java/lang/String, of its descriptor"),
    "203-enum": ("Color.java:4", "missing: java/lang/Enum, its superclass"),
    "203-inner": ("Outer.java:10", "missing: java/util/Objects"),
    "203-iterator": ("Sum.java:5", "missing: java/lang/Iterable"),
    "205": ("Copy.java:6", "missing: clone()Ljava/lang/Object; of [B"),
    "206": ("Caller.java:6", "refused: n()S of p/Callee\n  p/Callee has n()S, public static"),
    "301": ("Clock.java:5", "its descriptor has the type long"),
    "302-access": ("Purse.java:10", "access$012"),
    "302-field": ("Counter.java:7", "its descriptor has the type int"),
    "303-lock": ("Lock.java:7", "monitorenter"),
    "303-string": ("Greeting.java:7", 'ldc String "hello"'),
    "304": ("Once.java:6", "public synchronized"),
    "308": ("Table.java:6", "p/Table.table:[S"),
    "310": ("User.java:8", "refused: count:S of q/Q"),
    "601-each": ("Total.java:7", "if_icmpge"),
    "601-loop": ("Fill.java:5", "if_icmpge"),
    "601-sum": ("Purse.java:8", "if_icmple"),
    "602": ("Mean.java:6", "idiv"),
    "603": ("Shift.java:6", "ishr"),
    "604": ("Select.java:6", "lookupswitch"),
    "605": ("Make.java:6", "newarray byte"),
    "606": ("Index.java:6", "baload"),
}


def refusal_of(case):
    return read(CASES, case, "refusal").decode().strip()


class Refusals(unittest.TestCase):
    """Each case of the folder refusals/."""

    def test_there_is_a_case_for_each_folder(self):
        folders = [name for name in os.listdir(CASES) if os.path.isdir(os.path.join(CASES, name))]
        self.assertEqual(sorted(folders), sorted(POINTS))

    def explained(self, case, *words):
        run = jcconv("explain", *words, folder=os.path.join(CASES, case))
        self.assertEqual((run.status, run.err), (0, ""))
        return run.out

    def one(self, case):
        out = self.explained(case, refusal_of(case), "list")
        place, more = POINTS[case]
        before, section = out.split("\n### ", 1)
        self.assertEqual(before + "\n", read(CASES, case, "expected").decode())
        self.assertIn(more, before)
        self.assertIn(place, before)
        self.assertEqual("### " + section.rstrip("\n"), rules.section(case.split("-")[0]))
        self.assertIn("**Repair**", section)

    def line_is_in_the_source(self, case):
        name, _, number = POINTS[case][0].partition(":")
        if number:
            lines = read(CASES, case, "expected").decode().split("\n")
            line = read(CASES, case, name).decode().split("\n")[int(number) - 1].strip()
            self.assertEqual(lines[2:4], [POINTS[case][0], "    " + line])

    def without_a_list(self, case):
        folder = folder_of(self)
        for name in os.listdir(os.path.join(CASES, case)):
            if name != "list":
                write(os.path.join(folder, name), read(CASES, case, name))
        run = jcconv("explain", refusal_of(case), folder=folder)
        self.assertEqual(run.status, 0)
        self.assertIn(POINTS[case][0] if ":" in POINTS[case][0] else "Java 17", run.out)


def add_cases():
    for case in POINTS:
        name = case.replace("-", "_")
        setattr(Refusals, f"test_{name}_is_told", lambda self, case=case: self.one(case))
        setattr(Refusals, f"test_{name}_line", lambda self, case=case: self.line_is_in_the_source(case))
        setattr(Refusals, f"test_{name}_without_a_list", lambda self, case=case: self.without_a_list(case))
        if CONVERTER:
            setattr(Refusals, f"test_{name}_is_what_the_converter_says", lambda self, case=case: self.assertEqual(
                Run([CONVERTER, "convert", "list", folder_of(self)], os.path.join(CASES, case)).err.strip(),
                refusal_of(case)))


add_cases()


class Forms(unittest.TestCase):
    """The forms of the words."""
    folder = os.path.join(CASES, "203-inner")

    def test_line_on_standard_input(self):
        whole = jcconv("explain", refusal_of("203-inner"), "list", folder=self.folder).out
        given = "Header.cap 20\n" + refusal_of("203-inner") + "\n"
        self.assertEqual(jcconv("explain", "-", "list", folder=self.folder, given=given).out, whole)
        self.assertEqual(jcconv("explain", "-", folder=self.folder, given=given).out, whole)

    def test_words_one_by_one(self):
        words = refusal_of("203-inner").split()
        whole = jcconv("explain", refusal_of("203-inner"), "list", folder=self.folder).out
        self.assertEqual(jcconv("explain", *words, "list", folder=self.folder).out, whole)
        self.assertEqual(jcconv("explain", *words, folder=self.folder).out, whole)

    def test_files_beside_the_list(self):
        out = jcconv("explain", refusal_of("203-inner"), "refusals/203-inner/list").out
        self.assertIn("Outer.java:10\n    Inner i = s.new Inner();\n", out)

    def test_rule_alone(self):
        run = jcconv("explain", "310")
        self.assertEqual((run.status, run.out.rstrip("\n")), (0, rules.section(310)))

    def test_every_rule_has_a_section(self):
        for _, members in rules.titles():
            for rule, title in members:
                self.assertTrue(rules.section(rule).startswith(f"### {rule} {title}\n"), rule)

    def test_unknown_rule(self):
        for words in (["999"], ["refused", "999", "a", "b", "c", "0"]):
            run = jcconv("explain", *words)
            self.assertEqual((run.status, run.err), (1, "jcconv: there is no rule 999\n"))
            self.assertIn("  601  comparison of a number", run.out)

    def test_no_rule(self):
        run = jcconv("explain")
        self.assertEqual((run.status, run.err), (0, ""))
        self.assertIn("usage: jcconv explain RULE", run.out)
        self.assertIn("  107  malformed line of the list", run.out)

    def test_no_refusal(self):
        for words, given in ((["refused", "601"], ""), (["-"], "ok\n"), (["refused x y z 1 2"], ""), (["what"], "")):
            run = jcconv("explain", *words, given=given)
            self.assertEqual((run.status, run.out), (1, ""))

    def test_other_ends(self):
        run = jcconv("explain", "-", given="absent lang.exp\n")
        self.assertEqual(run.status, 0)
        self.assertIn("No file has this name", run.out)


class Places(unittest.TestCase):
    """What is told where less is known."""

    def before(self, line, folder=HERE, *words):
        run = jcconv("explain", line, *words, folder=folder)
        self.assertEqual((run.status, run.err), (0, ""))
        return run.out.split("\n### ")[0]

    def test_file_that_is_not_there(self):
        told = self.before("refused 601 No.class p/No f()V 3")
        self.assertIn("No.class is not found from this folder", told)

    def test_class_without_lines(self):
        line = "refused 601 Wallet.class p/Wallet process(Ljavacard/framework/APDU;)V 59"
        told = self.before(line, os.path.join(TOP, "examples", "wallet"))
        self.assertIn("Wallet.class has no line numbers: compile it with `javac -g`", told)
        self.assertIn("instruction 59: if_icmple 68", told)

    def test_class_that_changed(self):
        folder = os.path.join(CASES, "602")
        self.assertIn("it changed since", self.before("refused 601 Mean.class p/Other f()V 3", folder))
        told = self.before("refused 601 Mean.class p/Mean f(SS)S 5000", folder)
        self.assertIn("offset 5000, where no instruction", told)
        broken = folder_of(self, T_class=b"\xca\xfe\xba\xbe\0\0\0\x34")
        self.assertIn("can't be read as a class file", self.before("refused 601 T.class p/T f()V 3", broken))

    def test_classes_of_a_group(self):
        folder = folder_of(self, e_list=b"package e A000000023 1.0\nexport lang.exp\nclass Y.class\n")
        for rule in (203, 735):
            self.assertIn("e/Y is the class, of the package that this list names in its group.",
                          self.before(f"refused {rule} e.list e/Y - 0", folder))

    def test_source_that_is_not_there(self):
        mean, clock = read(CASES, "602", "Mean.class"), read(CASES, "301", "Clock.class")
        folder = folder_of(self, Mean_class=mean, Clock_class=clock)
        self.assertIn("\nMean.java:6\np/Mean f(SS)S, instruction 6: idiv", self.before(refusal_of("602"), folder))
        self.assertIn("The source is not beside the class file.", self.before(refusal_of("301"), folder))

    def test_export_files(self):
        folder = folder_of(self, a_exp=b"\x00\xfa\xca\xde\x03\x02", b_exp=b"PK\x03\x04",
                           c_exp=read(TOP, "examples", "wallet", "framework.exp"))
        self.assertIn("format 2.3; formats 2.1 and 2.2 are read", self.before("refused 104 a.exp - - 4", folder))
        self.assertIn("it is a JAR or CAP file", self.before("refused 104 b.exp - - 0", folder))
        told = self.before("refused 208 c.exp javacard/framework/APDU - 0", folder)
        self.assertIn("c.exp, the export file of javacard/framework 1.0: javacard/framework/APDU", told)

    def test_components(self):
        self.assertIn("Directory's size of Class.cap", self.before("refused 701 Directory.cap - - 13"))
        self.assertIn("byte 7 of the file Header.cap", self.before("refused 106 Header.cap - - 7"))

    def test_items_of_components(self):
        case = os.path.join(TOP, "tests", "cases", "wallet_example", "after", "out")
        for line, told in (
                ("refused 711 Method.cap - - 33", "Method.cap, byte 33: baload, of method 2 of class 0 in Descriptor,"
                                                  " byte 7 of its code\nit takes a number, the index, and below it"
                                                  " an array of boolean or byte\n"),
                ("refused 710 Method.cap - - 34", "byte 34: slookupswitch, of method 2 of class 0 in Descriptor"),
                ("refused 710 Method.cap - - 35", "in method 2 of class 0 in Descriptor, where no instruction starts"),
                ("refused 709 Method.cap - - 24", "byte 24: the header of method 2 of class 0 in Descriptor"),
                ("refused 706 Class.cap - - 15", "Class.cap, byte 15: info at 2 public method 0, 00 15"),
                ("refused 718 Descriptor.cap - - 18", "byte 18: class 0 field 0 type, 80 04")):
            self.assertIn(told, self.before(line, HERE, case) + "\n")
            folder = folder_of(self)
            for name in ("Method.cap", "Descriptor.cap", "Class.cap"):
                os.makedirs(os.path.join(folder, "out"), exist_ok=True)
                write(os.path.join(folder, "out", name), read(case, name))
            self.assertIn(told, self.before(line, folder) + "\n")

    def test_method_without_its_descriptor(self):
        folder = folder_of(self, Method_cap=b"\x07\0\7\0\2\x10\x1c\4\x41\x78", Descriptor_cap=b"\x0b\0\1")
        self.assertNotIn("Descriptor", self.before("refused 709 Method.cap - - 8", folder).split("\n")[2])

    def test_language(self):
        wallet = os.path.join(TOP, "examples", "wallet")
        folder = folder_of(self, mine=b"package p A000000001 1.0\nexport framework.exp\nclass T.class\n",
                           lang_exp=read(wallet, "lang.exp").replace(b"ArithmeticException", b"ArithmeticExceptioN"),
                           framework_exp=read(wallet, "framework.exp"))
        line = "refused 207 mine - - 0"
        self.assertIn("mine: no export file that it names is that of java/lang", self.before(line, folder))
        write(os.path.join(folder, "mine"), "package p A000000001 1.0\nexport lang.exp\n")
        self.assertIn("lang.exp: java/lang lacks ArithmeticException", self.before(line, folder))

    def test_script(self):
        folder = folder_of(self, script="# begin\ncall p/T f(S)S 5\t\n")
        self.assertIn("script:2\n    call p/T f(S)S 5\\t\n", self.before("refused 105 script - - 8", folder) + "\n")

    def test_applet_lines(self):
        lines = ("package p A000000001 1.0\n{}export lang.exp\nexport framework.exp\n"
                 "class Wallet.class\nclass T.class\n")
        wallet = os.path.join(TOP, "examples", "wallet")
        folder = folder_of(self, T_class=read(TOP, "examples", "first", "T.class"))
        for name in ("lang.exp", "framework.exp", "Wallet.class"):
            write(os.path.join(folder, name), read(wallet, name))
        for applets, told in (
                ("applet p/Purse A00000000101\n", "p/Purse A00000000101: no class file of the list has this class"),
                ("applet p/T A00000000101\n", "p/T A00000000101: it is no subclass of javacard/framework/Applet"),
                ("applet p/Wallet A00000000101\napplet p/Wallet A00000000101\n", "its AID is that of p/Wallet too")):
            write(os.path.join(folder, "list"), lines.format(applets))
            self.assertIn(told, self.before("refused 309 list - - 0", folder, "list"))


class Instructions(unittest.TestCase):
    """Instructions by their names."""

    def test_wallet(self):
        of = classfile.read(os.path.join(TOP, "examples", "wallet", "Wallet.class"))
        method = of.find("install([BSB)V")
        self.assertEqual([opcodes.words(of, method.code, at) for at in opcodes.offsets(method.code.data)],
                         ["new p/Wallet", "dup", "invokespecial p/Wallet.<init>()V",
                          "invokevirtual p/Wallet.register()V", "return"])

    def test_each_opcode_has_its_name(self):
        names = {0x00: "nop", 0x12: "ldc", 0x15: "iload", 0x36: "istore", 0x60: "iadd", 0x84: "iinc", 0x99: "ifeq",
                 0xA7: "goto", 0xB1: "return", 0xB9: "invokeinterface", 0xBC: "newarray", 0xC4: "wide", 0xC9: "jsr_w"}
        self.assertEqual({opcode: opcodes.NAMES[opcode] for opcode in names}, names)
        self.assertEqual(len(opcodes.NAMES), 0xCA)

    def test_opcodes_of_the_card(self):
        self.assertEqual(len(card.names()), 0xB9)
        at = {0x00: "nop", 0x14: "iipush", 0x24: "aaload", 0x41: "sadd", 0x5F: "icmp", 0x71: "jsr", 0x7B: "getstatic_a",
              0x8A: "putfield_i", 0x8E: "invokeinterface", 0x98: "ifeq_w", 0xAD: "getfield_a_this",
              0xB8: "putfield_i_this", 0xFF: "impdep2"}
        self.assertEqual({opcode: card.NAMES[opcode] for opcode in at}, at)
        self.assertEqual(card.size(bytes.fromhex("75003300020030000d00400019"), 0), 13)
        self.assertEqual(card.taken("sadd"), "two numbers")
        self.assertEqual(card.taken("goto"), "")

    def test_switches_have_their_length(self):
        padded = bytes([0xAA, 0, 0, 0]) + bytes(4) + (1).to_bytes(4, "big") + (3).to_bytes(4, "big") + bytes(12)
        self.assertEqual(opcodes.length(padded, 0), 28)
        pairs = bytes([0x00, 0xAB, 0, 0]) + bytes(4) + (2).to_bytes(4, "big") + bytes(16)
        self.assertEqual(opcodes.length(pairs, 1), 27)

    def test_refusal_parts(self):
        refusal = explain.Refusal("refused 107 my list - - 57".split(" "))
        self.assertEqual((refusal.file, refusal.of, refusal.member, refusal.offset), ("my list", None, None, 57))
