"""`jcconv advise`: each thing that it tells, and lists of which it tells nothing."""
import os
import shutil
import unittest

from common import HERE, TOP, folder_of, jcconv, read, write

WALLET = os.path.join(TOP, "examples", "wallet")
BEGIN = "package p A000000001 1.0\n"
FILES = "export lang.exp\nexport framework.exp\nclass Wallet.class\n"


class Advice(unittest.TestCase):
    """Lists over the files of the wallet."""

    def told(self, text, status=0):
        folder = folder_of(self, list=text)
        for name in ("lang.exp", "framework.exp", "Wallet.class"):
            shutil.copy(os.path.join(WALLET, name), folder)
        shutil.copy(os.path.join(TOP, "examples", "first", "T.class"), folder)
        shutil.copy(os.path.join(HERE, "refusals", "310", "q.exp"), folder)
        run = jcconv("advise", "list", folder=folder)
        self.assertEqual(run.status, status, run.err)
        return run.out if status == 0 else run.err

    def test_nothing(self):
        for name in ("first", "wallet", "purse"):
            run = jcconv("advise", "list", folder=os.path.join(TOP, "examples", name))
            self.assertEqual((run.status, run.out, run.err), (0, "", ""))

    def test_applet_without_a_line(self):
        self.assertEqual(self.told(BEGIN + FILES), "Wallet.class: p/Wallet is below javacard/framework/Applet and has"
                         " no applet line: no card can install it\n")

    def test_rid(self):
        self.assertEqual(self.told(BEGIN + "applet p/Wallet F00000000101\n" + FILES),
                         "applet p/Wallet: its AID begins with F000000001, the package's with A000000001: an applet has"
                         " the RID, the first five bytes, of its package\n")

    def test_aid_of_the_package(self):
        self.assertIn("is the package's own", self.told(BEGIN + "applet p/Wallet A000000001\n" + FILES))

    def test_aid_of_an_import(self):
        told = self.told("package p F06A6363760101 1.0\napplet p/Wallet F06A636376AA\n" + FILES)
        self.assertEqual(told, "framework.exp: javacard/framework has the AID of the package itself\n")

    def test_unused_export_file(self):
        told = self.told(BEGIN + "export lang.exp\nexport q.exp\nclass T.class\n")
        self.assertIn("q.exp: no class of the list uses q;", told)
        self.assertEqual(told.count("\n"), 1)

    def test_order(self):
        applet = BEGIN + "applet p/Wallet A00000000101\n"
        self.assertIn("Wallet.class stands before T.class", self.told(applet + FILES + "class T.class\n"))
        ordered = FILES.replace("class Wallet", "class T.class\nclass Wallet")
        self.assertEqual(self.told(applet + ordered), "")

    def test_order_of_file_names(self):
        folder = os.path.join(HERE, "refusals", "302-access")
        self.assertEqual(jcconv("advise", "list", folder=folder).out, "")

    def test_file_that_is_not_there(self):
        told = self.told(BEGIN + "export lang.exp\nclass T.class\t\nclass T.class\n")
        self.assertEqual(told, "'T.class\\t' is not found, or can't be read; nothing is told of it\n")

    def test_list_that_is_none(self):
        self.assertEqual(self.told("class T.class\n", 2), "refused 107 list - - 0\n")
        self.assertEqual(self.told("", 2), "refused 107 list - - 0\n")
        run = jcconv("advise", "nothing")
        self.assertEqual((run.status, run.err), (3, "absent nothing\n"))
        self.assertEqual(jcconv("advise").status, 1)
        self.assertEqual(jcconv("advise", "a", "b").err, "usage: jcconv advise LIST\n")
