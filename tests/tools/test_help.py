"""Help, version, completion, and what pages say of examples and words."""
import glob
import os
import re
import unittest

import exportfile
import helping
import rules
from common import Run, TOP, jcconv, read, script


class Help(unittest.TestCase):
    """What there is."""

    def test_all_of_it(self):
        run = jcconv("--help")
        self.assertEqual((run.status, run.err), (0, ""))
        for words in (["-h"], ["help"]):
            again = jcconv(*words)
            self.assertEqual((again.status, again.out), (0, run.out))
        for word, (form, _, example) in helping.WORDS.items():
            self.assertIn(f"\n  jcconv {form}", run.out)
            self.assertIn(example, run.out)

    def test_no_words(self):
        run = jcconv()
        self.assertEqual((run.status, run.out, run.err), (1, "", jcconv("--help").out))

    def test_one_word(self):
        for word in helping.WORDS:
            told = jcconv("help", word)
            self.assertEqual((told.status, told.out), (0, helping.of_word(word) + "\n"))
            self.assertEqual([jcconv(word, ask).out for ask in ("-h", "--help")], [told.out] * 2)

    def test_word_that_is_none(self):
        for words in (["help", "what"], ["what", "--help"]):
            run = jcconv(*words)
            self.assertEqual((run.status, run.out), (1, ""))
            self.assertEqual(run.err, "jcconv: there is no word what; there are: convert, check, jvm, card, make,"
                                      " verify, link, linkjvm, compat, explain, pack, unpack, advise\n")

    def test_words_that_stand_alone(self):
        for words in (["--help", "pack"], ["-h", "-h"], ["--version", "now"], ["--prove", "now"], ["--prove", "-h"]):
            run = jcconv(*words)
            self.assertEqual((run.status, run.out), (1, ""))
            self.assertEqual(run.err, "jcconv: these words stand alone: --help, -h, --version, --prove\n")
        run = jcconv("help", "pack", "check")
        self.assertEqual((run.status, run.out, run.err), (1, "", "jcconv: help takes one word\n"))

    def test_lines_are_short(self):
        for line in helping.everything().split("\n"):
            self.assertLessEqual(len(line), 120)

    def test_version(self):
        run = jcconv("--version")
        self.assertEqual(run.status, 0)
        self.assertEqual(run.out, helping.version_lines() + "\n")
        self.assertTrue(run.out.startswith(f"jcconv {helping.VERSION}, {helping.STATE}\n"))
        self.assertRegex(run.out, r"rattle-kit-\S+ logic [0-9a-f]+")
        first = re.search(r"^## (.*)$", read(TOP, "CHANGELOG.md").decode(), re.M)[1]
        self.assertEqual(first, f"{helping.VERSION}, {helping.STATE}")

    def test_pages(self):
        page = read(TOP, "docs", "COMMANDS.md").decode()
        for form, _, _ in helping.WORDS.values():
            self.assertIn(f"    jcconv {form}\n", page)
        for name, _ in helping.PAGES:
            self.assertTrue(os.path.isfile(os.path.join(TOP, "docs", name + ".md")), name)

    def test_forms_are_those_of_the_program(self):
        page = read(TOP, "docs", "COMMANDS.md").decode()
        usage = re.search(r"`usage: jcconv (.*?)`", page)[1]
        words = ("convert", "check", "jvm", "card", "make", "verify", "link", "linkjvm", "compat")
        forms = [helping.WORDS[word][0] for word in words]
        self.assertEqual(usage.split(", "), forms)


class Script(unittest.TestCase):
    """What the script jcconv answers without a converter."""

    def test_words(self):
        for words in ([], ["-h"], ["--help"], ["help"], ["--version"], ["help", "pack"], ["make", "-h"],
                      ["--prove", "now"], ["--version", "-h"], ["help", "pack", "check"], ["what", "--help"],
                      ["check", "--help"], ["explain"], ["explain", "310"], ["explain", "999"],
                      ["explain", "refused 601 No.class p/No f()V 3", "no list"], ["pack", "no", "w.cap"],
                      ["unpack", "no", "no"], ["advise", "no"], ["advise"]):
            by_hand, by_script = jcconv(*words), script(*words)
            self.assertEqual((by_script.status, by_script.out, by_script.err),
                             (by_hand.status, by_hand.out, by_hand.err), words)

    def test_standard_input(self):
        self.assertEqual(script("explain", "-", given="absent x\n").out, jcconv("explain", "-", given="absent x\n").out)


class Completion(unittest.TestCase):
    """Words in bash."""

    def words(self, *typed):
        script = (f". {TOP}/tools/completion.bash; COMP_WORDS=(\"$@\"); COMP_CWORD=$(($# - 1)); _jcconv;"
                  " printf '%s\\n' \"${COMPREPLY[@]}\"")
        return Run(["bash", "-c", script, "-", *typed], TOP).out.split()

    def test_words(self):
        self.assertEqual(self.words("./jcconv", "c"), ["convert", "check", "card", "compat"])
        self.assertEqual(set(helping.WORDS) - set(self.words("./jcconv", "")), set())
        self.assertEqual(self.words("./jcconv", "help", "un"), ["unpack"])

    def test_rules(self):
        every = [rule for _, members in rules.titles() for rule, _ in members]
        self.assertEqual(self.words("./jcconv", "explain", ""), ["-", *every])
        self.assertEqual(self.words("./jcconv", "explain", "71"), [rule for rule in every if rule.startswith("71")])

    def test_files(self):
        self.assertEqual(self.words("./jcconv", "convert", "examples/wallet/l"),
                         ["examples/wallet/lang.exp", "examples/wallet/list"])
        self.assertEqual(self.words("./jcconv", "convert", "list", "exam"), ["examples"])
        self.assertEqual(self.words("./jcconv", "make", ""), [])


class Examples(unittest.TestCase):
    """The export files of the examples are of no platform."""

    def test_aids(self):
        paths = glob.glob(os.path.join(TOP, "examples", "*", "*.exp"))
        self.assertEqual(len(paths), 7)
        for path in paths:
            self.assertEqual(exportfile.read(path).aid[0], 0xF0, path)

    def test_page_names_them(self):
        page = read(TOP, "examples", "README.md").decode()
        for path in glob.glob(os.path.join(TOP, "examples", "*", "*.exp")):
            self.assertIn(exportfile.read(path).aid.hex().upper(), page)


class Links(unittest.TestCase):
    """Links of the pages that a user meets lead somewhere."""

    def anchors(self, text):
        headings = re.findall(r"^#+ (.*)$", text, re.M)
        return {re.sub(r"[^\w\- ]", "", heading.lower()).replace(" ", "-") for heading in headings}

    def test_links(self):
        pages = ["README.md", "examples/README.md", *(f"docs/{name}.md" for name, _ in helping.PAGES)]
        for page in pages:
            text = read(TOP, page).decode()
            for target, anchor in re.findall(r"\]\(([^)#\s]*)(?:#([^)]*))?\)", text):
                path = os.path.join(TOP, os.path.dirname(page), target) if target else os.path.join(TOP, page)
                self.assertTrue(os.path.exists(path), (page, target))
                if anchor:
                    self.assertIn(anchor, self.anchors(read(path).decode()), (page, target, anchor))
