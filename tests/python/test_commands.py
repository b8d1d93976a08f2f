"""The commands over bytes: their answers are those of the program, byte for byte."""

import glob
import os
import pathlib
import subprocess
import tempfile
import unittest

import bibkeep

from test_library import REFS

PROGRAM = os.environ.get("BIBKEEP_PROGRAM", "")
ROOT = os.path.dirname(os.path.dirname(os.path.dirname(os.path.abspath(__file__))))

# Files that are valid, and files that are not.
TEXTS = [
    REFS,
    b"",
    b'@misc{a,\n  t = "x}y"}',
    b"@misc{a,,}",
    b"@misc{",
    b"@misc{a}@misc{A}@misc{b, crossref = {a}, t = m # {\xff}}",
    b"@string{m = m}@misc{x, author = {Knuth, Donald E. and others}, title = {The {TeX}book}, year = 1984}",
]

# Commands with their options and what follows the name of the file.
RUNS = [
    ("check", {}, []),
    ("lint", {}, []),
    ("lint", {}, ["--ignore", "odd-key"]),
    ("cat", {}, []),
    ("newkeys", {}, []),
    ("labels", {}, ["*"]),
    ("json", {}, ["*"]),
    ("json", {"depth": 2}, ["*"]),
    ("json", {"raw": True}, ["*"]),
    ("ris", {}, ["*"]),
    ("ris", {"dropped": True}, ["*"]),
    ("ris", {"plain": True}, ["*"]),
    ("show", {"bibtex": True}, ["ld86"]),
    ("cite", {"bibtex": True}, ["LD86", "nobody"]),
    ("json", {"bibtex": True}, ["*"]),
    ("ris", {"bibtex": True, "plain": True}, ["*"]),
    ("labels", {"bibtex": True}, ["*"]),
    ("names", {"bibtex": True}, ["ld86", "{f.~}{vv~}{ll}{, jj}"]),
    ("show", {}, ["podc"]),
    ("entry", {}, ["a"]),
    ("entry", {"at": True}, ["a", "a"]),
    ("cite", {}, ["ld86", "nobody"]),
    ("cite", {"number": 1, "strict": True}, ["ld86", "nobody"]),
    ("extract", {}, ["ld86"]),
    ("names", {}, ["x", "{ff }{ll}"]),
    ("names", {}, ["x", "{ff"]),
]

OPTIONS = {"depth": "--depth", "number": "--min-crossrefs", "dropped": "--dropped", "at": "--at", "strict": "--strict", "raw": "--raw", "plain": "--plain", "bibtex": "--bibtex"}


class Commands(unittest.TestCase):
    def test_short_forms(self):
        self.assertEqual(bibkeep.check(REFS)["entries"], ["3"])
        self.assertEqual(bibkeep.check(REFS)["undefined macro"], ["mai"])
        self.assertEqual(bibkeep.cite(REFS, ["ld86", "nobody"], min_crossrefs=1), (["ld86", "podc"], ["nobody"]))
        self.assertEqual(bibkeep.labels(REFS), {"l94": "Lam94", "ld86": "LD86", "podc": "anon86"})
        self.assertEqual(bibkeep.names(REFS, "ld86", "{ll}{, f.}"), ["Lamport, L.", "Dijkstra, E.~W."])
        self.assertTrue(bibkeep.to_ris(REFS, ["ld86"]).startswith(b"TY  - CONF\nAU  - Lamport, Leslie\n"))
        self.assertTrue(bibkeep.extract(REFS, ["podc"]).startswith(b"@proceedings{podc,"))
        found = bibkeep.lint(REFS)
        self.assertEqual([(it.line, it.kind) for it in found], [(4, "warning")])
        self.assertEqual(bibkeep.lint(REFS, ignore=[found[0].code]), [])

    def test_an_import(self):
        ris = b"TY  - JOUR\nAU  - Lamport, Leslie\nTI  - Time, Clocks\nPY  - 1978\nER  - \n"
        answer = bibkeep.run("import", REFS, input=ris)
        self.assertEqual(answer.output, b"added 1 skipped 0\n")
        library = bibkeep.loads(answer.file, answer.journal)
        self.assertEqual(library["Lam78"]["title"], "Time, Clocks")
        library.undo()
        self.assertEqual(library.dumps(), REFS)
        ris = b"TY  - GEN\nTI  - 5 % of A & B\nER  - \n"
        for latex, text in ((False, b"{5 % of A & B}"), (True, b"{5 \\% of A \\& B}")):
            self.assertEqual(bibkeep.run("import", b"", input=ris, latex=latex).file, b"@misc{anon,\n  title = " + text + b"\n}\n")
        ris = b"TY  - GEN\nXX  - 1\nID  - a\nER  - \n"
        self.assertEqual(bibkeep.run("import", b"", input=ris, skipped=True).output, b"added 1 skipped 1\nskipped 2: XX  - 1\n")
        with self.assertRaises(bibkeep.ParseError) as refused:
            bibkeep.run("import", b"", input=ris, strict=True)
        self.assertEqual((refused.exception.number, refused.exception.name, refused.exception.line), (65, "SkippedLine", 2))
        with self.assertRaises(bibkeep.ParseError) as refused:
            bibkeep.run("import", REFS, input=b"AU  - x\n")
        self.assertEqual((refused.exception.number, refused.exception.line), (61, 1))

    def test_an_insertion(self):
        text = b"% from a page\n@book{new, title = {New}}\n"
        answer = bibkeep.run("insert", REFS, "after:l94", input=text)
        self.assertEqual(answer.output, b"added 1\n")
        library = bibkeep.loads(answer.file, answer.journal)
        self.assertEqual(library["new"]["title"], "New")
        library.undo()
        self.assertEqual(library.dumps(), REFS)
        with self.assertRaises(bibkeep.ParseError) as refused:
            bibkeep.run("insert", REFS, input=b"@misc{a,\n  t = 1\n  u = 2}\n")
        self.assertEqual((refused.exception.number, refused.exception.line, refused.exception.column), (4, 3, 3))
        with self.assertRaises(bibkeep.EditError) as refused:
            bibkeep.run("insert", REFS, input=b"@misc{L94}\n")
        self.assertEqual(refused.exception.number, 37)

    def test_a_difference(self):
        new = REFS + b"@misc{new, title = {New}}\n"
        answer = bibkeep.run("diff", REFS, "new.bib", input=new)
        self.assertEqual((answer.status, answer.message), (1, b""))
        edited = bibkeep.run("edit", REFS, input=answer.output)
        self.assertEqual(bibkeep.run("diff", edited.file, "new.bib", input=new).output, b"")
        with self.assertRaises(bibkeep.ParseError) as refused:
            bibkeep.run("diff", REFS, "new.bib", input=b"@misc{a,\n  t = 1\n  u = 2}\n")
        self.assertEqual((refused.exception.number, refused.exception.line, refused.exception.column), (4, 3, 3))
        with self.assertRaises(bibkeep.Error) as refused:
            bibkeep.run("diff", b"@misc{a}@misc{a}", "new.bib", input=b"@misc{a}")
        self.assertEqual((refused.exception.number, refused.exception.name), (46, "NoScript"))

    def test_a_refusal_is_raised_or_answered(self):
        with self.assertRaises(bibkeep.NoSuchEntry):
            bibkeep.run("show", REFS, "nobody")
        answer = bibkeep.run("show", REFS, "nobody", raises=False)
        self.assertEqual((answer.status, answer.output, answer.message), (1, b"", b"bibkeep: 11 NoSuchEntry\n"))
        for wrong in ({"depth": 9}, {"depth": -1}, {"depth": 1 << 40}, {"strict": True}):
            with self.assertRaises(ValueError):
                bibkeep.run("show", REFS, "l94", **wrong)
        with self.assertRaises(ValueError):
            bibkeep.run("frobnicate", REFS)

    def test_journals(self):
        edited = bibkeep.run("edit", REFS, "set", "l94", "year", "1995")
        undone = bibkeep.run("undo", edited.file, journal=edited.journal)
        self.assertEqual((undone.file, undone.output), (REFS, b"undone 1\n"))
        self.assertEqual(bibkeep.run("log", edited.file, journal=edited.journal).output, b"done 1 4 4 set l94 year 1995\n")
        self.assertIsNone(bibkeep.run("edit", REFS, "set", "l94", "year", "1995", no_journal=True).journal)
        shown = bibkeep.run("edit", REFS, "set", "l94", "year", "1995", print=True)
        self.assertEqual((shown.file, shown.output), (None, edited.file))

    def test_several_files_that_are_read_as_one(self):
        with tempfile.TemporaryDirectory(prefix="bibkeep-commands-") as folder:
            paths = [f"{folder}/{name}.bib" for name in ("m", "a", "b")]
            for path, text in zip(paths, (b'@string{m = "x"}\n', b"@misc{a, t = m, crossref = {b}}\n", b"@misc{b, y = {2}}\n")):
                pathlib.Path(path).write_bytes(text)
            shown = b"@misc a\nt = x\ny = 2\ncrossref = b\n"
            self.assertEqual(bibkeep.run_files("show", paths, "a").output, shown)
            self.assertEqual(bibkeep.run_files("show", map(pathlib.Path, paths), "a").output, shown)
            pathlib.Path(paths[2]).write_bytes(b"@misc{b,\n ,}")
            with self.assertRaises(bibkeep.ParseError) as refused:
                bibkeep.run_files("show", paths, "a")
            self.assertEqual((refused.exception.number, refused.exception.line, refused.exception.column), (2, 2, 2))
            with self.assertRaises(ValueError):
                bibkeep.run_files("entry", paths, "a")
            with self.assertRaises(ValueError):
                bibkeep.run_files("check", [])
            with self.assertRaises(FileNotFoundError):
                bibkeep.run_files("check", [f"{folder}/nothing"])

    @unittest.skipUnless(PROGRAM, "there is no program")
    def test_answers_over_several_files_are_those_of_the_program(self):
        with tempfile.TemporaryDirectory(prefix="bibkeep-commands-") as folder:
            paths = [f"{folder}/{n}.bib" for n in range(len(TEXTS))]
            for path, text in zip(paths, TEXTS):
                pathlib.Path(path).write_bytes(text)
            for before, own, after in ((0, 6, ()), (0, 1, (5, 6)), (6, 0, (0,)), (0, 2, (6,)), (3, 0, ()), (5, 4, (2,))):
                for command, options, words in RUNS:
                    if command in ("cat", "entry") or "bibtex" in options:
                        continue
                    with self.subTest(command=command, options=options, words=words, files=(before, own, after)):
                        flags = [flag for it in after for flag in ("--after", paths[it])]
                        for name, value in options.items():
                            flags += [OPTIONS[name]] if value is True else [OPTIONS[name], str(value)]
                        ran = subprocess.run(
                            [PROGRAM, command, "--before", paths[before], paths[own], *flags, *words],
                            stdin=subprocess.DEVNULL,
                            stdout=subprocess.PIPE,
                            stderr=subprocess.PIPE,
                        )
                        args = [word for word in words if word != "--ignore"]
                        files = [paths[it] for it in (before, own, *after)]
                        answer = bibkeep.run_files(command, files, *args, raises=False, **options)
                        self.assertEqual((answer.status, answer.output, answer.message), (ran.returncode, ran.stdout, ran.stderr))

    @unittest.skipUnless(PROGRAM, "there is no program")
    def test_all_answers_are_those_of_the_program(self):
        files = [pathlib.Path(path).read_bytes() for path in sorted(glob.glob(f"{ROOT}/examples/*.bib"))]
        for text in TEXTS + files:
            for command, options, words in RUNS:
                with self.subTest(command=command, options=options, words=words, text=text[:60]):
                    flags = []
                    for name, value in options.items():
                        flags += [OPTIONS[name]] if value is True else [OPTIONS[name], str(value)]
                    # `cat` reads standard input; the others take the file by a name, which `lint` prints
                    ran = subprocess.run(
                        [PROGRAM, command, *([] if command == "cat" else ["/dev/stdin", *flags, *words])],
                        input=text,
                        stdout=subprocess.PIPE,
                        stderr=subprocess.PIPE,
                    )
                    args = [word for word in words if word != "--ignore"]
                    answer = bibkeep.run(command, text, *args, raises=False, **options)
                    output = ran.stdout.replace(b"/dev/stdin:", b"-:") if command == "lint" else ran.stdout
                    self.assertEqual((answer.status, answer.output, answer.message), (ran.returncode, output, ran.stderr))


if __name__ == "__main__":
    unittest.main()
