"""A Library: look-ups, edits, steps, bytes and refusals."""

import threading
import unittest

import bibkeep

REFS = b"""% mail joe@x.org when a page moves
@string{cup = "Cambridge University Press"}
@Book(l94, author = {Lamport, Leslie}, publisher = cUp,
  year=1994 , month = mai)
@inproceedings{ld86, author = "Leslie Lamport and Dijkstra, E. W.",
  title = {On   Interprocess
           Communication}, crossref = {podc},}
@proceedings{podc, title = {Distributed Computing}, year = 1986}
"""


class LookUps(unittest.TestCase):
    def test_entries_are_looked_up(self):
        library = bibkeep.loads(REFS)
        self.assertEqual(library["l94"]["year"], "1994")
        self.assertEqual(library["L94"]["publisher"], "Cambridge University Press")
        self.assertEqual(library["ld86"]["title"], "On Interprocess Communication")
        self.assertEqual(library["ld86"]["YEAR"], "1986")  # inherited
        self.assertEqual((library["ld86"].type, library["ld86"].key, library["ld86"].parent), ("inproceedings", "ld86", "podc"))
        self.assertIsNone(library["podc"].parent)
        self.assertEqual(list(library), ["l94", "ld86", "podc"])
        self.assertEqual(len(library), 3)
        self.assertTrue("podc" in library and "PODC" in library and "nobody" not in library and 3 not in library)
        self.assertIsNone(library.get("nobody"))
        self.assertEqual([entry.key for entry in library.entries()], list(library))
        self.assertEqual([dict(entry) for entry in library.entries()], [dict(entry) for entry in library.values()])

    def test_a_missing_entry_is_a_key_error(self):
        with self.assertRaises(KeyError) as refused:
            bibkeep.loads(REFS)["nobody"]
        self.assertEqual((refused.exception.number, refused.exception.name), (11, "NoSuchEntry"))
        self.assertEqual(str(refused.exception), "11 NoSuchEntry")

    def test_of_entries_with_one_key_the_first_counts(self):
        library = bibkeep.loads(b"@misc{a, t = 1}@misc{A, t = 2}@misc{b}")
        self.assertEqual((list(library), len(library)), (["a", "b"], 2))
        self.assertEqual(library["A"]["t"], "1")
        self.assertEqual([entry.key for entry in library.entries()], ["a", "A", "b"])

    def test_a_depth_is_from_1_to_8(self):
        library = bibkeep.loads(b"@misc{a, crossref = {b}}@misc{b, crossref = {c}}@misc{c, t = 1}")
        self.assertNotIn("t", library["a"])
        self.assertEqual(library.entry("a", 2)["t"], "1")
        for depth in (-1, 0, 9, 256, 257):
            with self.assertRaises(ValueError):
                library.entry("a", depth)


class Edits(unittest.TestCase):
    def test_each_edit_changes_what_it_says(self):
        for method, words, old, new in (
            ("set", ("a", "y", "{2}"), b"@misc{a, t = 1,}", b"@misc{a, t = 1,\n  y = {2},}"),
            ("set_text", ("a", "t", "2"), b"@misc{a, t = 1,}", b"@misc{a, t = {2},}"),
            ("drop", ("a", "T"), b"@misc{a, t = 1,}", b"@misc{a,}"),
            ("insert", (1, "book", "c", {"title": "{T}"}), b"@misc{a}\n@misc{b}\n", b"@misc{a}\n@book{c,\n  title = {T}\n}\n@misc{b}\n"),
            ("add", ("book", "c", {"title": "{T}"}), b"@misc{a}\n", b"@misc{a}\n@book{c,\n  title = {T}\n}\n"),
            ("remove", ("k",), b"abc@misc{k}s@misc{l}t", b"abcs@misc{l}t"),
            ("move", ("a", 1), b"@misc{a}\n@misc{b}\n", b"\n@misc{b}\n@misc{a}\n"),
            ("set_type", ("a", "article"), b"@Misc {a, t = 1}", b"@article {a, t = 1}"),
            ("rename_key", ("a", "c"), b"@misc{a}@misc{b, crossref = {A}}", b"@misc{c}@misc{b, crossref = {c}}"),
            ("rename_field", ("t", "title"), b"@misc{a, T = 1}@misc{b, t = m}", b"@misc{a, title = 1}@misc{b, title = m}"),
            ("rename_field", ("t", "title", "b"), b"@misc{a, t = 1}@misc{b, t = m}", b"@misc{a, t = 1}@misc{b, title = m}"),
            ("rename_macro", ("m", "n"), b"@string{m = 1}@misc{b, t = m}", b"@string{n = 1}@misc{b, t = n}"),
            ("inline", ("m",), b"@string{m = 1}@misc{k, t = m # 1}", b"@misc{k, t = {1} # 1}"),
            ("define", ("n", "{x}"), b"@string{m = 1}\n@misc{b}", b"@string{m = 1}\n@string{n = {x}}\n@misc{b}"),
            ("set_macro", ("m", "{x}"), b"@string{m = 1}@misc{b, t = m}", b"@string{m = {x}}@misc{b, t = m}"),
            ("undefine", ("m",), b"@misc{a, t = m}@string{m = 1}@misc{b}", b"@misc{a, t = m}@misc{b}"),
            ("introduce", ("m", "x"), b'@misc{a, t = {x} # "x"}', b"@string{m = {x}}\n@misc{a, t = m # m}"),
        ):
            with self.subTest(method):
                library = bibkeep.loads(old)
                getattr(library, method)(*words)
                self.assertEqual(library.dumps(), new)
                self.assertEqual((library.undo_count, library.undo(), library.dumps()), (1, 1, old))

    def test_entries_are_added_one_after_another(self):
        library = bibkeep.loads(b"@comment{c}\n")
        for key in ("a", "b", "c"):
            library.add("misc", key)
        library.remove("b")
        library.add("misc", "d")
        self.assertEqual(list(library), ["a", "c", "d"])
        library.undo(5)
        library.add("misc", "e")
        self.assertEqual(library.dumps(), b"@comment{c}\n@misc{e}\n")

    def test_a_refused_edit_changes_nothing(self):
        library = bibkeep.loads(REFS)
        with self.assertRaises(ValueError) as refused:
            library.remove("podc")
        self.assertIsInstance(refused.exception, bibkeep.EditError)
        self.assertEqual((refused.exception.number, str(refused.exception)), (39, "39 Referred"))
        self.assertEqual((library.dumps(), library.undo_count), (REFS, 0))
        library.set("l94", "year", "1995")  # no step was left open
        self.assertEqual(library.undo_count, 1)

    def test_words_that_say_no_edit(self):
        with self.assertRaises(bibkeep.ScriptError):
            bibkeep.loads(REFS).edit("frobnicate", "l94")

    def test_a_script_stops_at_a_refused_line(self):
        library = bibkeep.loads(REFS)
        with self.assertRaises(bibkeep.EditError) as refused:
            library.script("group\tprint run\nset\tl94\tyear\t1995\nset\tld86\tnote\t{x}\nend\nremove\tpodc\n")
        fault = refused.exception
        self.assertEqual((str(fault), fault.number, fault.name, fault.line), ("line 5: 39 Referred", 39, "Referred", 5))
        self.assertEqual((fault.done, fault.offset, fault.column), (4, None, None))
        self.assertEqual((library.undo_count, library["ld86"]["note"]), (1, "x"))
        self.assertEqual(library.script("set\tl94\tyear\t1996\n"), 1)


class Steps(unittest.TestCase):
    def test_a_group_is_one_step(self):
        library = bibkeep.loads(REFS)
        with library.group("print run"):
            library.set("l94", "year", "1995")
            library.set_text("ld86", "note", "x")
        self.assertEqual(library.undo_count, 1)
        library.undo()
        self.assertEqual(library.dumps(), REFS)
        self.assertEqual((library.redo(), library.redo_count), (1, 0))

    def test_an_exception_in_a_group_keeps_the_edits_before_it(self):
        library = bibkeep.loads(REFS)
        with self.assertRaises(bibkeep.EditError):
            with library.group():
                library.set("l94", "year", "1995")
                library.remove("podc")
        self.assertEqual(library.undo_count, 1)
        library.undo()
        self.assertEqual(library.dumps(), REFS)

    def test_nothing_to_undo(self):
        library = bibkeep.loads(REFS)
        with self.assertRaises(bibkeep.UndoError) as refused:
            library.undo()
        self.assertEqual(refused.exception.number, 51)
        with self.assertRaises(bibkeep.UndoError) as refused:
            library.redo()
        self.assertEqual(refused.exception.number, 52)
        with self.assertRaises(ValueError):
            library.undo(-1)
        library.set("l94", "year", "1995")
        with self.assertRaises(bibkeep.UndoError) as refused:
            library.undo(2)
        self.assertEqual((refused.exception.done, library.dumps()), (1, REFS))

    def test_no_undo_inside_a_group(self):
        library = bibkeep.loads(REFS)
        with library.group():
            library.set("l94", "year", "1995")
            with self.assertRaises(bibkeep.UndoError) as refused:
                library.undo()
            self.assertEqual(refused.exception.number, 55)

    def test_a_label_has_no_line_feed(self):
        with self.assertRaises(ValueError):
            with bibkeep.loads(REFS).group("a\nb"):
                pass

    def test_the_journal_takes_the_steps_along(self):
        library = bibkeep.loads(REFS)
        library.set("l94", "year", "1995")
        again = bibkeep.loads(*library.dumps_with_journal())
        again.undo()
        self.assertEqual(again.dumps(), REFS)
        with self.assertRaises(bibkeep.JournalError) as refused:
            bibkeep.loads(REFS + b" ", library.dumps_with_journal()[1])
        self.assertEqual(refused.exception.number, 54)


class Bytes(unittest.TestCase):
    def test_bytes_that_are_no_file(self):
        with self.assertRaises(ValueError) as refused:
            bibkeep.loads(b'@misc{a,\n  t = "x}y"}')
        fault = refused.exception
        self.assertIsInstance(fault, bibkeep.ParseError)
        self.assertEqual((fault.number, fault.name, fault.offset), (6, "UnbalancedBrace", 17))
        self.assertEqual((fault.line, fault.column, str(fault)), (2, 9, "6 UnbalancedBrace at 17"))

    def test_any_bytes(self):
        data = b"@misc{k\xff, t = {\x00\xe9}}"
        library = bibkeep.loads(data)
        self.assertEqual((library.dumps(), list(library)), (data, ["k\udcff"]))
        self.assertIn("k\udcff", library)
        with self.assertRaises(bibkeep.TextError) as refused:
            library["k\udcff"]
        self.assertEqual(refused.exception.number, 24)
        library.set(b"k\xff", "year", "1")
        library.set("k\udcff", "note", "{\udcff\t}")
        library.undo(2)
        self.assertEqual(library.dumps(), data)
        for words in (("k\udcff", "t", "{\0a\0}"), (b"k\xff", b"t", b"{\0a\0}"), ("k\udcff", b"t", "{\0a\0}")):
            library.set(*words)
            self.assertEqual(library.dumps(), b"@misc{k\xff, t = {\x00a\x00}}")
            library.undo()
        with self.assertRaises(AttributeError):
            library.set("k\udcff", "t", 1)

    def test_a_closed_library_has_nothing(self):
        library = bibkeep.loads(REFS)
        library.close()
        for call in (library.dumps, library.undo, library.save, lambda: library["l94"], lambda: list(library)):
            with self.assertRaises(ValueError):
                call()

    def test_threads_wait_for_one_another(self):
        library = bibkeep.loads(b"@misc{a}")

        def edit(n):
            for i in range(50):
                library.set("a", f"f{n}", str(i))

        threads = [threading.Thread(target=edit, args=(n,)) for n in range(4)]
        for thread in threads:
            thread.start()
        for thread in threads:
            thread.join()
        self.assertEqual(library.undo_count, 200)
        self.assertEqual(dict(library["a"]), {f"f{n}": "49" for n in range(4)})
        library.undo(200)
        self.assertEqual(library.dumps(), b"@misc{a}")


if __name__ == "__main__":
    unittest.main()
