"""Files on disk: what save stores, and when it refuses."""

import fcntl
import os
import stat
import subprocess
import tempfile
import threading
import time
import unittest

import bibkeep

from test_library import REFS

PROGRAM = os.environ.get("BIBKEEP_PROGRAM", "")


class Files(unittest.TestCase):
    def setUp(self):
        folder = tempfile.TemporaryDirectory(prefix="bibkeep-files-")
        self.addCleanup(folder.cleanup)
        self.folder = folder.name
        self.path = f"{folder.name}/refs.bib"
        self.write(REFS)

    def write(self, data, name="refs.bib"):
        with open(f"{self.folder}/{name}", "wb") as file:
            file.write(data)

    def read(self, name="refs.bib"):
        with open(f"{self.folder}/{name}", "rb") as file:
            return file.read()

    def test_an_edit_and_how_to_undo_it(self):
        library = bibkeep.Library.open(self.path)
        library.set("l94", "year", "1995")
        library.save()
        self.assertEqual(self.read(), REFS.replace(b"year=1994 ", b"year=1995 "))
        again = bibkeep.open(self.path)  # in a later run
        self.assertEqual((again.undo_count, again.undo()), (1, 1))
        again.save()
        self.assertEqual((self.read(), bibkeep.open(self.path).redo_count), (REFS, 1))

    @unittest.skipUnless(PROGRAM, "there is no program")
    def test_what_is_stored_is_what_the_program_stores(self):
        library = bibkeep.open(self.path)
        library.set("l94", "year", "1995")
        library.rename_key("podc", "podc86")
        library.save()
        stored = self.read(), self.read("refs.bib.bibkeep")
        os.unlink(f"{self.path}.bibkeep")
        self.write(REFS)
        for words in (("set", "l94", "year", "1995"), ("rename-key", "podc", "podc86")):
            subprocess.run([PROGRAM, "edit", self.path, *words], check=True, stdout=subprocess.DEVNULL)
        self.assertEqual((self.read(), self.read("refs.bib.bibkeep")), stored)
        subprocess.run([PROGRAM, "undo", self.path], check=True, stdout=subprocess.DEVNULL)
        self.assertEqual(bibkeep.open(self.path).redo_count, 1)

    def test_a_file_that_changed_on_disk_is_not_replaced(self):
        for name, data in (("refs.bib", REFS + b"\n"), ("refs.bib.bibkeep", b"another")):
            with self.subTest(name):
                library = bibkeep.open(self.path)
                library.set("l94", "year", "1995")
                self.write(data, name)
                with self.assertRaises(bibkeep.FileChanged):
                    library.save()
                self.assertEqual(self.read(name), data)
                self.write(REFS)

    def test_it_can_be_saved_again(self):
        library = bibkeep.open(self.path)
        for year in ("1995", "1996"):
            library.set("l94", "year", year)
            library.save()
        self.assertEqual(bibkeep.open(self.path).undo_count, 2)

    def test_permissions_and_links_are_kept(self):
        os.chmod(self.path, 0o4640)
        link = f"{self.folder}/link.bib"
        os.symlink(self.path, link)
        library = bibkeep.open(link)
        library.set("l94", "year", "1995")
        library.save()
        self.assertTrue(os.path.islink(link))
        for name in ("refs.bib", "refs.bib.bibkeep"):
            self.assertEqual(stat.S_IMODE(os.stat(f"{self.folder}/{name}").st_mode), 0o640)
        self.assertEqual(sorted(os.listdir(self.folder)), ["link.bib", "refs.bib", "refs.bib.bibkeep"])

    def test_a_journal_that_is_a_link_is_not_followed(self):
        self.write(b"precious", "precious")
        os.symlink("precious", f"{self.path}.bibkeep")
        with self.assertRaises(bibkeep.JournalError) as refused:
            bibkeep.open(self.path)
        self.assertEqual((refused.exception.number, refused.exception.offset), (53, 0))
        library = bibkeep.open(self.path, new_journal=True)
        library.set("l94", "year", "1995")
        library.save()
        self.assertEqual(self.read("precious"), b"precious")
        self.assertFalse(os.path.islink(f"{self.path}.bibkeep"))
        self.assertEqual(bibkeep.open(self.path).undo_count, 1)

    def test_a_journal_of_another_file(self):
        library = bibkeep.open(self.path)
        library.set("l94", "year", "1995")
        library.save()
        self.write(REFS + b" ")
        with self.assertRaises(bibkeep.JournalError) as refused:
            bibkeep.open(self.path)
        self.assertEqual(refused.exception.number, 54)
        self.assertEqual(bibkeep.open(self.path, new_journal=True).undo_count, 0)

    def test_new_journal_keeps_a_journal_that_fits(self):
        library = bibkeep.open(self.path)
        library.set("l94", "year", "1995")
        library.save()
        self.assertEqual(bibkeep.open(self.path, new_journal=True).undo_count, 1)

    def test_without_a_journal_none_is_stored(self):
        library = bibkeep.open(self.path, no_journal=True)
        library.set("l94", "year", "1995")
        library.save()
        self.assertEqual((os.listdir(self.folder), b"1995" in self.read()), (["refs.bib"], True))

    def test_what_is_no_file_is_not_replaced(self):
        os.mkdir(f"{self.path}.bibkeep")
        with self.assertRaises(OSError):
            bibkeep.open(self.path)
        os.rmdir(f"{self.path}.bibkeep")
        library = bibkeep.open(self.path)
        os.link(self.path, f"{self.path}.bibkeep")
        with self.assertRaises(bibkeep.FileChanged):
            library.save()
        with self.assertRaises(FileNotFoundError):
            bibkeep.open(f"{self.folder}/nothing.bib")
        with self.assertRaises(ValueError):
            bibkeep.loads(REFS).save()

    def test_open_and_save_wait_for_a_lock(self):
        library = bibkeep.open(self.path)
        library.set("l94", "year", "1995")
        for call in (library.save, lambda: bibkeep.open(self.path)):
            with open(self.path, "rb") as held:
                fcntl.flock(held, fcntl.LOCK_EX)
                thread = threading.Thread(target=call)
                thread.start()
                time.sleep(0.1)
                self.assertTrue(thread.is_alive())
            thread.join(10)
            self.assertFalse(thread.is_alive())
        self.assertIn(b"1995", self.read())

    @unittest.skipUnless(PROGRAM, "there is no program")
    def test_no_change_of_runs_at_once_is_lost(self):
        self.write(b"@misc{a}\n")

        def edit(n):
            for i in range(5):
                while True:
                    library = bibkeep.open(self.path)
                    library.set("a", f"p{n}x{i}", "1")
                    try:
                        library.save()
                        break
                    except bibkeep.FileChanged:
                        pass

        threads = [threading.Thread(target=edit, args=(n,)) for n in range(3)]
        for thread in threads:
            thread.start()
        for i in range(10):
            subprocess.run([PROGRAM, "edit", self.path, "set", "a", f"q{i}", "1"], check=True, stdout=subprocess.DEVNULL)
        for thread in threads:
            thread.join()
        library = bibkeep.open(self.path)
        self.assertEqual((len(library["a"]), library.undo_count), (25, 25))
        library.undo(25)
        self.assertEqual(library.dumps(), b"@misc{a}\n")


if __name__ == "__main__":
    unittest.main()
