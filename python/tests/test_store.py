"""A store keeps what was saved, for one process, and makes no state anew."""
import errno
import os
import subprocess
import sys
import tempfile
import unittest
from unittest import mock

from qlock import Damaged, Exists, InUse, Missing, Store, WrongOwner

OTHER = "import sys; from qlock import Store, InUse\ntry: Store(sys.argv[1])\nexcept InUse: sys.exit(7)"


class Stores(unittest.TestCase):
    def setUp(self):
        self.folder = tempfile.TemporaryDirectory()
        self.addCleanup(self.folder.cleanup)
        self.path = os.path.join(self.folder.name, "voter-0")

    def test_what_was_saved_is_read(self):
        Store.create(self.path, b"new")
        with Store(self.path) as store:
            self.assertEqual(store.read(), b"new")
            store.save(b"one")
            store.save(b"two\n\n")
        with Store(self.path) as store:
            self.assertEqual(store.read(), b"two\n\n")

    def test_state_is_made_once(self):
        Store.create(self.path, b"new")
        with self.assertRaises(Exists):
            Store.create(self.path, b"newer")
        with Store(self.path) as store:
            self.assertEqual(store.read(), b"new")
            with self.assertRaises(InUse):
                Store.create(self.path, b"newer")

    def test_missing_state_is_not_made_anew(self):
        for path in (self.path, os.path.join(self.folder.name, "folder", "voter-0")):
            with self.assertRaises(Missing), Store(path) as store:
                store.read()
        with Store(self.path) as store, self.assertRaises(Missing):
            store.save(b"one")
        self.assertFalse(os.path.exists(self.path))

    def test_state_that_was_not_read_is_not_replaced(self):
        Store.create(self.path, b"new")
        with Store(self.path) as store, self.assertRaises(Missing):
            store.save(b"newer")
        with Store(self.path) as store:
            self.assertEqual(store.read(), b"new")
        with self.assertRaises(InUse):
            store.save(b"newer")

    def test_state_of_another_owner_is_refused(self):
        other = os.path.join(self.folder.name, "voter-1")
        Store.create(self.path, b"new", owner="voter 0")
        os.rename(self.path, other)
        for owner in ("voter 1", ""):
            with Store(other, owner) as store, self.assertRaises(WrongOwner):
                store.read()
        with Store(other, "voter 0") as store:
            self.assertEqual(store.read(), b"new")
        with self.assertRaises(ValueError):
            Store(other, "voter\n0")

    def test_same_bytes_are_not_written_again(self):
        Store.create(self.path, b"one")
        with Store(self.path) as store:
            store.read()
            before = os.stat(self.path).st_ino
            store.save(b"one")
            self.assertEqual(os.stat(self.path).st_ino, before)
            store.save(b"two")
            self.assertNotEqual(os.stat(self.path).st_ino, before)

    def test_what_is_read_was_synced_before(self):
        Store.create(self.path, b"one")
        synced = []
        with Store(self.path) as store, mock.patch("os.fsync", lambda file: synced.append(os.fstat(file).st_ino)):
            store.read()
        self.assertEqual(synced, [os.stat(self.path).st_ino, os.stat(self.folder.name).st_ino])

    def test_failed_save_saved_nothing(self):
        Store.create(self.path, b"one")
        with Store(self.path) as store:
            store.read()
            with mock.patch("qlock.store.sync_folder", side_effect=OSError), self.assertRaises(OSError):
                store.save(b"two")
            store.save(b"one")  # the file has the two by now
            self.assertEqual(store.read(), b"one")

    def test_failed_save_is_tried_again(self):
        Store.create(self.path, b"one")
        with Store(self.path) as store:
            store.read()
            with mock.patch("qlock.store.sync_folder", side_effect=OSError), self.assertRaises(OSError):
                store.save(b"two")
            with mock.patch("qlock.store.replace_file") as replaced:
                store.save(b"two")
            replaced.assert_called_once()

    def test_save_is_synced_before_it_takes_the_place(self):
        Store.create(self.path, b"one")
        events, rename = [], os.rename

        def synced(file):
            events.append((os.fstat(file).st_ino, os.fstat(file).st_size))

        def renamed(old, new):
            events.append("renamed")
            rename(old, new)

        with Store(self.path) as store:
            store.read()
            with mock.patch("os.fsync", synced), mock.patch("os.rename", renamed):
                store.save(b"a longer state")
        saved, folder = os.stat(self.path), os.stat(self.folder.name)
        self.assertEqual(events[:2], [(saved.st_ino, saved.st_size), "renamed"])
        self.assertEqual([ino for ino, _ in events[2:]], [folder.st_ino])

    def test_each_byte_that_changed_is_saved(self):
        state = bytes(1104)
        Store.create(self.path, state)
        with Store(self.path) as store:
            store.read()
            for place in (0, 551, 552, 1103):
                state = state[:place] + b"x" + state[place + 1 :]
                store.save(state)
                with open(self.path, "rb") as file:
                    self.assertTrue(file.read().endswith(state), place)

    def test_half_of_a_save_does_no_harm(self):
        Store.create(self.path, b"one")
        with open(self.path + ".new", "wb") as file:
            file.write(b"qlock 2\nhalf")
        with Store(self.path) as store:
            self.assertEqual(store.read(), b"one")
            store.save(b"two")
            self.assertEqual(store.read(), b"two")

    def test_each_changed_byte_is_found(self):
        Store.create(self.path, b"state", owner="voter 0")
        with Store(self.path, owner="voter 0") as store:
            with open(self.path, "rb") as file:
                good = file.read()
            for place in range(len(good)):
                with open(self.path, "wb") as file:
                    file.write(good[:place] + bytes([good[place] ^ 1]) + good[place + 1 :])
                with self.assertRaises(Damaged):
                    store.read()
            for length in range(len(good)):
                with open(self.path, "wb") as file:
                    file.write(good[:length])
                with self.assertRaises(Damaged):
                    store.read()

    def test_one_process_has_the_state(self):
        other = [sys.executable, "-c", OTHER, self.path]
        with Store(self.path):
            with self.assertRaises(InUse):
                Store(self.path)
            self.assertEqual(subprocess.run(other, check=False).returncode, 7)
        self.assertEqual(subprocess.run(other, check=False).returncode, 0)

    def test_lock_that_fails_is_not_one_in_use(self):
        before = os.listdir("/proc/self/fd")
        for code, expected in ((errno.ENOLCK, OSError), (errno.EWOULDBLOCK, InUse)):
            fault = OSError(code, os.strerror(code))
            with mock.patch("fcntl.flock", side_effect=fault), self.assertRaises(expected):
                Store(self.path)
        self.assertEqual(os.listdir("/proc/self/fd"), before)
        with Store(self.path):
            pass


if __name__ == "__main__":
    unittest.main()
