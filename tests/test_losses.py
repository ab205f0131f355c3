"""What a stop of the machine leaves: the writes and cuts of a file behind its last sync are lost, all or some of them (losses.py), as the library notes them."""
import os
import random
import unittest

import losses
from cases import Case, tell
from choices import state
from losses import HEAD, Note, left, sectors, undone, unsynced


def noted(kind, inode, offset, length, old, size, new=b''):
    return HEAD.pack(ord(kind), inode, offset, length, len(old), size) + old + new


class Losses(unittest.TestCase):
    # A file of `abcd`: `WXYZ` is written behind two bytes, it is cut to three bytes, and `!` is written behind five.
    WRITES = [Note(False, 2, 4, 4, b'cd', b'WXYZ'), Note(True, 0, 3, 6, b'XYZ', b''), Note(False, 5, 1, 3, b'', b'!')]
    CONTENT = b'abW\0\0!'

    def some(self, *kept):
        answers = iter(kept)
        return left(self.CONTENT, self.WRITES, lambda: next(answers))

    def test_all_is_lost(self):
        self.assertEqual(bytes(undone(self.CONTENT, self.WRITES)), b'abcd')
        self.assertEqual(self.some(False, False, False), b'abcd')

    def test_some_is_lost(self):
        self.assertEqual(self.some(True, True, True), self.CONTENT)
        self.assertEqual(self.some(True, False, False), b'abWXYZ')
        self.assertEqual(self.some(True, True, False), b'abW')
        self.assertEqual(self.some(False, True, False), b'abc')
        self.assertEqual(self.some(False, False, True), b'abcd\0!')
        self.assertEqual(self.some(True, False, True), b'abWXY!')

    def test_sectors_of_a_write(self):
        """They end at each 512 bytes of the file, wherever the write begins."""
        note = Note(False, 1000, 100, 2000, b'', bytes(100))
        self.assertEqual(list(sectors(note)), [(0, 24), (24, 100)])
        content = b'o' * 2000
        answers = iter([False, True])
        write = Note(False, 1000, 100, 2000, b'o' * 100, b'n' * 100)
        found = left(b'o' * 1000 + b'n' * 100 + b'o' * 900, [write], lambda: next(answers), sectors)
        self.assertEqual(found, content[:1024] + b'n' * 76 + content[1100:])

    def test_what_is_synced_stays(self):
        notes = (noted('W', 1, 0, 2, b'', 0, b'ab') + noted('W', 2, 0, 1, b'', 0, b'c') + noted('S', 1, 0, 0, b'', 2)
                 + noted('W', 1, 2, 1, b'', 2, b'd') + noted('T', 2, 0, 0, b'c', 1))
        self.assertEqual(unsynced(notes), {1: [Note(False, 2, 1, 2, b'', b'd')],
                                           2: [Note(False, 0, 1, 0, b'', b'c'), Note(True, 0, 0, 1, b'c', b'')]})

    def test_ways(self):
        """All of it is lost in the first one; then by chance."""
        ways = list(losses.ways(random.Random(1), 20))
        found = [way(self.CONTENT, self.WRITES) for way in ways]
        self.assertEqual((len(found), found[0]), (41, b'abcd'))
        self.assertGreater(len(set(found)), 4)


class Noted(Case):
    """What the library notes of the program."""

    def test_what_was_answered_is_synced(self):
        self.begin('add-project p', 'set-file 1 one')
        self.world.stop()
        self.assertEqual(self.world.losses(random.Random(1), 1), [])

    def test_without_syncs_all_since_the_opening_is_lost(self):
        self.begin('add-project p', 'add-project q')
        before = state(self.world).tables
        self.world.forget_notes()
        self.world.without_sync()
        tell(self.world, 'set-file 1 one')
        tell(self.world, 'set-variable 1 KEY value')
        self.world.stop()
        after = state(self.world).tables
        self.assertNotEqual(before, after)
        lost = self.world.losses(random.Random(1), 0)
        self.assertEqual(len(lost), 1)
        self.world.restore(lost[0])
        self.assertEqual(state(self.world).tables, before)
        self.assertEqual(os.path.getsize(self.world.notes), 0)
