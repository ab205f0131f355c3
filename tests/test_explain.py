"""What `explain` says of each stored CI file, worked out by hand from docs/PROFILE.md, and how it ends."""
import os
import re
import shutil
import unittest

from cases import Case
from world import HERE

STORED = os.path.join(HERE, 'explain')
END = re.compile(r'(\w+\.yml|-) (\d)\n')  # behind what is said of a file: its name, or - for standard input, and the exit status


def answers():
    """Name, exit status and lines of each file that answers.txt names."""
    said = ''
    with open(os.path.join(STORED, 'answers.txt'), encoding='utf-8') as file:
        for line in file:
            if end := END.fullmatch(line):
                yield end[1], int(end[2]), said
                said = ''
            else:
                said += line
    if said:
        raise ValueError('answers.txt: the last lines have no name')


class Explain(Case):
    def test_each_stored_file(self):
        shutil.copytree(STORED, self.world.folder, dirs_exist_ok=True)
        with open(os.path.join(STORED, 'input.txt'), 'rb') as file:
            given = file.read()
        names = set()
        for name, status, said in answers():
            names.add(name)
            with self.subTest(name):
                ran = self.world.command('explain', name, stdin=given)
                self.assertEqual((ran.status, ran.out), (status, said))
        self.assertEqual(names, {name for name in os.listdir(STORED) if name.endswith('.yml')} | {'-', 'missing.yml'})


if __name__ == '__main__':
    unittest.main()
