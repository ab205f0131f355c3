"""The scripts of the repository, as shellcheck and pyflakes read them: neither says a word. And whose lemmas the proofs of a crate cite."""
import glob
import os
import re
import subprocess
import unittest

HERE = os.path.dirname(os.path.abspath(__file__))
ROOT = os.path.dirname(HERE)


def scripts(*words):
    """The files of the repository whose first line names one of these programs, or which end as its scripts do."""
    endings = tuple(f'.{word}' for word in words if len(word) == 2)
    for folder, inner, names in os.walk(ROOT):
        inner[:] = [name for name in inner if name not in ('.git', 'bin', 'crates', 'out', '__pycache__')]
        for path in (os.path.join(folder, name) for name in sorted(names)):
            with open(path, 'rb') as file:
                first = file.readline(200)
            if path.endswith(endings) or first.startswith(b'#!') and any(first.rstrip().endswith(word.encode()) for word in words):
                yield os.path.relpath(path, ROOT)


def said(*command, text=None):
    """What a program says, and how it ended."""
    ran = subprocess.run(command, cwd=ROOT, input=text, capture_output=True, text=True, check=False)
    return ran.stdout + ran.stderr, ran.returncode


CITED = re.compile(r'Rattle\.(ci_\w+)\.proofs\.([\w.+]+)')


def lemmas(crate, text):
    """The modules of lemmas of other crates that a text of this crate cites. What a function meets is no lemma: that is its contract."""
    for below, path in CITED.findall(text):
        module = path.rstrip('.')
        if below != crate and 'Met' not in module.split('.'):
            yield f'{below}.{module}'


def cited():
    """Of each module of lemmas the other crates that cite it."""
    found = {}
    for part in ('src/**/*.rt', 'specs/**/*.antt', 'proofs/**/*.antt'):
        for path in glob.glob(os.path.join(ROOT, 'crates', '*', part), recursive=True):
            crate = os.path.relpath(path, os.path.join(ROOT, 'crates')).split(os.sep)[0]
            with open(path, encoding='utf-8') as file:
                for module in lemmas(crate, file.read()):
                    found.setdefault(module, set()).add(crate)
    return found


def listed():
    """What `lemmas.txt` has of it."""
    with open(os.path.join(HERE, 'lemmas.txt'), encoding='utf-8') as file:
        lines = [line.split() for line in file if line.strip() and not line.startswith('#')]
    return {words[0].rstrip(':'): set(words[1:]) for words in lines}


SHELLCHECK = ('shellcheck', '-x', '-P', 'SCRIPTDIR', '-f', 'gcc')


class Lint(unittest.TestCase):
    def test_shellcheck_says_nothing_of_a_script_of_the_shell(self):
        files = list(scripts('sh', 'bash'))
        self.assertIn('examples/backup.sh', files)
        self.assertIn('.ci/gate', files)
        self.assertIn('examples/post-receive', files)
        self.assertEqual(said(*SHELLCHECK, *files), ('', 0))

    def test_pyflakes_says_nothing_of_a_script_in_python(self):
        files = list(scripts('py', 'python3'))
        self.assertIn('runner/ciserver-runner', files)
        self.assertIn('examples/convert.py', files)
        self.assertIn('.ci/edits', files)
        self.assertEqual(said('pyflakes3', *files), ('', 0))

    def test_a_fault_is_told(self):
        self.assertIn('SC2086', said(*SHELLCHECK, '-s', 'bash', '-', text='rm $1\n')[0])
        self.assertIn('imported but unused', said('pyflakes3', text='import os\n')[0])

    def test_no_crate_cites_lemmas_of_another_that_are_not_listed(self):
        found, known = cited(), listed()
        told = lambda one, other: sorted(f'{crate}: {module}' for module in one for crate in one[module] - other.get(module, set()))
        self.assertEqual(told(found, known), [], 'lemmas of another crate: prove it here, or have that crate say it as a law')
        self.assertEqual(told(known, found), [], 'no longer cited: take it out of tests/lemmas.txt')

    def test_a_citation_is_seen(self):
        text = 'use Rattle.ci_graph.proofs.Counts.{a}\nuse Rattle.ci_graph.proofs.laws.acyclic.Met.{met}\nuse Rattle.ci_board.proofs.Rows.{b}\n'
        self.assertEqual(list(lemmas('ci_board', text)), ['ci_graph.Counts'])
