"""What commands say that scenarios can't tell: a port that is taken, seeds that can't be had, a file that isn't written whole."""
import glob
import os
import random
import shutil
import signal
import socket
import subprocess
import tempfile

from cases import Case, alter, drawn

MOST_CALLS = 500


class Commands(Case):
    def test_the_version_is_told_with_that_of_the_format_and_the_sum_of_the_sources(self):
        for option in ('--version', '-V'):
            status, output, errors = self.world.command(option)
            self.assertEqual((status, errors), (0, ''))
            self.assertRegex(output, r'\Aciserver 0\.1\.0\nformat: 2\nsources: [0-9a-f]{64}\n\Z')

    def test_a_taken_port_is_told_after_the_file_and_before_the_clock(self):
        self.world.clock_fails()
        with socket.socket() as listener:
            listener.bind(('127.0.0.1', 0))
            listener.listen()
            port = listener.getsockname()[1]
            words = ['serve', '--db', self.world.db, '--port', str(port), '--requests', '1']
            self.ran(3, 'store: O3\n', *words)
            self.ran(0, 'ok\n', 'init', '--db', self.world.db)
            self.ran(3, f'cannot listen on 127.0.0.1:{port}\n', *words)

    def test_a_new_file_has_pages_of_a_kibibyte(self):
        """The size of a page stands in bytes 16 and 17 of a file, the number of its pages in the four from byte 28 on."""
        self.begin()
        with open(self.world.db, 'rb') as file:
            content = file.read()
        self.assertEqual(content[16:18], b'\x04\x00')
        self.assertEqual(int.from_bytes(content[28:32], 'big') * 1024, len(content))

    def test_without_seeds_no_token_is_made(self):
        """The store takes random bytes too, as it is opened, and faults of the store go before those of a request."""
        self.begin('add-project p')
        self.world.seed_fails()
        self.ran(3, 'store: O3\n', 'project-add', '--db', self.world.db, '--name', 'q')
        self.assertEqual(self.world.rows('SELECT id FROM project'), [(1,)])

    def test_a_row_that_is_no_record_is_told_by_what_reads_it(self):
        self.begin('add-runner r')
        alter(self.world, "UPDATE runner SET tags = 'gpu'")
        self.ran(0, '     JOB PROJECT STATUS               NAME\njobs: 0\n', 'report', '--db', self.world.db, '--kind', 'queue')
        self.ran(1, 'refused: M3\n', 'report', '--db', self.world.db, '--kind', 'pipeline', '--pipeline', '1')
        self.ran(3, 'store: M17\n', 'report', '--db', self.world.db, '--kind', 'runners')

    def test_a_file_that_another_process_uses_is_told_as_such(self):
        self.begin('add-project p')
        self.assertIsNone(self.world.start())
        ran = self.world.command('report', '--db', self.world.db, '--kind', 'queue')
        self.assertEqual(ran, (3, 'store: O3\n', f'{self.world.db}: another process uses it\n'))

    def test_a_file_that_may_not_be_used_is_told_as_such(self):
        """By a user to whom the folder is closed."""
        with tempfile.TemporaryDirectory() as folder:
            os.chmod(folder, 0o755)
            program, closed = shutil.copy(self.world.program, folder), os.path.join(folder, 'closed')
            os.mkdir(closed, 0o700 if os.getuid() == 0 else 0)
            path = os.path.join(closed, 'ci.db')
            ran = subprocess.run([program, 'report', '--db', path, '--kind', 'queue'], user=65534 if os.getuid() == 0 else None, capture_output=True, text=True, check=False)
            self.assertEqual((ran.returncode, ran.stdout, ran.stderr), (3, 'store: O3\n', f'{path}: it may not be read and written\n'))

    def test_a_file_is_its_owners_alone(self):
        """The tokens are in it. Its log has its access."""
        self.begin('add-project p', 'set-file 1 one')
        self.assertEqual([os.stat(path).st_mode & 0o777 for path in self.world.paths()], [0o600, 0o600])


class Inits(Case):
    """`init` where each call of the store fails in turn, or is the last one before a kill. It makes the file whole, or none that the next `init` refuses."""

    def files(self):
        return sorted(os.path.basename(path) for path in glob.glob(self.world.db + '*'))

    def inited(self, call, **how):
        """An `init` whose call `call` of the store fails: how it ends; and was the call made?"""
        self.world.restore({})
        self.world.forget_calls()
        self.world.fail_from(call, reads=True, **how)
        ran = self.world.init()
        met = self.world.calls('db') + self.world.calls('log') >= call
        self.world.fail_from(None)
        return ran, met

    def is_whole(self):
        """The file is there, and whole; or there is none, and the next `init` makes it."""
        if not os.path.exists(self.world.db):
            self.assertEqual(self.world.init()[:2], (0, 'ok\n'), self.files())
        self.ran(0, 'version: 2\n', 'migrate', '--db', self.world.db)
        self.assertEqual(self.world.rows('PRAGMA integrity_check'), [('ok',)])
        self.ran(0, '{"id":1,"token":"p1-' + 'ab' * 16 + '"}\n', 'project-add', '--db', self.world.db, '--name', 'p')

    def test_each_call_fails(self):
        for call in range(1, MOST_CALLS):
            with self.subTest(call=call):
                ran, met = self.inited(call, torn=call % 2 == 0)
                if not met:
                    break
                self.assertEqual(ran[:2], (3, 'store: O3\n'))
                self.assertEqual(self.files(), [])
                self.is_whole()
        self.assertEqual(ran[:2], (0, 'ok\n'))
        self.assertGreater(call, 5)

    def test_it_is_killed_at_each_call(self):
        seed = drawn()
        choices, images = random.Random(seed), 0
        for call in range(1, MOST_CALLS):
            with self.subTest(call=call, SEED=seed):
                ran, met = self.inited(call, torn=call % 2 == 0, dies=True)
                if not met:
                    break
                self.assertEqual(ran[:2], (-signal.SIGKILL, ''))
                lost = self.world.losses(choices, 1)
                images += len(lost)
                for image in [self.world.save(), *lost]:
                    self.world.restore(image)
                    self.is_whole()
        self.assertEqual(ran[:2], (0, 'ok\n'))
        self.assertEqual(self.world.losses(choices, 1), [], 'what init made is synced')
        self.assertGreater(images, 5)
