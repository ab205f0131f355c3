"""examples/backup.sh: the file of a server is copied while it serves. Before each program by which the script reads something may happen: requests, a
log that begins anew, a stop."""
import os
import re
import select
import shutil
import signal
import sqlite3
import stat
import subprocess
import threading
import time
from contextlib import closing

from cases import PATH, Case, tell
from events import SEED, is_accepted
from world import HERE, PROGRAM, World

SCRIPT = os.path.join(HERE, '..', 'examples', 'backup.sh')
# By what it reads, one after the other.
STEPS = ['od ci.db-wal', 'cat ci.db', 'cat ci.db-wal', 'od ci.db-wal']
# Asks before a program runs, and waits for the answer.
ASKING = """\
#!/bin/sh
for last; do :; done
echo "{name} ${{last##*/}}" > {folder}/asks
read -r _ < {folder}/answers
exec {program} "$@"
"""
# The lines that read, and others that read the log first.
IN_ORDER = ['cat "$file" > "$room/ci.db" && : > "$room/ci.db-wal" || exit 3', '[ -z "$before" ] || cat "$file-wal" > "$room/ci.db-wal" || exit 3']
LOG_FIRST = ['cat "$file-wal" > "$room/ci.db-wal" || exit 3', 'cat "$file" > "$room/ci.db" || exit 3']
ROWS = ['SELECT * FROM project', 'SELECT * FROM pipeline', 'SELECT id, job, state FROM attempt', 'SELECT * FROM variable', 'SELECT * FROM meta',
        'SELECT attempt, seq, bytes FROM piece']


class Backup(Case):
    """Tests over a server with a live attempt. `traced` is how many bytes its trace has, `rows` what a copy must hold."""

    def setUp(self):
        super().setUp()
        self.script, self.copy, self.traced, self.rows = SCRIPT, os.path.join(self.world.folder, 'copy.db'), 0, None
        self.begin(*PATH)
        # The log of a server that is started has the random numbers of its own.
        self.world.seed(None)
        self.append()

    def append(self, size=1000):
        self.told(f'append j1 {self.traced} bytes {size}', f'202 running 0-{self.traced + size}')
        self.traced += size

    def set_variable(self, number):
        return tell(self.world, f'set-variable 1 V {str(number % 10) * 30000}')

    def header(self):
        with open(self.world.db + '-wal', 'rb') as log:
            return log.read(32)

    def begin_log_anew(self):
        """Has so much happen that all that the log has goes into the file. How many events, and the calls of the log before the last one."""
        header, events, calls = self.header(), 0, 0
        self.world.forget_calls()
        while self.header() == header:
            calls, events = self.world.calls('log'), events + 1
            self.assertEqual(self.set_variable(events), '200')
        return events, calls

    def altered(self, old, new):
        """Has another script run, of which these lines are others."""
        with open(SCRIPT, encoding='utf-8') as file:
            text = file.read()
        for was, now in zip(old, new):
            self.assertEqual(text.count(was), 1)
            text = text.replace(was, now)
        self.script = os.path.join(self.world.folder, 'altered.sh')
        with open(self.script, 'w', encoding='utf-8') as file:
            file.write(text)
        os.chmod(self.script, 0o755)

    def held(self):
        """What is in the server's file and its log."""
        return [self.world.rows(query) for query in ROWS]

    def run_script(self, *words, before=None, tries=20, **variables):
        """Runs the script. Where there is `before`, `before(n, its name)` happens before the nth program by which it reads. Its exit status, and what it
        printed."""
        self.steps, self.rows = [], self.held()
        variables = dict(os.environ, TRIES=str(tries)) | {'CISERVER': PROGRAM} | variables
        folder = os.path.join(self.world.folder, 'steps')
        if before:
            self.make_steps(folder)
            variables['PATH'] = f'{folder}:{variables["PATH"]}'
        # A script that stops its own group stops nobody else.
        self.process = subprocess.Popen([self.script, self.world.db, self.copy, *words], env=variables, stdout=subprocess.PIPE, stderr=subprocess.PIPE, text=True,
                                        start_new_session=True)
        self.addCleanup(self.kill_script)
        if before:
            self.answer_steps(self.process, folder, before)
        out, err = self.process.communicate(timeout=60)
        self.assertEqual([name for name in os.listdir(self.world.folder) if name.startswith('copy.db') and name != 'copy.db'], [])
        return self.process.returncode, out or err

    def kill_script(self):
        if self.process.poll() is None:
            os.killpg(self.process.pid, signal.SIGKILL)
            self.process.wait()

    def make_steps(self, folder):
        os.makedirs(folder, exist_ok=True)
        for name in ('asks', 'answers'):
            if not os.path.exists(os.path.join(folder, name)):
                os.mkfifo(os.path.join(folder, name))
        for name in ('od', 'cat'):
            path = os.path.join(folder, name)
            with open(path, 'w', encoding='utf-8') as file:
                file.write(ASKING.format(name=name, folder=folder, program=shutil.which(name)))
            os.chmod(path, 0o755)

    def answer_steps(self, process, folder, before):
        asks, answers = (os.open(os.path.join(folder, name), os.O_RDWR) for name in ('asks', 'answers'))
        while process.poll() is None:
            if select.select([asks], [], [], 0.02)[0]:
                self.steps.append(os.read(asks, 4096).decode().strip())
                before(len(self.steps), self.steps[-1])
                # What is in the log as it is read.
                if self.steps[-1] == 'cat ci.db-wal':
                    self.rows = self.held()
                os.write(answers, b'\n')
        os.close(asks)
        os.close(answers)

    def in_copy(self):
        """What a copy holds, which must be sound."""
        with closing(sqlite3.connect(self.copy)) as connection:
            self.assertEqual(connection.execute('PRAGMA integrity_check').fetchall() + connection.execute('PRAGMA foreign_key_check').fetchall(), [('ok',)])
            return [connection.execute(query).fetchall() for query in ROWS]

    def copies(self, tries, *words, **how):
        """It makes a copy in so many tries, which holds what the log and the file did as the log was read."""
        self.assertEqual(self.run_script(*words, **how), (0, f'tries: {tries}\n'))
        self.assertEqual(self.in_copy(), self.rows)
        os.remove(self.copy)

    def refuses(self, status, said, *words, **how):
        """It makes none, and says why."""
        found, told = self.run_script(*words, **how)
        self.assertEqual((found, said in told), (status, True), told)
        self.assertFalse(os.path.exists(self.copy))


class Copies(Backup):
    def test_a_server_over_a_copy_goes_on(self):
        self.assertEqual(self.run_script(), (0, 'tries: 1\n'))
        self.assertEqual(stat.S_IMODE(os.stat(self.copy).st_mode), 0o600)
        self.append()
        with World(os.path.join(self.world.folder, 'other')) as other:
            os.rename(self.copy, other.db)
            other.at(1000)
            self.assertEqual(tell(other, 'append j1 1000 "x"'), '202 running 0-1001')
            self.assertEqual(tell(other, 'success j1'), '200 success')
        self.append()

    def test_back_from_a_copy(self):
        self.assertEqual(self.run_script(), (0, 'tries: 1\n'))
        wanted = self.in_copy()
        self.world.seed(SEED)
        for line in ('success j1', 'create 1 next', 'ask r1', 'append j2 0 "x"'):
            self.assertTrue(is_accepted(tell(self.world, line)), line)
        self.world.stop()
        shutil.copyfile(self.copy, self.world.db)
        self.assertNotEqual(self.held(), wanted, 'the log stays')
        os.remove(self.world.db + '-wal')
        os.rename(self.copy, self.world.db)
        self.assertEqual(self.held(), wanted)
        self.told('append j2 0 "x"', '403 M5')
        self.told('append j1 1000 "x"', '202 running 0-1001')
        self.assertRegex(tell(self.world, 'create 1 other'), '^201 {"id":2,')

    def test_back_from_a_copy_by_the_commands_of_the_pages(self):
        self.assertEqual(self.run_script(), (0, 'tries: 1\n'))
        wanted = self.in_copy()
        for page in ('docs/OPERATING.md', 'packaging/debian/ciserver.README.Debian'):
            with open(os.path.join(HERE, '..', page), encoding='utf-8') as file:
                commands, = re.findall(r'(?s)systemctl stop ciserver\n( *away=.*?) *systemctl start', file.read())
            for place, here in (('/var/lib/ciserver/ci.db', self.world.db), ('/root/monday.db', self.copy), ('/backup/monday.db', self.copy),
                                ('/root/', f'{self.world.folder}/'), (' -o ciserver -g ciserver', '')):
                commands = commands.replace(place, here)
            for _ in range(2):
                with self.subTest(page=page):
                    self.set_variable(1)
                    self.world.stop()
                    self.assertTrue(self.header())
                    subprocess.run(['bash', '-c', commands], check=True)
                    self.assertFalse(os.path.exists(self.world.db + '-wal'))
                    self.assertEqual(self.held(), wanted)

    def test_what_is_pruned_by_the_commands_of_the_page_is_in_a_copy(self):
        with open(os.path.join(HERE, '..', 'docs', 'OPERATING.md'), encoding='utf-8') as file:
            commands = re.search(r'(?s)\n## Old pipelines\n.*?```sh\n(.*?)```', file.read())[1]
        for place, here in (('bin/ciserver', PROGRAM), ('examples/backup.sh', SCRIPT), ('ci.db', self.world.db), ('before-2026.db', self.copy)):
            self.assertIn(place, commands)
            commands = commands.replace(place, here)
        self.told('success j1', '200 success')
        self.world.stop()
        ran = lambda: subprocess.run(['bash', '-c', commands], capture_output=True, text=True, check=False)
        self.assertEqual(ran().stdout, 'tries: 1\n{"pruned":1}\n')
        self.assertEqual([row[0] for row in self.in_copy()[1]], [1])
        for line in ('create 1 main', 'cancel-pipeline 1 2'):
            self.assertTrue(is_accepted(tell(self.world, line)), line)
        self.world.stop()
        self.assertEqual((ran().stdout, [row[0] for row in self.held()[1]]), ('', [2]))
        self.assertEqual([row[0] for row in self.in_copy()[1]], [1])

    def test_what_happens_meanwhile(self):
        self.copies(1, before=lambda *_: self.append())
        self.assertEqual(self.steps, STEPS)
        self.assertEqual(sum(len(row[2]) for row in self.rows[5]), self.traced - 1000)

    def test_a_log_that_begins_anew_at_each_step(self):
        for place in range(1, 5):
            with self.subTest(place=place):
                self.copies(1 if place == 1 else 2, before=lambda step, _: step == place and self.begin_log_anew())

    def test_it_was_no_copy_where_the_log_began_anew(self):
        self.altered(['[ "$before" = "$after" ]'], ['true'])
        status, _ = self.run_script(before=lambda step, _: step == 3 and self.begin_log_anew())
        self.assertTrue(status == 1 or self.in_copy() != self.rows)

    def test_a_server_that_is_killed_at_each_step(self):
        for place in range(1, 5):
            with self.subTest(place=place):
                self.append()
                self.copies(1, before=lambda step, _: step == place and self.assertIsNone(self.world.restart()))

    def test_a_server_that_ends_at_each_step(self):
        def end():
            self.world.stop()
            self.ran(0, 'version: 2\n', 'migrate', '--db', self.world.db)
            self.assertIsNone(self.world.start())
        for place in range(1, 5):
            with self.subTest(place=place):
                self.append()
                self.copies(1 if place == 1 else 2, before=lambda step, _: step == place and end())

    def test_a_file_that_nobody_serves(self):
        self.world.stop()
        self.copies(1)
        self.ran(0, 'version: 2\n', 'migrate', '--db', self.world.db)
        self.copies(1)
        os.remove(self.world.db + '-wal')
        self.copies(1)
        self.copies(2, before=lambda step, _: step == 1 and self.assertIsNone(self.world.start()))
        self.assertEqual(self.steps, ['cat ci.db', 'od ci.db-wal', *STEPS])

    def test_a_link_to_the_file(self):
        link = os.path.join(self.world.folder, 'link')
        os.symlink(self.world.db, link)
        self.altered(['realpath "$1"'], [f'realpath {link}'])
        self.copies(1)

    def state(self):
        """Of the server's process: T where it stands still."""
        with open(f'/proc/{self.world.server.pid}/stat', encoding='ascii') as file:
            return file.read().split()[2]

    def test_a_server_that_stands_still(self):
        states = []
        self.copies(1, str(self.world.server.pid), before=lambda *_: states.append(self.state()))
        self.assertEqual(states[1:], ['T'] * 3)
        self.append()
        self.refuses(1, 'store: O3', str(self.world.server.pid), CISERVER=self.false())
        self.append()

    def test_a_signal_while_the_server_stands_still(self):
        for name in ('HUP', 'INT', 'QUIT', 'PIPE', 'TERM'):
            with self.subTest(name=name):
                def ends(step, _):
                    if step == 3:
                        self.assertEqual(self.state(), 'T')
                        self.process.send_signal(getattr(signal, f'SIG{name}'))
                self.refuses(3, '', str(self.world.server.pid), before=ends)
                self.append()

    def test_the_process_of_a_unit_that_does_not_run(self):
        self.world.stop()
        self.copies(1, '0')

    def test_a_line_that_cannot_be_written(self):
        for told in ('/dev/full', '|'):
            reader, writer = os.pipe()
            os.close(reader)
            output = writer if told == '|' else os.open(told, os.O_WRONLY)
            done = subprocess.run([SCRIPT, self.world.db, self.copy], env=dict(os.environ, CISERVER=PROGRAM), stdout=output, stderr=subprocess.DEVNULL, check=False)
            self.assertEqual(done.returncode, 0)
            self.assertEqual(self.in_copy(), self.held())
            self.assertEqual([name for name in os.listdir(self.world.folder) if name.startswith('copy.db')], ['copy.db'])
            os.remove(self.copy)

    def false(self):
        """A program that refuses each file."""
        path = os.path.join(self.world.folder, 'false')
        with open(path, 'w', encoding='ascii') as file:
            file.write('#!/bin/sh\necho store: O3\nexit 3\n')
        os.chmod(path, 0o755)
        return path

    def test_copies_beside_requests(self):
        answered, goes_on = [self.traced], True

        def load():
            while goes_on:
                self.set_variable(self.traced // 100)
                self.append(100)
                answered[0] = self.traced
                time.sleep(0.002)
        thread = threading.Thread(target=load)
        thread.start()
        try:
            for _ in range(5):
                before = answered[0]
                status, told = self.run_script(tries=1000)
                self.assertEqual(status, 0, told)
                self.assertIn(sum(len(row[2]) for row in self.in_copy()[5]), range(before, self.traced + 101))
                os.remove(self.copy)
            self.assertTrue(thread.is_alive())
        finally:
            goes_on = False
            thread.join()


class LogFirst(Backup):
    """A checkpoint has brought all of the log into the file, and fails before the log begins anew."""

    def fails_at(self):
        """After how many events the log begins anew, and at which call of it; nothing of it has happened then."""
        self.world.stop()
        image = self.world.save()
        self.assertIsNone(self.world.start())
        events, calls = self.begin_log_anew()
        self.world.stop()
        self.world.restore(image)
        self.assertIsNone(self.world.start())
        self.world.forget_calls()
        return events, calls + 1

    def run_into_it(self, place):
        """Has it happen before the program of this place: the log has the header that it had."""
        events, call = self.fails_at()
        header, file = self.header(), self.world.save()['ci.db']

        def happens(step, _):
            if step == place:
                self.assertEqual({self.set_variable(number) for number in range(1, events)}, {'200'})
                self.world.fail_from(call, ['log'])
                self.assertEqual(self.set_variable(events), '503 M17')
                self.assertEqual(self.header(), header)
                self.assertNotEqual(self.world.save()['ci.db'], file)
        return self.run_script(before=happens)

    def test_the_file_first(self):
        for place in range(1, 4):
            with self.subTest(place=place):
                self.assertEqual(self.run_into_it(place), (0, 'tries: 1\n'))
                self.assertEqual(self.in_copy(), self.rows)
                os.remove(self.copy)
                self.world.fail_from(None)
                self.world.stop()
                self.ran(0, 'version: 2\n', 'migrate', '--db', self.world.db)

    def test_the_log_first_is_no_copy(self):
        self.altered(IN_ORDER, LOG_FIRST)
        status, _ = self.run_into_it(3)
        self.assertEqual(self.steps, [STEPS[place] for place in (0, 2, 1, 3)])
        self.assertTrue(status == 1 or self.in_copy() not in (self.rows, self.held()))


class Refusals(Backup):
    """No copy is made, and nothing is left of one."""

    def test_the_log_begins_anew_in_each_try(self):
        self.refuses(4, 'in each of 3 tries', tries=3, before=lambda _, name: name == 'cat ci.db' and self.begin_log_anew())
        self.assertEqual(self.steps, STEPS * 3)

    def test_a_file_that_is_damaged(self):
        self.world.stop()
        self.ran(0, 'version: 2\n', 'migrate', '--db', self.world.db)
        with open(self.world.db, 'r+b') as file:
            file.seek(1024)
            file.write(b'\xff' * 8)
        self.rows = self.held = lambda: None
        self.refuses(1, 'store: O3')

    def test_what_is_there_stays(self):
        for name in (self.copy, self.copy + '-wal'):
            with open(name, 'w', encoding='ascii') as file:
                file.write('kept')
            done = subprocess.run([SCRIPT, self.world.db, self.copy], env=dict(os.environ, CISERVER=PROGRAM), capture_output=True, text=True, check=False)
            self.assertEqual((done.returncode, done.stderr), (3, f'backup.sh: {name} is there\n'))
            with open(name, encoding='ascii') as file:
                self.assertEqual(file.read(), 'kept')
            os.remove(name)

    def test_a_name_that_is_taken_meanwhile_stays(self):
        def take(step, _):
            if step == 4:
                with open(self.copy, 'w', encoding='ascii') as file:
                    file.write('kept')
        self.assertEqual(self.run_script(before=take), (3, f'backup.sh: {self.copy} is there\n'))
        with open(self.copy, encoding='ascii') as file:
            self.assertEqual(file.read(), 'kept')

    def test_words_and_files_that_are_none(self):
        self.refuses(2, 'FILE COPY [PID]', '1', '2')
        for pid in ('-1', '00', 'ciserver'):
            self.refuses(2, f'the number of a process, and not {pid}', pid)
        self.refuses(3, 'there is no nothing', CISERVER='nothing')
        self.refuses(3, 'No such process', '4194305')
        self.altered(['realpath "$1"'], ['realpath "$1.none"'])
        self.refuses(3, 'No such file')
