"""Files of version 1, which the first command that opens one makes one of version 2: what the server answers then, which rows are there, each call of
the store that fails and each that is the last one before a kill, and files that are no files of these versions."""
import os
import random
import re
import shutil
import signal
import sqlite3
import tempfile
from contextlib import closing

from cases import Case, alter, drawn, tell
from choices import state
from listings import wanted as listed
from reads import reads
from transactions import copied
from world import HERE

ROOT = os.path.join(HERE, '..')
MOST_CALLS = 500
TABLES = ['meta', 'project', 'runner', 'pipeline', 'job', 'jobvar', 'attempt', 'piece', 'need', 'board', 'variable', 'holder']
LISTED = 'SELECT type, name, tbl_name, sql FROM sqlite_schema ORDER BY rowid'
MIGRATED, CURRENT = 'migrated: 1 to 2\n', 'version: 2\n'

# What changes nothing. The first attempt is live and holds the group `prod`, for which the other two jobs with it wait; its lease is over at 1120.
LOOKS = [
    ('at 1000 show-mode 1 prod', '200 {"key":"prod","process_mode":"unordered"}'),
    ('at 1000 ask r2', '204'),
    ('at 1000 show-pipeline 1 1',
     '200 {"id":1,"jobs":[{"id":1,"name":"ship","stage":"test","status":"running"}],"ref":"a","source":"api","status":"running"}'),
    ('at 1000 show-pipeline 1 2', '200 {"id":2,"jobs":[{"id":2,"name":"ship","stage":"test","status":"waiting_for_resource"},'
     '{"id":3,"name":"after","stage":"deploy","status":"created"}],"ref":"b","source":"api","status":"pending"}'),
    ('at 1000 trace 1 1', '200 "hello"'),
    ('at 1119 show-job 1 1', '200 {"id":1,"name":"ship","stage":"test","status":"running"}'),
]


def grant(pipeline):
    """The second attempt: of the job of the second pipeline, or of that of the third one."""
    return ('201 {"id":2,"job_info":{"name":"ship","project_id":1,"stage":"test"},"script":["x"],"timeout":3600,"token":"j2-' + 'ab' * 16 + '",'
            '"variables":[{"key":"CI","value":"true"},{"key":"CI_JOB_ID","value":"2"},{"key":"CI_PIPELINE_ID","value":"' + str(pipeline) + '"}]}')


# The attempt goes on and ends, and the next pending job gets the group.
GOES_ON = [
    ('at 1010 append j1 5 " world"', '202 running 0-11'),
    ('at 1010 trace 1 1', '200 "hello world"'),
    ('at 1010 running j1', '200 running'),
    ('at 1010 ask r2', '204'),
    ('at 1020 success j1', '200 success'),
    ('at 1020 ask r2', grant(2)),
]
# The group's mode is set, and has changed nothing of who holds it.
OLDEST, NEWEST = ('200 {"key":"prod","process_mode":"%s"}' % mode for mode in ('oldest_first', 'newest_ready_first'))
SETS_OLDEST = [('at 1000 set-mode 1 prod oldest_first', OLDEST), ('at 1000 show-mode 1 prod', OLDEST), ('at 1000 ask r2', '204')]
# It is there still; then it is set to the other order.
SETS_NEWEST = [('at 1000 show-mode 1 prod', OLDEST), ('at 1000 set-mode 1 prod newest_ready_first', NEWEST)]
# That is there still, and the newest pipeline's job gets the group.
NEWEST_FIRST = [('at 1000 show-mode 1 prod', NEWEST), ('at 1020 success j1', '200 success'), ('at 1020 ask r2', grant(3))]


def schema():
    """The texts of the tables and indexes of version 1, as docs/STORE.md has them: the first texts of SQL there."""
    with open(os.path.join(ROOT, 'docs', 'STORE.md'), encoding='utf-8') as file:
        return re.search(r'^```sql\n(.*?)^```$', file.read(), re.M | re.S)[1]


def make(path, rows=os.path.join(HERE, 'version1.sql'), in_log=False):
    """Has the C library make a file of version 1, with its rows; they may all be left in its log."""
    with open(rows, encoding='utf-8') as file:
        texts = schema() + file.read()
    with tempfile.TemporaryDirectory() as folder:
        made = os.path.join(folder, 'made.db')
        with closing(sqlite3.connect(made)) as connection:
            connection.executescript('PRAGMA page_size = 1024;' + ('PRAGMA journal_mode = WAL;' if in_log else '') + 'BEGIN;' + texts + 'COMMIT;')
            for end in ('', '-wal') if in_log else ('',):
                shutil.copyfile(made + end, path + end)


class Files(Case):
    """Tests over a file of version 1."""

    def made(self, **how):
        make(self.world.db, **how)
        self.rows = self.held()['rows']
        self.is_whole(1)

    def held(self):
        """What the file has: its version, what it lists, the rows of all tables of version 1 but for that of the version, and those of `mode`."""
        with copied(self.world) as connection:
            ask = lambda query: connection.execute(query).fetchall()
            listed = ask(LISTED)
            return {
                'version': ask("SELECT num FROM meta WHERE key = 'version'"), 'listed': listed,
                'rows': {table: ask(f'SELECT * FROM {table}' + (" WHERE key <> 'version'" if table == 'meta' else '')) for table in TABLES},
                'modes': ask('SELECT * FROM mode') if any(row[1] == b'mode' for row in listed) else None,
                'sound': ask('PRAGMA integrity_check') + ask('PRAGMA foreign_key_check'),
            }

    def is_whole(self, version):
        """It is a whole file of this version, with each row that was there; no group has a mode."""
        held = self.held()
        self.assertEqual(held['version'], [(version,)])
        self.assertEqual(held['rows'], self.rows)
        self.assertEqual(held['modes'], [] if version == 2 else None)
        self.assertEqual(held['sound'], [(b'ok',)])

    def migrates(self, out):
        self.ran(0, out, 'migrate', '--db', self.world.db)

    def follow(self, rows):
        """A server is started, and answers each row."""
        self.world.stop()
        for line, wanted in rows:
            self.told(line, wanted)
        self.world.stop()


class Openings(Files):
    """A file of version 1 is opened, closed and opened again."""

    def test_a_live_attempt_outlives_the_migration(self):
        self.made()
        self.migrates(MIGRATED)
        self.follow(LOOKS)
        self.migrates(CURRENT)
        self.follow(LOOKS)
        self.follow(GOES_ON)

    def test_a_server_migrates_as_it_opens(self):
        for in_log in (False, True):
            self.world.stop()
            self.world.restore({})
            self.made(in_log=in_log)
            self.follow(LOOKS + GOES_ON)
            self.migrates(CURRENT)

    def test_a_group_of_a_migrated_file_gets_an_order(self):
        self.made()
        self.follow(SETS_OLDEST)
        self.follow(SETS_NEWEST)
        self.migrates(CURRENT)
        self.follow(NEWEST_FIRST)

    def test_each_row_is_there_after_the_migration(self):
        self.made()
        self.migrates(MIGRATED)
        self.is_whole(2)
        self.migrates(CURRENT)
        self.is_whole(2)

    def test_a_migrated_file_lists_what_a_new_one_does(self):
        self.made()
        old = self.held()['listed']
        self.migrates(MIGRATED)
        migrated = self.held()['listed']
        self.world.restore({})
        self.begin()
        self.assertEqual((len(old), len(migrated)), (29, 31))
        self.assertEqual(migrated, self.held()['listed'])

    def test_a_new_file_was_not_migrated(self):
        self.begin()
        self.migrates(CURRENT)

    def test_each_command_migrates(self):
        """And none but `migrate` says a word of it."""
        token = 'ab' * 16
        queue = """\
     JOB PROJECT STATUS               NAME
       2       1 waiting_for_resource ship
       4       1 waiting_for_resource ship
jobs: 2
"""
        for status, out, words in [(0, queue, ['report', '--kind', 'queue']), (0, '', ['prune', '--before', '1970-01-01']),
                                   (0, f'{{"id":2,"token":"p2-{token}"}}\n', ['project-add', '--name', 'q']),
                                   (0, f'{{"id":3,"token":"r3-{token}"}}\n', ['runner-add', '--name', 'r']),
                                   (1, '{"code":"M2"}\n', ['runner-add', '--name', 'r', '--project', '9']),
                                   (0, '{"id":1,"paused":true}\n', ['runner-pause', '--runner', '1'])]:
            with self.subTest(words=words):
                self.world.restore({})
                self.made()
                self.ran(status, out, words[0], '--db', self.world.db, *words[1:])
                self.assertEqual(self.held()['version'], [(2,)])
                self.migrates(CURRENT)

    def test_a_migration_that_nobody_hears(self):
        self.made()
        with open('/dev/full', 'wb') as full:
            self.assertEqual(self.world.command('migrate', '--db', self.world.db, stdout=full).status, 3)
        self.is_whole(2)
        self.migrates(CURRENT)


class Stops(Files):
    """Each call of the store fails in turn as the file is migrated, or is the last one before a kill; then the program or the machine has stopped, and the
    file is opened again."""

    def setUp(self):
        super().setUp()
        self.seed = drawn()
        self.random = random.Random(self.seed)
        self.seen = {}

    def taken_over(self, image):
        """The version of what a stop left, which must be whole. It is opened, tells that it migrated it exactly where that was 1, and answers as ever."""
        key = tuple(sorted(image.items()))
        if key not in self.seen:
            self.world.restore(image)
            version, = self.held()['version'][0]
            self.is_whole(version)
            self.migrates(MIGRATED if version == 1 else CURRENT)
            self.is_whole(2)
            self.follow(LOOKS)
            self.seen[key] = version
        return self.seen[key]

    def tried(self, image, file, call, dies):
        """A migration of which the call of a file fails, or is the last: was it made? The versions that stops left, of the program first."""
        self.world.restore(image)
        self.world.forget_calls()
        self.world.fail_from(call, [file], reads=True, torn=self.random.random() < 0.5, dies=dies)
        ran = self.world.command('migrate', '--db', self.world.db)
        met = self.world.calls(file) >= call
        self.world.fail_from(None)
        if not met:
            self.assertEqual(ran[:2], (0, MIGRATED))
        elif dies:
            self.assertEqual(ran.status, -signal.SIGKILL)
        elif ran.out != MIGRATED:
            self.assertEqual(ran[:2], (3, 'store: O3\n'))
        versions = [self.taken_over(left) for left in [self.world.save(), *self.world.losses(self.random, 1)]]
        if ran.out == MIGRATED:
            self.assertEqual(set(versions), {2})
        return met, versions

    def each(self, dies, in_log):
        """How often a fault of each file left each version, as the program stops."""
        self.made(in_log=in_log)
        image, found = self.world.save(), {}
        for file in ('log', 'db'):
            for call in range(1, MOST_CALLS):
                with self.subTest(file=file, call=call, SEED=self.seed):
                    met, versions = self.tried(image, file, call, dies)
                    if not met:
                        break
                    found.setdefault((file, versions[0]), []).append(call)
            self.assertFalse(met, 'it ends well at last')
        return found

    def log_left_both(self, found):
        """A commit is written before it is synced."""
        self.assertIn(('log', 1), found)
        self.assertIn(('log', 2), found)

    def test_each_call_fails(self):
        self.log_left_both(self.each(False, False))

    def test_each_call_fails_beside_a_log_with_all_rows(self):
        self.log_left_both(self.each(False, True))

    def test_it_is_killed_at_each_call(self):
        self.log_left_both(self.each(True, False))

    def test_it_is_killed_at_each_call_beside_a_log_with_all_rows(self):
        self.log_left_both(self.each(True, True))


class Refusals(Files):
    """Files that no command opens, and that are left as they were."""

    REFUSED = [
        ("UPDATE meta SET num = 1 WHERE key = 'format'", 'O1'),
        ("DELETE FROM meta WHERE key = 'format'", 'O1'),
        ("UPDATE meta SET num = 3 WHERE key = 'version'", 'O2'),
        ("UPDATE meta SET num = 0 WHERE key = 'version'", 'O2'),
        ("DELETE FROM meta WHERE key = 'version'", 'O2'),
        # It has a table of this name already, of another form.
        ('CREATE TABLE mode (text TEXT)', 'O3'),
    ]

    def test_other_files_are_refused_and_left_as_they_were(self):
        for statement, code in self.REFUSED:
            with self.subTest(statement=statement):
                self.world.restore({})
                self.made()
                alter(self.world, statement)
                before = self.held()
                for words in (['migrate'], ['report', '--kind', 'queue'], ['serve', '--port', '9', '--requests', '1']):
                    self.ran(3, f'store: {code}\n', words[0], '--db', self.world.db, *words[1:])
                    self.assertEqual(self.held(), before)

    def test_it_opens_once_it_has_its_own_number_again(self):
        self.made()
        for key, other, own in (('format', 1, 1128878163), ('version', 3, 1)):
            alter(self.world, f"UPDATE meta SET num = {other} WHERE key = '{key}'")
            self.assertEqual(self.world.command('migrate', '--db', self.world.db).status, 3)
            alter(self.world, f"UPDATE meta SET num = {own} WHERE key = '{key}'")
        self.migrates(MIGRATED)
        self.is_whole(2)


class Shell(Files):
    """A file that was made by other rows, of which a lease is long over."""

    def make_over(self):
        self.made(rows=os.path.join(ROOT, '.ci', 'version1.sql'))

    def test_a_file_of_the_c_library_is_migrated(self):
        self.make_over()
        self.migrates(MIGRATED)
        self.is_whole(2)
        self.migrates(CURRENT)
        self.is_whole(2)

    def test_a_file_of_the_c_library_is_served(self):
        self.make_over()
        token = ' with p1-' + '0' * 31 + '1'
        ended = ('200 {"id":1,"jobs":[{"id":1,"name":"build","stage":"build","status":"success"},{"id":2,"name":"ship","stage":"test","status":"failed"},'
                 '{"id":3,"name":"after","stage":"deploy","status":"skipped"}],"ref":"main","source":"api","status":"failed"}')
        created = ('201 {"id":2,"jobs":[{"id":4,"name":"build","stage":"build","status":"pending"},{"id":5,"name":"ship","stage":"test","status":"created"},'
                   '{"id":6,"name":"after","stage":"deploy","status":"created"}],"ref":"next","source":"api","status":"pending"}')
        self.world.at(2000)
        self.assertEqual(tell(self.world, 'show-pipeline 1 1' + token), ended)
        for line in [*reads(), *reads(job=2, attempt=3)]:
            self.assertEqual(tell(self.world, line + token), listed(state(self.world), line), line)
        for line, wanted in [('trace 1 1', '200'), ('trace 1 3', '200'),
                             ('retry 1 2', '200 {"id":2,"name":"ship","stage":"test","status":"pending"}'),
                             ('show-mode 1 prod', '200 {"key":"prod","process_mode":"unordered"}'), ('create 1 next', created),
                             ('set-mode 1 prod newest_ready_first', NEWEST), ('show-mode 1 prod', NEWEST)]:
            self.assertEqual(tell(self.world, line + token), wanted, line)
        self.assertEqual(tell(self.world, 'trace 1 2' + token), '200 "' + '\\x00' * 16384 + 'shipped"')
        self.world.stop()
        self.migrates(CURRENT)
        self.assertEqual(self.world.rows('SELECT * FROM mode'), [(1, 'prod', 2)])
