"""What the jobs that convert.py writes do in a shell, and what its parts answer.

python3 -m unittest examples/convert/test_convert.py; test.sh runs it too. It wants bash and python3-yaml.
"""
from __future__ import annotations

import ast
import contextlib
import importlib.util
import io
import itertools
import os
import random
import re
import signal
import subprocess
import sys
import tempfile
import unittest
import unittest.mock

sys.dont_write_bytecode = True
HERE = os.path.dirname(os.path.abspath(__file__))
sys.path.insert(0, os.path.dirname(HERE))

from convert.expressions import formula  # noqa: E402
from convert.jobs import Converter  # noqa: E402
from convert.keywords import LEFT_OUT  # noqa: E402
from convert.linking import Linker  # noqa: E402
from convert.notes import Notes  # noqa: E402
from convert.reading import Reader  # noqa: E402
from convert.scripts import is_whole, shell  # noqa: E402
from convert.tree import Refused, Unread  # noqa: E402
from convert.writing import written  # noqa: E402


def converter_of(content: str, **values: str) -> Converter:
    notes = Notes()
    config = Reader(".", notes).load("ci.yml", content)
    return Converter(Linker(config, notes, False).whole(), notes, values)


def converted(content: str, **values: str) -> dict:
    return converter_of(content, **values).whole()


def run(made: dict, name: str, rule: int | None = None, **above: str) -> subprocess.CompletedProcess:
    """Runs a job as examples/runner.sh does, each part of its script by itself in one shell. `above` are variables of the project or the request."""
    job = made[name]
    ruled = {} if rule is None else job["rules"][rule].get("variables", {})
    variables = made.get("variables", {}) | job.get("variables", {}) | ruled | above
    lines = ["set -eo pipefail", *("eval " + "'" + it.replace("'", "'\\''") + "'" for it in job["script"])]
    with tempfile.TemporaryDirectory() as folder:
        return subprocess.run(["bash", "-c", "\n".join(lines)], env={"PATH": os.environ["PATH"], **variables}, cwd=folder, text=True,
                              capture_output=True, timeout=20, check=False)


class Values(unittest.TestCase):
    """Values of variables that name other variables."""

    FILE = """
variables:
  TARGET: staging
  URL: https://$TARGET.example.com
  DEEP: ${URL}/x
  SIGNS: it's "$TARGET" `id` $(id) \\ $$1 $
  RAW: {value: $TARGET, expand: false}
staging:
  script: echo "$DEEP"
prod:
  variables: {TARGET: prod}
  script: echo "$DEEP"
own:
  variables: {URL: "http://$TARGET", TARGET: "$NOTHING.$RAW"}
  script: echo "$DEEP"
signs:
  script: echo "$SIGNS" "$RAW"
ruled:
  script: echo "$DEEP" "$PAGE"
  rules: [{if: $CI_COMMIT_TAG, variables: {TARGET: tagged, PAGE: "$DEEP/y"}}, {if: $CI_COMMIT_BRANCH}]
each:
  parallel: {matrix: [{TARGET: [one, two]}]}
  script: echo "$DEEP"
"""

    def says(self, wanted: str, name: str, rule: int | None = None, **above: str) -> None:
        self.assertEqual(run(converted(self.FILE), name, rule, **above).stdout, wanted + "\n")

    def test_a_job_has_its_own_value(self) -> None:
        self.says("https://staging.example.com/x", "staging")
        self.says("https://prod.example.com/x", "prod")

    def test_a_job_s_values_name_one_another(self) -> None:
        self.says("http://.$TARGET/x", "own")

    def test_what_the_project_or_the_request_sets_counts(self) -> None:
        self.says("https://mine.example.com/x", "prod", TARGET="mine")
        self.says("ftp://here/x", "prod", URL="ftp://here")
        self.says("mine", "prod", DEEP="mine")

    def test_signs_of_the_shell_stay(self) -> None:
        self.says("it's \"staging\" `id` $(id) \\ $1 $ $TARGET", "signs")

    def test_the_rule_that_matched_counts(self) -> None:
        self.says("https://tagged.example.com/x https://tagged.example.com/x/y", "ruled", 0)
        self.says("https://staging.example.com/x ", "ruled", 1)

    def test_each_row_of_a_matrix_has_its_own(self) -> None:
        self.says("https://one.example.com/x", "each: [one]")
        self.says("https://two.example.com/x", "each: [two]")


class AfterScripts(unittest.TestCase):
    """An after_script runs in the job's first folder, in a shell of its own, always, and its exit code doesn't count."""

    def ends(self, script: str, after: str) -> tuple[int, str]:
        made = converted(f"job:\n  variables: {{A: set}}\n  script:\n{script}\n  after_script:\n{after}\n")
        ended = run(made, "job")
        return ended.returncode, ended.stdout

    def test_it_runs_in_the_first_folder(self) -> None:
        self.assertEqual(self.ends("    - mkdir deep\n    - cd deep", "    - ls"), (0, "deep\n"))

    def test_it_has_a_shell_of_its_own(self) -> None:
        self.assertEqual(self.ends("    - export A=changed B=new", "    - echo $A $B."), (0, "set .\n"))

    def test_it_runs_where_the_script_fails(self) -> None:
        self.assertEqual(self.ends("    - echo one\n    - (exit 7)\n    - echo never", "    - echo $CI_JOB_STATUS"), (7, "one\nfailed\n"))
        self.assertEqual(self.ends("    - false | true\n    - echo never", "    - echo $CI_JOB_STATUS"), (1, "failed\n"))
        self.assertEqual(self.ends("    - exit 3", "    - echo $CI_JOB_STATUS"), (3, "failed\n"))

    def test_a_trap_of_the_script_stays_beside_it(self) -> None:
        self.assertEqual(self.ends("    - trap 'echo trapped' EXIT\n    - echo one", "    - echo $CI_JOB_STATUS"), (0, "one\ntrapped\nsuccess\n"))

    def test_its_exit_code_doesn_t_count(self) -> None:
        self.assertEqual(self.ends("    - echo one", "    - echo two\n    - exit 9"), (0, "one\ntwo\n"))
        self.assertEqual(self.ends("    - echo one", "    - false\n    - echo never"), (0, "one\n"))

    def test_it_runs_where_the_job_s_group_is_asked_to_end(self) -> None:
        made = converted("job:\n  script: [echo one, sleep 60]\n  after_script: [echo two]\n")
        lines = "set -eo pipefail\neval '" + made["job"]["script"][0].replace("'", "'\\''") + "'"
        with subprocess.Popen(["bash", "-c", lines], stdout=subprocess.PIPE, stderr=subprocess.DEVNULL, text=True,
                              start_new_session=True) as job:
            self.assertEqual(job.stdout.readline(), "one\n")
            os.killpg(job.pid, signal.SIGTERM)
            self.assertEqual(job.communicate(timeout=20)[0], "two\n")
        self.assertEqual(job.returncode, 143)


class Parts(unittest.TestCase):
    """Commands that go over several items of a script become one part."""

    def test_they_do_where_there_is_no_bash(self) -> None:
        def which(name: str) -> str | None:
            return None if name == "bash" else "/bin/sh"

        self.addCleanup(shell.cache_clear)
        shell.cache_clear()
        is_whole.cache_clear()
        with unittest.mock.patch("shutil.which", which):
            made = converted("job: {script: ['if true; then', echo one, fi, echo two]}")
        self.assertEqual(made["job"]["script"], ["if true; then\necho one\nfi\n", "echo two"])


class Workflows(unittest.TestCase):
    """The rules of a job, as they are written, decide as those of the workflow and of the job do one after the other."""

    CONDITIONS = ("$A", '$A == "x"', '$B != "x" || $C', "$A && ($B || $C)", "($A || $B) && $C =~ /x/", None)
    OF_GATE = ('$GATE == "1"', '$GATE != "0" && $A', '$A == $GATE || $GATE =~ /^[12]/')
    VALUES = (None, "", "x", "1")

    def holds(self, said, values: dict) -> bool:
        kind, parts = said
        if kind != "is":
            return (any if kind == "||" else all)(self.holds(it, values) for it in parts)
        value = values[parts[0][1:]]
        if len(parts) == 1:
            return bool(value)
        if parts[1] in ("=~", "!~"):
            return bool(re.search(parts[2][1:-1], value or "")) == (parts[1] == "=~")
        other = None if parts[2] == "null" else values[parts[2][1:]] if parts[2][0] == "$" else parts[2][1:-1]
        return (value == other) == (parts[1] == "==")

    def first(self, rules: list[tuple], values: dict) -> tuple | None:
        """The first rule that holds."""
        return next((it for it in rules if it[0] is None or self.holds(formula(it[0]), values)), None)

    def rules(self, rules: list[tuple], variables: str) -> str:
        heads = [f"if: '{said}', " if said else "" for said, _ in rules]
        return "".join(f"    - {{{head}when: {when}{variables % i}}}\n" for i, (head, (_, when)) in enumerate(zip(heads, rules)))

    def decided(self, outer: list[tuple], inner: list[tuple], values: dict) -> tuple | None:
        """The word and the variable with which a job is in the pipeline."""
        gate = self.first(outer, values)
        own = self.first(inner, values | {"GATE": str(outer.index(gate)) if gate else None})
        if gate is None or gate[1] == "never" or own is None or own[1] == "never":
            return None
        return own[1], str(outer.index(gate))

    def test_they_decide_alike(self) -> None:
        chance = random.Random(1)
        for _ in range(100):
            outer = [(chance.choice(self.CONDITIONS), chance.choice(("always", "never"))) for _ in range(chance.randint(1, 4))]
            outer = list(dict.fromkeys(outer))
            inner = [(chance.choice(self.CONDITIONS + self.OF_GATE), chance.choice(("manual", "on_success", "never")))
                     for _ in range(chance.randint(1, 3))]
            content = "workflow:\n  rules:\n" + self.rules(outer, ", variables: {GATE: '%d'}")
            made = converted(content + "job:\n  script: make\n  rules:\n" + self.rules(inner, "%.0s"))["job"]["rules"]
            for row in itertools.product(self.VALUES, repeat=3):
                values = dict(zip("ABC", row))
                rule = self.first([(it.get("if"), it["when"], it.get("variables", {}).get("GATE")) for it in made], values)
                got = None if rule is None or rule[1] == "never" else rule[1:]
                self.assertEqual(got, self.decided(outer, inner, values), (outer, inner, values))


class RepeatedScripts(unittest.TestCase):
    """What stands in several scripts can stand once, and the jobs do the same."""

    SHARED = "".join(f"    - echo shared line {i} of a long script \"$A\" 'b'\n" for i in range(20))
    TAIL = "    - |\n      cat <<END\n      of a text\n      END\n    - local=1; echo $local that stands in two scripts and no more than that\n"

    def content(self, count: int) -> str:
        jobs = [f"job{i}:\n  variables: {{A: '{i}'}}\n  script:\n{self.SHARED}    - echo own {i}\n{self.TAIL if i < 2 else ''}" for i in range(count)]
        failing = f"failing:\n  after_script: [echo after]\n  script:\n{self.SHARED}    - false\n    - echo never\n"
        return "variables: {URL: $A/x}\nafter_script: []\n" + "\n".join([*jobs, failing])

    def test_the_jobs_do_the_same(self) -> None:
        converter = converter_of(self.content(4))
        long, short = converter.whole(), converter.shorter()
        self.assertEqual([key for key in short["variables"] if key != "URL"], ["SCRIPT_1", "SCRIPT_2", "SCRIPT_3"])
        for name in ("job0", "job1", "job3", "failing"):
            wanted, got = run(long, name), run(short, name)
            self.assertEqual((got.returncode, got.stdout), (wanted.returncode, wanted.stdout))
        self.assertEqual(short["job3"]["script"], ['eval "$SCRIPT_3"\n', 'eval "$SCRIPT_1"', "echo own 3"])

    def test_a_long_file_is_short_enough(self) -> None:
        converter = converter_of(self.content(75))
        self.assertGreater(len(written(converter.whole())), 75 * len(self.SHARED))
        self.assertLess(len(written(converter.shorter())), 65_536)


class Refusals(unittest.TestCase):
    """What is refused, with its line."""

    JOB = "build: {script: make}\n"
    GATE = "variables: {A: \"'\\\"t\\n\"}\nworkflow: {rules: [{if: '$A %s'}]}\nbuild: {script: make, variables: {A: b}}"
    ROWS = (
        ("build: {script: make, services: [[a, {alias: b}]]}", 1, "services: a service is neither a name nor a map with one"),
        ("build: {script: make, cache: x}", 1, "cache: it is no map"),
        ("build: {script: make,\n artifacts: x}", 2, "artifacts: it is no map"),
        (JOB + "test: make", 2, "it is no map"),
        ("'': {script: make}", 1, "`` is no name: that has 1 to 255 bytes, and no control characters"),
        ("build: {script: make, parallel: 2}\n" + "build 1/2: {script: make}", 2, "two jobs would be named `build 1/2`"),
        ("".join(f"job{i}: {{script: make, parallel: 200}}\n" for i in range(6)), 6, "there are over 1000 jobs"),
        ("".join(f".a{i}: {{extends: .a{i + 1}}}\n" for i in range(13)) + ".a13: {script: make}\n" + JOB, 13, "`extends` goes too deep"),
        (".a: {script: !reference [.b, script]}\n.b: {script: !reference [.a, script]}\n" + JOB, 1,
         "!reference [.b, script] goes round in a circle, or too deep"),
        (".a: &a [x, x, x, x, x, x, x, x, x, x]\n" + "".join(f".{it}: &{it} [{', '.join(['*' + up] * 10)}]\n" for up, it in zip("abc", "bcd")), 1,
         "the file is too big, written out"),
        (".a: [x, x, x, x, x, x, x, x, x, x]\n" + "".join(f".{it}: [{', '.join([f'!reference [.{up}]'] * 10)}]\n" for up, it in zip("abc", "bcd")), 1,
         "the file is too big, written out"),
        ("build: \x01", 1, "this is no YAML: unacceptable character #x0001: special characters are not allowed in \"<unicode string>\", position 7"),
        ("build:\n  ? [a]\n  : b", 2, "a key is no text"),
        ("build:\n  script: make\n  <<: x", 3, "a merge key wants maps"),
        ("build:\n  script: make\n  only: [main, {a: b}]", 3, "only: `{'a': 'b'}` can't be said here"),
        ("build:\n  script: make\n  only: {variables: [$A =~ $B]}", 3, "only: `$A =~ $B` can't be said here"),
        ("build:\n  script: make\n  except: ['/x\\/']", 3, "except: `/x\\/` can't be said here"),
        ("build:\n  script: make\n  allow_failure: {exit_codes: [x]}", 3, "allow_failure: `exit_codes` is no number, and no list of them"),
        ("build:\n  script: make\n  rules: [x]", 3, "a rule is no map"),
        ("workflow: {rules: [x]}\n" + JOB, 1, "a rule is no map"),
        ("build:\n  script: make\n  tags: [{a: b}]", 3, "tags: a map stands where a text is due"),
        ("build:\n  script: make\n  parallel: {matrix: [x]}", 3, "parallel: the matrix is no list of maps"),
        ("build:\n  script: make\n  parallel:\n    matrix: [{A: [" + ", ".join(map(str, range(201))) + "]}]", 3,
         "parallel: the matrix has over 200 rows"),
        ("build:\n  script: make\n  parallel: {matrix: []}", 3, "parallel: the matrix has no rows"),
        (".a: {script: !reference [[b]]}\n" + JOB, 1, "!reference: it is no list of keys"),
        ("variables:\n  A: [b]\n" + JOB, 2, "the value of the variable `A` is no text"),
        (JOB + 'test: {script: "\\ud83d"}', 2, "this is no YAML: an escape is no character"),
        (JOB + 'test: {script: "\\U00110000"}', 2, "this is no YAML: an escape is no character"),
        (JOB + 'test: {script: "\\UFFFFFFFF"}', 2, "this is no YAML: an escape is no character"),
        ("test: {script: make, parallel: {matrix: [{A: [b, " + "c" * 250 + "]}]}}", 1,
         "`test: [" + "c" * 33 + "` is no name: that has 1 to 255 bytes, and no control characters"),
        ('test: {script: make, parallel: {matrix: [{A: ["b\\nc"]}]}}', 1,
         "`test: [b\nc]` is no name: that has 1 to 255 bytes, and no control characters"),
        ("test: {script: make, parallel: {matrix: [{A: b,\n  A-B: c}]}}", 2, "parallel: `A-B` is no name of a variable"),
        (JOB + 'variables: {A: "b\\ufeff"}', 2, "`b\ufeff` can't be written: a control character or a mark of byte order can't stand in it"),
        (JOB + 'variables: {A: " b\\n\\e"}', 2, "` b\n\x1b` can't be written: a control character or a mark of byte order can't stand in it"),
        (GATE % "=~ /\\p{Lu}/", 2, "workflow: `/\\p{Lu}/` can't be looked for in a value of the file"),
        (GATE % "=~ /[[:alpha:]]/", 2, "workflow: `/[[:alpha:]]/` can't be looked for in a value of the file"),
        (GATE % "=~ /(/", 2, "workflow: `/(/` can't be looked for in a value of the file"),
        (GATE % "!~ /t$/", 2, "workflow: `/t$/` can't be looked for in a value of the file"),
        (GATE % "== $OTHER", 2, "workflow: `'\"t\n` can't stand in an expression, for it has quotes of both kinds"),
    )
    INCLUDES = (
        ("include:\n  - local: a.yml\n    inputs: b", 3, "include: `inputs` is no map"),
        ('include: "a\\0b"', 1, "include: it is no name of a file"),
    )

    @unittest.mock.patch("convert.reading.MOST_NODES", 1_000)
    @unittest.mock.patch("convert.linking.MOST_NODES", 1_000)
    def test_each_row_is_refused(self) -> None:
        for content, line, sentence in self.ROWS:
            with self.subTest(sentence), self.assertRaises(Refused) as said:
                written(converted(content))
            self.assertEqual(said.exception.args, (("ci.yml", line), sentence))

    def test_each_include_is_refused(self) -> None:
        for content, line, sentence in self.INCLUDES:
            reader = Reader(".", Notes())
            with self.subTest(sentence), self.assertRaises(Refused) as said:
                reader.with_includes(reader.load("ci.yml", content))
            self.assertEqual(said.exception.args, (("ci.yml", line), sentence))

    def test_over_150_files_are_refused(self) -> None:
        with tempfile.TemporaryDirectory() as folder:
            for i in range(151):
                with open(os.path.join(folder, f"{i}.yml"), "w", encoding="utf-8") as file:
                    file.write(f"job{i}: {{script: make}}\n")
            reader = Reader(folder, Notes())
            with self.assertRaises(Refused) as said:
                reader.with_includes(reader.load("ci.yml", "include: '*.yml'"))
            self.assertEqual(said.exception.args[1], "over 150 files are included")


class Sentences(unittest.TestCase):
    """Each sentence that convert.py says is said in one of the cases."""

    def test_each_place_that_says_something_is_come_to(self) -> None:
        come_to: set[tuple[str, int]] = set()

        def trace(frame, event, _):
            if os.path.dirname(frame.f_code.co_filename) != HERE:
                return None
            come_to.add((os.path.basename(frame.f_code.co_filename), frame.f_lineno))
            return trace

        sys.settrace(trace)
        try:
            self.convert_all_cases()
            Refusals("test_each_row_is_refused").debug()
            Refusals("test_each_include_is_refused").debug()
            Refusals("test_over_150_files_are_refused").debug()
        finally:
            sys.settrace(None)
        for name in sorted(it for it in os.listdir(HERE) if it.endswith(".py") and it != os.path.basename(__file__)):
            for first, last in self.says(name):
                with self.subTest(f"{name}:{first}"):
                    self.assertTrue(any((name, line) in come_to for line in range(first, last + 1)))

    def says(self, name: str) -> list[tuple[int, int]]:
        """The lines of the statements that note or refuse something."""
        with open(os.path.join(HERE, name), encoding="utf-8") as file:
            nodes = list(ast.walk(ast.parse(file.read())))
        calls = [it for it in nodes if isinstance(it, ast.Call) and isinstance(it.func, ast.Attribute) and it.func.attr == "add"]
        notes = [it for it in calls if "notes" in ast.unparse(it.func.value)]
        return [(it.lineno, it.end_lineno) for it in notes + [it for it in nodes if isinstance(it, ast.Raise)]]

    def convert_all_cases(self) -> None:
        spec = importlib.util.spec_from_file_location("convert_command", os.path.join(HERE, "..", "convert.py"))
        command = importlib.util.module_from_spec(spec)
        spec.loader.exec_module(command)
        was = os.getcwd()
        os.chdir(os.path.join(HERE, "cases"))
        for name in sorted(it for it in os.listdir(".") if it.endswith(".yml")):
            words = name[:-4] + ".args"
            with open(words, encoding="utf-8") if os.path.exists(words) else io.StringIO() as file:
                given = file.read().split()
            with contextlib.suppress(Refused, Unread, RecursionError):
                command.convert(command.arguments([*given, name]), Notes())
        os.chdir(was)

    def test_each_cause_of_the_table_is_told(self) -> None:
        told = ""
        for name in os.listdir(os.path.join(HERE, "cases")):
            if name.endswith(".stderr"):
                with open(os.path.join(HERE, "cases", name), encoding="utf-8") as file:
                    told += file.read()
        for key, cause in LEFT_OUT.items():
            self.assertIn(f"{key}: dropped: {cause}\n", told)


if __name__ == "__main__":
    unittest.main()
