"""Jobs of a real server, in commits of a real repository."""
import re
import subprocess
import time
import unittest

from support import Case, Project, run, until


class Jobs(Case):
    def setUp(self) -> None:
        super().setUp()
        self.token = self.server.runner()
        self.server.start()

    def ended(self, file: str, ref: str = "main", variables: dict[str, str] | None = None, runner: bool = True, **words) -> tuple[int, str]:
        """A pipeline of a file that a runner has finished, and its status."""
        if runner:
            self.begin_runner(self.token, **words)
        number = self.project.pipeline(file, ref, variables)
        return number, self.project.ends(number)

    def test_a_job_has_the_files_of_its_commit(self) -> None:
        first = self.git("rev-parse", "HEAD")
        self.write("work/hello.txt", "changed\n")
        second = self.commit("second: more")
        file = """\
            build:
              script:
                - cat hello.txt
                - echo $CI_COMMIT_SHA $CI_COMMIT_SHORT_SHA "$CI_COMMIT_TITLE"
                - git rev-parse HEAD
            """
        number, status = self.ended(file)
        trace = self.project.trace(number, "build")
        self.assertEqual(status, "success")
        self.assert_line(trace, f"commit {second} of branch main from {re.escape(self.work)}")
        self.assert_line(trace, "changed")
        self.assert_line(trace, f"{second} {second[:8]} second: more")
        self.assert_line(trace, r"\$ cat hello.txt")
        self.assert_line(trace, "ended: exit code 0")
        number, status = self.ended(file, variables={"CI_COMMIT_SHA": first}, runner=False)
        trace = self.project.trace(number, "build")
        self.assertEqual(status, "success")
        self.assert_line(trace, "hello")
        self.assert_line(trace, f"{first} {first[:8]} first")

    def test_a_tag_and_a_commit_that_isnt_there(self) -> None:
        self.git("tag", "-a", "v1", "-m", "one")
        tagged = self.git("rev-parse", "HEAD")
        self.commit("later")
        self.begin_runner(self.token)
        self.project.ask("PUT", "/ci_file", "build:\n  script: git rev-parse HEAD\n")
        self.project.ask("POST", "/pipeline", '{"ref":"v1","tag":true}')
        self.assertEqual(self.project.ends(1), "success")
        self.assert_line(self.project.trace(1, "build"), tagged)
        for number, ref, commit, told in ((2, "none", None, "branch none isn't in .*"), (3, "main", "0" * 40, "commit 0{40} isn't in .*"),
                                          (4, "main", "--all", "CI_COMMIT_SHA is no full number of a commit")):
            variables = {"CI_COMMIT_SHA": commit} if commit else None
            self.assertEqual(self.ended("build:\n  script: echo\n", ref, variables, runner=False), (number, "failed"))
            self.assert_line(self.project.trace(number, "build"), f"the runner failed: {told}")

    def test_a_commit_with_a_very_long_message(self) -> None:
        self.git("commit", "--quiet", "--allow-empty", "-F", self.write("message", "first line\n\n" + "word\n" * 40_000))
        number, status = self.ended("build:\n  script: ls; echo ${#CI_COMMIT_MESSAGE} $CI_COMMIT_TITLE\n")
        self.assertEqual(status, "success")
        self.assert_line(self.project.trace(number, "build"), "60000 first line")

    def test_a_project_that_isnt_in_the_map(self) -> None:
        self.server.kill()
        other = Project(self.server, self.server.project(), 2)
        third = Project(self.server, self.server.project(), 3)
        self.server.start()
        self.begin_runner(self.token, rest=f'[projects.3]\nrepository = "{self.repository("third", {"hello.txt": "of the third"})}"\n')
        file = "build:\n  script: cat hello.txt\n"
        number = third.pipeline(file)
        self.assertEqual(third.ends(number), "success")
        self.assertIn("\nof the third\n", third.trace(number, "build"))
        number = other.pipeline(file)
        self.assertEqual(other.ends(number), "failed")
        trace = other.trace(number, "build")
        self.assert_line(trace, "the runner failed: its configuration has no repository for project 2")
        self.assertNotIn("hello", trace)
        self.server.kill()
        self.assertEqual(self.server.rows("SELECT state, cause FROM attempt"), ["1|", "2|4"])  # failed by runner_system_failure

    def test_the_environment_is_the_jobs_own(self) -> None:
        number, status = self.ended(
            """\
            build:
              variables:
                LEVEL: "a b'c"
                UID: '5'
              script:
                - env | sort
                - test "$PWD" = "$CI_PROJECT_DIR"
                - cat; test "$(wc -c < /dev/stdin)" = 0
            """,
            environment={"SECRET_OF_THE_RUNNER": "x", "CI_SERVER_HOST": "wrong"})
        trace = self.project.trace(number, "build")
        self.assertEqual(status, "success")
        for line in ("LEVEL=a b'c", f"CI_SERVER_URL={self.server.url}", "CI_SERVER_HOST=127.0.0.1", "CI_RUNNER_ID=1", "LANG=C.UTF-8",
                     f"HOME={self.path('one')}/jobs/1/home", f"CI_PROJECT_DIR={self.path('one')}/jobs/1/project", "CI_JOB_ID=1", "CI=true"):
            self.assert_line(trace, re.escape(line))
        self.assertNotIn("SECRET_OF_THE_RUNNER", trace)
        self.assertNotIn(self.token, trace)
        known = set(re.findall(r"^(\w+)=", trace, re.MULTILINE))
        self.assertLessEqual({name for name in known if not name.startswith("CI_")},
                             {"CI", "HOME", "LANG", "LEVEL", "OLDPWD", "PATH", "PWD", "SHLVL", "UID", "_"})

    def test_exit_codes(self) -> None:
        file = ("one:\n  script: [\"true\", exit 3, echo not here]\ntwo:\n  script: false | cat\nthree:\n  script: |\n    if\n"
                "four:\n  allow_failure:\n    exit_codes: 9\n  script: kill -9 $$\n")
        number, status = self.ended(file, top="concurrent = 4")
        self.assertEqual(status, "failed")
        for job, told in (("one", 3), ("two", 1), ("three", 2), ("four", 137)):
            self.assert_line(self.project.trace(number, job), f"ended: exit code {told}")
        self.assertNotIn("not here\n", self.project.trace(number, "one").replace("$ echo not here\n", ""))
        self.server.kill()
        self.assertEqual(self.server.rows("SELECT exit FROM attempt ORDER BY job"), ["3", "1", "2", "137"])

    def test_what_a_script_leaves_running_is_gone_when_it_ends(self) -> None:
        number, status = self.ended(f"""\
            build:
              script:
                - (while sleep 0.1; do echo a; done) > {self.path("left")} &
                - setsid sh -c 'while sleep 0.1; do echo b; done' > {self.path("left2")} &
                - sleep 0.5
            """)
        self.assertEqual(status, "success")
        sizes = [len(self.read("left")), len(self.read("left2"))]
        self.assertTrue(all(sizes), sizes)
        subprocess.run(["sleep", "0.5"], check=True)
        self.assertEqual([len(self.read("left")), len(self.read("left2"))], sizes)

    def test_a_script_that_kills_its_parent(self) -> None:
        number, status = self.ended(f"build:\n  script: (while sleep 0.1; do echo a; done) > {self.path('left')} & sleep 1; kill -9 $PPID; sleep 9\n")
        self.assertEqual(status, "failed")
        size = len(self.read("left"))
        self.assertTrue(size)
        self.assertRegex(self.project.trace(number, "build"), "\nthe process over the command was killed\nended: exit code 137\n$")
        time.sleep(0.5)
        self.assertEqual(len(self.read("left")), size)
        self.server.kill()
        self.assertEqual(self.server.rows("SELECT state, cause, exit FROM attempt"), ["2|1|137"])

    def test_a_script_that_stops_its_parent(self) -> None:
        number, status = self.ended("build:\n  script: kill -STOP $PPID; sleep 1; exit 4\n")
        self.assertEqual(status, "failed")
        self.assert_line(self.project.trace(number, "build"), "ended: exit code 4")

    def test_a_process_that_nobody_may_kill_isnt_waited_for(self) -> None:
        self.begin_runner(self.token)
        number = self.project.pipeline(f"build:\n  script: echo $$ > {self.room}/pid; sleep 2; echo the end\n")
        until(lambda: self.lines("pid"))
        with open(f"/proc/{self.lines('pid')[0]}/fd/1", "wb"):  # this test stands for it
            self.assertEqual(self.project.ends(number, 20), "success")
        self.assertIn("\nthe end\nended: exit code 0\n", self.project.trace(number, "build"))

    def test_several_at_once_in_folders_of_their_own(self) -> None:
        meet = (f"  timeout: 1 minute\n  script:\n    - pwd > {self.room}/$CI_JOB_NAME; touch here; test $(ls | wc -l) = 2\n"
                f"    - until test -e {self.room}/a -a -e {self.room}/b; do sleep 0.1; done\n")
        number, status = self.ended(f"a:\n{meet}b:\n{meet}", top="concurrent = 2")
        self.assertEqual(status, "success")
        self.assertNotEqual(self.read("a"), self.read("b"))
        until(lambda: run("ls", self.path("one/jobs")) == "")

    def test_masked_values(self) -> None:
        number, status = self.ended(
            "build:\n  script:\n    - printf 'a%s%s' \"$KEY\" sec; sleep 1.5; echo ret-of-job\n    - echo \"$KEY2\" $SHORT \"$LINES_OF_KEY\"\n",
            variables={"KEY": "key-of-job", "KEY2": "secret-of-job", "SHORT": "ab   ", "CI_MASKED": "KEY2, SHORT LINES_OF_KEY",
                       "LINES_OF_KEY": "first line\nsecond line"},
            top='masked = ["KEY"]')
        trace = self.project.trace(number, "build")
        self.assertEqual(status, "success")
        self.assert_line(trace, r"SHORT isn't masked: it has under 4 bytes")
        self.assert_line(trace, r"\[MASKED\] ab \[MASKED\]")
        self.assert_line(trace, r"a\[MASKED\]\[MASKED\]")
        for value in ("key-of-job", "secret-of-job", "first line", "second line"):
            self.assertNotIn(value, trace)

    def test_a_trace_over_its_limit_keeps_its_end(self) -> None:
        number, status = self.ended("build:\n  script: seq 1000000; echo the end; exit 4\n")
        trace = self.project.ask("GET", "/jobs/1/trace")
        self.assertEqual(status, "failed")
        self.assertLessEqual(len(trace), 4_194_304)
        self.assertGreater(len(trace), 4_190_000)
        self.assertTrue(trace.endswith(b"1000000\nthe end\nended: exit code 4\n"), trace[-100:])
        left = re.search(rb"\n\[(\d+) bytes are left out here: a trace has at most 4194304\]\n", trace)
        printed = 9 * 2 + 90 * 3 + 900 * 4 + 9_000 * 5 + 90_000 * 6 + 900_000 * 7 + 8  # the digits and line ends of 1 to 1,000,000
        self.assertEqual(len(trace) - len(left[0]) + int(left[1]), trace.index(b"1\n2\n") + printed + len(b"the end\nended: exit code 4\n"))
        self.assertEqual(len(trace) - left.end(), 65_536)

    def test_submodules_and_no_repository(self) -> None:
        self.repository("part", {"part.txt": "a part\n"})
        self.git("submodule", "add", "--quiet", self.path("part"), "part")
        self.commit("with a part")
        number, status = self.ended("""\
            a:
              variables:
                GIT_SUBMODULE_STRATEGY: normal
              script: cat part/part.txt
            b:
              script: test ! -e part/part.txt
            c:
              variables:
                GIT_STRATEGY: none
              script: test -z "$(ls -A)"
            d:
              variables:
                GIT_STRATEGY: other
              allow_failure: true
              script: echo
            """, top="concurrent = 4")
        self.assertEqual(status, "success")
        self.assert_line(self.project.trace(number, "a"), "a part")
        self.assert_line(self.project.trace(number, "d"), "the runner failed: GIT_STRATEGY is clone, fetch, none or empty, and not 'other'")


if __name__ == "__main__":
    unittest.main()
