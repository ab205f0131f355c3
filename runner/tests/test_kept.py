"""What goes from job to job: artifacts and caches; and what a job may not do by them."""
import glob
import os
import time
import unittest

from support import Case

BUILD = """\
build:
  stage: build
  variables:
    CI_JOB_ARTIFACTS: |
      out
      $CI_PROJECT_DIR/*.log
      nothing/**
    CI_JOB_ARTIFACTS_EXCLUDE: out/**/*.o
  script:
    - mkdir -p out/deep; echo program > out/program; chmod +x out/program; echo o > out/deep/a.o; echo b > out/deep/b; ln -s program out/link
    - echo log > build.log; echo no > build.txt
"""


class Artifacts(Case):
    def setUp(self) -> None:
        super().setUp()
        self.token = self.server.runner()
        self.server.start()

    def ended(self, file: str, **words) -> int:
        self.begin_runner(self.token, **words)
        number = self.project.pipeline(file)
        status = self.project.ends(number)
        traces = [self.project.trace(number, job["name"]) for job in self.project.shown(number)["jobs"]]
        self.assertEqual(status, "success", "\n".join(traces))
        return number

    def test_artifacts_go_to_later_stages(self) -> None:
        self.ended(BUILD + "unit:\n  script:\n    - test -x out/program -a ! -e out/deep/a.o -a -e out/deep/b -a \"$(readlink out/link)\" = program\n"
                   "    - test -e build.log -a ! -e build.txt; cat out/program\n")
        self.assert_line(self.project.trace(1, "build"), "artifacts: 4 files kept")
        self.assert_line(self.project.trace(1, "unit"), "artifacts of build: 4 files")

    def test_dependencies_say_whose_are_laid(self) -> None:
        wants = "    - test \"$(ls *.txt | grep -v hello | tr '\\n' ' ')\" = '{}'\n"
        file = "stages: [build, test]\n"
        for name in ("a", "b 1/2"):
            file += f"{name}:\n  stage: build\n  variables:\n    CI_JOB_ARTIFACTS: '{name[0]}.txt'\n  script: echo {name} > {name[0]}.txt\n"
        file += "c:\n  variables:\n    CI_JOB_ARTIFACTS: c.txt\n  script: echo > c.txt\n"
        file += "all:\n  script:\n" + wants.format("a.txt b.txt ")
        file += "one:\n  variables:\n    CI_JOB_DEPENDENCIES: |\n      b 1/2\n      gone\n  script:\n" + wants.format("b.txt ")
        file += "same:\n  needs: [c]\n  variables:\n    CI_JOB_DEPENDENCIES: c\n  script:\n" + wants.format("c.txt ")
        file += "none:\n  variables:\n    CI_JOB_DEPENDENCIES: ''\n  script: test ! -e a.txt -a ! -e b.txt\n"
        self.ended(file)
        self.assert_line(self.project.trace(1, "one"), "artifacts of gone: none are here")

    def test_when_and_expiry(self) -> None:
        file = ""
        for name, when, expire, end in (("a", "always", 60, "false"), ("b", "on_success", 999_999, "false"), ("c", "on_failure", 600, "false"),
                                        ("d", "on_failure", 600, "true")):
            file += f"{name}:\n  stage: build\n  allow_failure: true\n  variables:\n    CI_JOB_ARTIFACTS: {name}.txt\n"
            file += f"    CI_JOB_ARTIFACTS_WHEN: {when}\n    CI_JOB_ARTIFACTS_EXPIRE: {expire}\n  script: echo > {name}.txt; {end}\n"
        self.ended(file + "unit:\n  script: ls; test -e a.txt -a ! -e b.txt -a -e c.txt -a ! -e d.txt\n")
        records = [self.read(os.path.relpath(path, self.room)) for path in sorted(glob.glob(self.path("one/artifacts/1/1/*.json")))]
        self.assertEqual(['"kept": true' in record for record in records], [True, False, True, False])
        left = [float(record.partition('"expires": ')[2].rstrip("}")) - time.time() for record in records]
        self.assertTrue(0 < left[0] <= 60 and 6 * 86_400 < left[1] <= 7 * 86_400, left)

    def test_a_limit_of_artifacts(self) -> None:
        self.begin_runner(self.token, rest="[artifacts]\nlimit_megabytes = 1\n")
        number = self.project.pipeline("a:\n  variables:\n    CI_JOB_ARTIFACTS: big\n  script: head -c 1048577 /dev/zero > big\n")
        self.assertEqual(self.project.ends(number), "failed")
        self.assert_line(self.project.trace(1, "a"), "the runner failed: the files have over 1048576 bytes")
        self.assertEqual(glob.glob(self.path("one/artifacts/1/1/*")), [])

    def test_two_runners_share_a_folder(self) -> None:
        shared = f'[artifacts]\nfolder = "{self.path("shared")}"\n'
        self.server.kill()
        tagged = self.server.runner("--tags", "second")
        self.server.start()
        self.begin_runner(tagged, "two", rest=shared)
        self.ended(BUILD + "unit:\n  tags: [second]\n  script: test -x out/program\n", rest=shared)
        self.assert_line(self.project.trace(1, "unit"), r"runner 2 \(two\), attempt 2: unit")

    def test_nothing_is_laid_or_taken_outside_of_the_folder(self) -> None:
        outside = self.write("outside/secret.txt", "secret\n")
        file = "stages: [a, b, c]\n"
        file += f"link:\n  stage: a\n  variables:\n    CI_JOB_ARTIFACTS: out\n  script: ln -s {self.path('outside')} out\n"
        file += "steal:\n  stage: a\n  variables:\n    CI_JOB_ARTIFACTS: in/*.txt\n" f"  script: ln -s {self.path('outside')} in\n"
        file += "put:\n  stage: b\n  variables:\n    CI_JOB_DEPENDENCIES: ''\n    CI_JOB_ARTIFACTS: out\n  script: mkdir out; echo > out/put.txt\n"
        file += "up:\n  stage: b\n  allow_failure: true\n  variables:\n    CI_JOB_ARTIFACTS: ../../../outside\n  script: echo\n"
        file += "both:\n  stage: c\n  allow_failure: true\n  script: echo\n"
        self.ended(file)
        self.assert_line(self.project.trace(1, "steal"), "artifacts: no file matches")
        self.assert_line(self.project.trace(1, "up"), r"the runner failed: the path '../../../outside' is outside of the project's folder")
        self.assert_line(self.project.trace(1, "both"), "the runner failed: out is to be a folder, and is something else")
        self.assertEqual(os.listdir(os.path.dirname(outside)), ["secret.txt"])

    def test_a_link_in_place_of_the_folder(self) -> None:
        self.write("outside/secret.txt", "secret\n")
        file = "".join(f"{name}:\n  stage: build\n  allow_failure: true\n  variables:\n    {variable}\n  script: cd ..; mv project other; "
                       f"ln -s {self.path('outside')} project\n" for name, variable in (("a", "CI_JOB_ARTIFACTS: secret.txt"),
                                                                                      ("b", '"CI_JOB_CACHE": "k\\tpull-push\\tsecret.txt"')))
        self.ended(file + "c:\n  script: test ! -e secret.txt\n")
        self.assert_line(self.project.trace(1, "a"), "the runner failed: the project's folder is a link")
        self.assert_line(self.project.trace(1, "b"), "cache k isn't kept: the project's folder is a link")
        self.assertEqual(glob.glob(self.path("one/cache/1/*")), [])
        self.assertEqual(self.read("outside/secret.txt"), "secret\n")

    def test_a_cache_that_cant_be_laid_goes(self) -> None:
        file = "a:\n  variables:\n    CI_JOB_CACHE: \"k\\tpull-push\\tdeps\"\n  script: mkdir -p deps; echo > deps/x\n"
        self.ended(file)
        cache, = glob.glob(self.path("one/cache/1/*.tar"))
        with open(cache, "wb") as damaged:
            damaged.write(b"damaged" * 1_000)
        self.assertEqual(self.project.ends(self.project.pipeline(file)), "success")
        self.assert_line(self.project.trace(2, "a"), "cache k isn't laid, and goes: .* can't be read: .*")
        self.assert_line(self.project.trace(2, "a"), "cache k: kept")
        self.write("work/deps", "now it is a file\n")
        self.commit("a file")
        self.assertEqual(self.project.ends(self.project.pipeline(file.replace("mkdir -p deps; echo > deps/x", "cat deps"))), "success")
        self.assert_line(self.project.trace(3, "a"), "cache k isn't laid, and goes: deps is to be a folder, and is something else")
        self.assertEqual(self.project.ends(self.project.pipeline(file.replace("mkdir -p deps; echo > deps/x", "cat deps"))), "success")
        self.assert_line(self.project.trace(4, "a"), "cache k: 1 file")

    def test_records_that_cant_be_read_play_no_part(self) -> None:
        self.write("one/artifacts/1/1/9.json", '{"attempt": 9}')
        self.ended("a:\n  script: echo\n")
        self.assertEqual(self.project.ends(self.project.pipeline("a:\n  script: echo\n")), "success")
        self.assertNotIn("Traceback", self.read("one.log"))

    def test_cache(self) -> None:
        file = """\
            a:
              stage: build
              variables:
                CI_JOB_CACHE: "$CI_COMMIT_REF_NAME-deps\\tpull-push\\tdeps\\nread\\tpull\\tr\\nwrite\\tpush\\tw"
              script:
                - cat deps/count || true
                - test ! -e r/count -a ! -e w/count
                - mkdir -p deps r w; echo x >> deps/count; echo x > r/count; echo x > w/count
            """
        self.begin_runner(self.token)
        for count in (1, 2, 3):
            number = self.project.pipeline(file)
            self.assertEqual(self.project.ends(number), "success")
            self.assertEqual(self.project.trace(number, "a").count("\nx"), count - 1)
        self.assert_line(self.project.trace(3, "a"), "cache main-deps: 1 file")


if __name__ == "__main__":
    unittest.main()
