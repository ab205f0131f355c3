"""The hook examples/post-receive, in a bare repository beside a server."""
import os
import shutil
import threading
import unittest

from support import HERE, Case

EXAMPLES = os.path.join(HERE, "../../examples")
FILE = "job-of-{0}:\n  script: echo {0}\n"


class Push(Case):
    def setUp(self) -> None:
        super().setUp()
        self.server.start()
        self.bare = self.folder("bare")
        self.git("init", "--quiet", "--bare", folder=self.bare)
        shutil.copy(os.path.join(EXAMPLES, "post-receive"), os.path.join(self.bare, "hooks"))
        token = self.write("token", self.project.token + "\n")
        for key, value in (("url", self.server.url), ("project", "1"), ("tokenFile", token)):
            self.git("config", f"ciserver.{key}", value, folder=self.bare)

    def pushed(self, *refs: str, folder: str = "") -> str:
        """Pushes, and answers what came back from the hook."""
        said = self.git_says("push", self.bare, *refs, folder=folder)
        return "\n".join(line.removeprefix("remote: ").rstrip() for line in said.splitlines() if line.startswith("remote: ciserver"))

    def test_branches_and_tags(self) -> None:
        self.assertEqual(self.pushed("main"), "ciserver: main has no .gitlab-ci.yml")
        self.write("work/.gitlab-ci.yml", FILE.format("main"))
        commit = self.commit("file")
        self.git("tag", "-a", "v1", "-m", "one")
        self.git("branch", "a\"b/c")
        said = [self.pushed("main"), *self.pushed("v1", "a\"b/c").splitlines()]
        refs = [self.project.shown(number)["ref"] for number in (1, 2, 3)]
        self.assertEqual(said, [f"ciserver: pipeline {number} of {ref}" for number, ref in enumerate(refs, 1)])
        self.assertEqual((refs[0], set(refs)), ("main", {"main", "v1", "a\"b/c"}))
        self.assertEqual(self.project.shown(1)["source"], "push")
        self.assertEqual(self.pushed("--delete", "v1"), "")
        self.server.kill()
        self.assertEqual(self.server.rows("SELECT value FROM jobvar WHERE key = 'CI_COMMIT_SHA'"), [commit] * 3)
        self.assertEqual(sorted(self.server.rows("SELECT key || ' ' || value FROM jobvar WHERE key IN ('CI_COMMIT_TAG', 'CI_COMMIT_BRANCH')")),
                         ["CI_COMMIT_BRANCH a\"b/c", "CI_COMMIT_BRANCH main", "CI_COMMIT_TAG v1"])

    def test_a_file_that_is_refused_makes_no_pipeline(self) -> None:
        self.write("work/.gitlab-ci.yml", FILE.format("main"))
        self.commit("good")
        self.pushed("main")
        self.write("work/.gitlab-ci.yml", "a:\n  image: debian\n  script: echo\n")
        self.commit("bad")
        said = self.pushed("main")
        self.assertIn("ciserver: no pipeline of main: ", said)
        self.assertIn("K2 image", said)
        self.assertRaises(AssertionError, self.project.shown, 2)

    def test_the_file_is_the_commits_own(self) -> None:
        self.write("work/.gitlab-ci.yml", FILE.format("main"))
        self.write("work/.gitattributes", ".gitlab-ci.yml export-ignore\n")
        self.commit("a file that no archive has")
        self.assertEqual(self.pushed("main"), "ciserver: pipeline 1 of main")
        self.assertEqual(self.project.shown(1)["jobs"][0]["name"], "job-of-main")
        os.unlink(self.path("work/.gitlab-ci.yml"))
        os.symlink(self.write("elsewhere", FILE.format("elsewhere")), self.path("work/.gitlab-ci.yml"))
        self.commit("a link that leads elsewhere")
        self.assertIn("ciserver: no pipeline of main: ", self.pushed("main"))

    def test_a_lock_file_of_another_user_is_in_nobodys_way(self) -> None:
        os.mkdir(os.path.join(self.bare, "ciserver.lock"))
        self.write("work/.gitlab-ci.yml", FILE.format("main"))
        self.commit("file")
        said = self.git_says("push", self.bare, "main")
        self.assertIn("ciserver: pipeline 1 of main", said)
        self.assertNotIn("ciserver.lock", said)

    def test_pushes_at_once_keep_their_files(self) -> None:
        for number in range(4):
            self.git("checkout", "--quiet", "-B", f"b{number}", "main")
            self.write("work/.gitlab-ci.yml", FILE.format(number))
            self.commit(f"file {number}")
        pushes = [threading.Thread(target=self.pushed, args=(f"b{number}",)) for number in range(4)]
        for push in pushes:
            push.start()
        for push in pushes:
            push.join()
        shown = [self.project.shown(number) for number in (1, 2, 3, 4)]
        self.assertEqual(sorted(pipeline["ref"] for pipeline in shown), ["b0", "b1", "b2", "b3"])
        for pipeline in shown:
            self.assertEqual([job["name"] for job in pipeline["jobs"]], [f"job-of-{pipeline['ref'][1:]}"])

    def test_a_file_is_written_out_where_the_configuration_says_so(self) -> None:
        convert = self.write("convert", "#!/bin/sh\necho \"converted $*\" >&2\nsed s/GITLAB/job/ \"$3\"; test ! -e broken\n")
        os.chmod(convert, 0o755)
        self.git("config", "ciserver.convert", convert, folder=self.bare)
        self.write("work/.gitlab-ci.yml", FILE.format("main").replace("job", "GITLAB"))
        self.commit("file")
        said = self.git_says("push", self.bare, "main")
        self.assertIn("remote: converted --default-branch main .gitlab-ci.yml", said)
        self.assertEqual(self.project.shown(1)["jobs"][0]["name"], "job-of-main")
        self.write("work/broken", "")
        self.commit("broken")
        self.pushed("main")
        self.assertRaises(AssertionError, self.project.shown, 2)


if __name__ == "__main__":
    unittest.main()
