"""Jobs in containers: by a stand-in that notes its words and runs them here, and by podman itself where it can run one."""
import json
import os
import shutil
import signal
import subprocess
import time
import unittest

from support import Case, run, until

IMAGE = f"localhost/ciserver-runner-test-{os.getpid()}:latest"

# Notes its words, and runs what `run` is to run: behind the image, in the folder that --workdir says.
STAND_IN = """\
#!/usr/bin/env python3
import json, os, sys
words = sys.argv[1:]
with open("{room}/words", "a") as file:
    file.write(json.dumps(words) + "\\n")
if "absent:1" in words:
    print("no such image")
    sys.exit(125)
if words[0] == "run" and "--detach" not in words:
    os.chdir(words[words.index("--workdir") + 1])
    entry = words[words.index("--entrypoint") + 1]
    os.execvpe(entry, [entry, *words[words.index("-c"):]], {{"PATH": "/usr/bin:/bin", "HOME": "/"}})
"""


class StandIn(Case):
    def setUp(self) -> None:
        super().setUp()
        self.token = self.server.runner()
        self.server.start()
        for engine in ("podman", "docker"):
            os.chmod(self.write(f"bin/{engine}", STAND_IN.format(room=self.room)), 0o755)

    def begin(self, top: str = 'where = "container"', rest: str = "") -> None:
        self.begin_runner(self.token, top=top, rest=rest, environment={"PATH": self.path("bin") + ":" + os.environ["PATH"]})

    def words(self) -> list[list[str]]:
        return [json.loads(line) for line in self.lines("words")]

    def test_words_of_a_container(self) -> None:
        self.begin(rest='[container]\nengine = "docker"\nimage = "debian:12"\nnetwork = "none"\noptions = ["--memory", "1g"]\n')
        number = self.project.pipeline("""\
            a:
              variables:
                KEY: secret-value
                CI_JOB_IMAGE: $BASE:1
                BASE: alpine
              script: test $KEY = secret-value; cat hello.txt
            b:
              stage: deploy
              script: exit 3
            """)
        self.assertEqual(self.project.ends(number), "failed")
        self.assert_line(self.project.trace(1, "a"), r"script in a container of alpine:1 \(docker\)")
        self.assert_line(self.project.trace(1, "b"), "ended: exit code 3")
        room = self.path("one/jobs/1")
        first = next(words for words in self.words() if words[0] == "run")
        name = first[first.index("--name") + 1]
        label = first[first.index("--label") + 1]
        kept = self.path("one/repositories/1.git")
        self.assertEqual(first[:-1], ["run", "--rm", "--init", "--interactive", "--name", name, "--label", label, "--workdir", f"{room}/project",
                                      "--volume", f"{room}:{room}", "--entrypoint", "sh", "--network", "none", "--volume", f"{kept}:{kept}:ro",
                                      "--memory", "1g", "alpine:1", "-c"])
        self.assertIn(["rm", "--force", "--volumes", name], self.words())
        self.assertNotIn("secret-value", self.read("words"))

    def test_services(self) -> None:
        self.begin(rest='[container]\nimage = "debian:12"\n')
        number = self.project.pipeline("""\
            a:
              variables:
                CI_JOB_SERVICES: |
                  group/db:1
                  cache:2 store
                KEY: secret-value
              script: echo
            """)
        self.assertEqual(self.project.ends(number), "success")
        done = [words for words in self.words() if words[0] in ("network", "run") and "ls" not in words]
        self.assertEqual([" ".join(words[:2]) for words in done], ["network create", "run --detach", "run --detach", "run --rm", "network rm"])
        network = done[4][2]
        values = ["--env-file", self.path("one/jobs/1/services.env")]
        self.assertEqual(done[1][-7:], ["--network-alias", "group-db", "--network-alias", "group__db", *values, "group/db:1"])
        self.assertEqual(done[2][-5:], ["--network-alias", "store", *values, "cache:2"])
        self.assertEqual(done[3][done[3].index("--network") + 1], network)
        self.assertNotIn("secret-value", self.read("words"))

    def test_jobs_that_are_refused(self) -> None:
        self.begin()
        self.project.pipeline("a:\n  script: echo\n")
        self.assertEqual(self.project.ends(1), "failed")
        self.assert_line(self.project.trace(1, "a"), "the runner failed: the job names no image, and the runner's configuration has none")

    def test_image_that_isnt_there(self) -> None:
        self.begin()
        job = "  allow_failure: true\n  variables:\n    CI_JOB_IMAGE: "
        self.project.pipeline(f"a:\n{job}absent:1\n  script: echo\nb:\n{job}debian:12\n  script: exit 125\n")
        self.assertEqual(self.project.ends(1), "success")
        told = "no such image\nthe runner failed: no shell began in a container of absent:1: podman ended with 125"
        self.assert_line(self.project.trace(1, "a"), told)
        self.assert_line(self.project.trace(1, "b"), "ended: exit code 125")
        self.assertIn("rm", [words[0] for words in self.words()])
        self.server.kill()
        self.assertEqual(self.server.rows("SELECT cause, exit FROM attempt ORDER BY job"), ["4|", "1|125"])

    def test_what_the_runner_may_not_remove_the_engine_removes(self) -> None:
        os.chmod(self.write("bin/rm", "#!/bin/sh\nexit 1\n"), 0o755)  # as where another user of the container made it
        self.begin(rest='[container]\nimage = "debian:12"\n')
        self.assertEqual(self.project.ends(self.project.pipeline("a:\n  script: echo\n")), "success")
        room = self.path("one/jobs/1")
        until(lambda: f"{room} can't be removed, and stays" in self.read("one.log"))
        self.assertIn(["unshare", "rm", "-rf", room], self.words())

    def test_image_without_containers(self) -> None:
        self.begin(top="")
        file = "a:\n  variables:\n    CI_JOB_IMAGE: debian:12\n  script: echo\n"
        self.project.pipeline(file)
        self.assertEqual(self.project.ends(1), "failed")
        self.assert_line(self.project.trace(1, "a"), "the runner failed: the job wants the image debian:12, and this runner has no containers")
        self.end_runners()
        self.begin(top="images_in_shell = true")
        self.project.pipeline(file)
        self.assertEqual(self.project.ends(2), "success")
        self.assertEqual([words for words in self.words() if words[0] == "run"], [])


def podman_runs() -> bool:
    """Whether podman runs a container here, of an image that has busybox alone."""
    if not shutil.which("podman") or not shutil.which("busybox") or "dynamic" in run("file", "-L", shutil.which("busybox")):
        return False
    folder = run("mktemp", "-d")
    os.makedirs(f"{folder}/bin")
    os.makedirs(f"{folder}/www")
    with open(f"{folder}/www/told", "w", encoding="utf-8") as file:
        file.write("by the service\n")
    shutil.copy(shutil.which("busybox"), f"{folder}/bin/busybox")
    for name in ("sh", "cat", "echo", "ls", "sleep", "test", "touch", "trap", "wget", "httpd", "id", "mkdir"):
        os.symlink("busybox", f"{folder}/bin/{name}")
    with subprocess.Popen(["tar", "-C", folder, "-c", "."], stdout=subprocess.PIPE) as tar:
        words = ["podman", "import", "--change", 'CMD ["/bin/httpd", "-f", "-h", "/www"]', "-", IMAGE]
        subprocess.run(words, stdin=tar.stdout, stdout=subprocess.DEVNULL, stderr=subprocess.DEVNULL, check=False)
    shutil.rmtree(folder)
    done = subprocess.run(["podman", "run", "--rm", IMAGE, "echo", "it runs"], stdout=subprocess.PIPE, stderr=subprocess.DEVNULL, check=False)
    if done.stdout != b"it runs\n":
        subprocess.run(["podman", "image", "rm", "--force", IMAGE], stdout=subprocess.DEVNULL, stderr=subprocess.DEVNULL, check=False)
        return False
    return True


class Podman(Case):
    with_clock = True

    @classmethod
    def setUpClass(cls) -> None:
        if not podman_runs():
            raise unittest.SkipTest("podman runs no container here")
        cls.addClassCleanup(run, "podman", "image", "rm", "--force", IMAGE)

    def setUp(self) -> None:
        super().setUp()
        self.token = self.server.runner()
        self.server.start()
        self.environment = {name: os.environ[name] for name in ("HOME", "CONTAINERS_CONF", "XDG_RUNTIME_DIR") if name in os.environ}

    def begin(self, rest: str = ""):
        return self.begin_runner(self.token, top='where = "container"', rest=f'[container]\nimage = "{IMAGE}"\n{rest}', environment=self.environment)

    def containers(self) -> str:
        return run("podman", "ps", "--all", "--quiet", "--filter", f"volume={self.path('one/jobs/1')}")

    def test_a_job_in_a_container(self) -> None:
        self.begin('network = "none"\n')
        number = self.project.pipeline("""\
            a:
              variables:
                CI_JOB_ARTIFACTS: made
              script:
                - cat hello.txt; ls /bin/busybox; test ! -e /etc/os-release
                - touch made
                - test "$CI_PROJECT_DIR" = "$PWD"
            b:
              stage: deploy
              script: test -e made; exit 5
            """)
        self.assertEqual(self.project.ends(number), "failed")
        self.assert_line(self.project.trace(1, "a"), "hello")
        self.assert_line(self.project.trace(1, "a"), "ended: exit code 0")
        self.assert_line(self.project.trace(1, "b"), "ended: exit code 5")
        self.assertEqual(self.containers(), "")

    def test_a_service_is_found_by_its_name(self) -> None:
        self.begin('network = "none"\n')
        number = self.project.pipeline(f"""\
            a:
              timeout: 1 minute
              variables:
                CI_JOB_SERVICES: {IMAGE} web
                KEY: value
              script: until wget -q -O - http://web/told; do sleep 0.2; done
            """)
        self.assertEqual(self.project.ends(number), "success", self.project.trace(1, "a"))
        self.assert_line(self.project.trace(1, "a"), "by the service")
        self.assertEqual(run("podman", "network", "ls", "--quiet", "--filter", "name=ciserver-"), "")

    def begin_long_job(self):
        runner = self.begin()
        self.project.pipeline("a:\n  script: trap '' TERM; while true; do touch mark; sleep 1; done\n")
        until(lambda: os.path.exists(self.path("one/jobs/1/project/mark")))
        return runner

    def test_a_cancelled_job_leaves_no_container(self) -> None:
        self.begin_long_job()
        self.project.ask("POST", "/jobs/1/cancel")
        self.clock.put_on(10)
        until(lambda: "it was cancelled" in self.read("one.log") or (self.clock.put_on(1), False)[1])
        self.assertEqual(self.containers(), "")

    def test_a_killed_runner_leaves_no_container(self) -> None:
        runner = self.begin_long_job()
        self.assertNotEqual(self.containers(), "")
        runner.send_signal(signal.SIGKILL)
        runner.wait()
        time.sleep(0.5)
        self.clock.put_on(12)
        until(lambda: self.containers() == "")


if __name__ == "__main__":
    unittest.main()
