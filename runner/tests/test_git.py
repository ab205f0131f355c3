"""Repositories that want a password, and the runner as a program: its folder, its polls, its ends."""
import base64
import http.server
import os
import signal
import subprocess
import threading
import time
import unittest

from support import PROGRAM, Case, until


class Repositories(http.server.ThreadingHTTPServer):
    """Serves the repositories of a folder to those who have a password, and notes what they sent."""

    def __init__(self, folder: str):
        super().__init__(("127.0.0.1", 0), Handler)
        self.folder, self.seen = folder, []
        self.url = f"http://127.0.0.1:{self.server_port}"
        threading.Thread(target=self.serve_forever, daemon=True).start()


class Handler(http.server.BaseHTTPRequestHandler):
    def answer(self) -> None:
        sent = self.headers.get("Authorization")
        self.server.seen.append(sent)
        if sent != "Basic " + base64.b64encode(b"ci:pass'word $x").decode():
            self.send_response(401)
            self.send_header("WWW-Authenticate", 'Basic realm="git"')
            self.end_headers()
            return
        path, _, query = self.path.partition("?")
        body = self.rfile.read(int(self.headers.get("Content-Length", 0)))
        environment = {"PATH": os.environ["PATH"], "GIT_PROJECT_ROOT": self.server.folder, "GIT_HTTP_EXPORT_ALL": "1", "PATH_INFO": path,
                       "QUERY_STRING": query, "REQUEST_METHOD": self.command, "CONTENT_TYPE": self.headers.get("Content-Type", ""),
                       "HTTP_CONTENT_ENCODING": self.headers.get("Content-Encoding", ""), "REMOTE_USER": "ci"}
        reply = subprocess.run(["git", "http-backend"], input=body, env=environment, stdout=subprocess.PIPE, check=True).stdout
        head, _, body = reply.partition(b"\r\n\r\n")
        self.send_response(200)
        for line in head.decode().split("\r\n"):
            self.send_header(*line.split(": ", 1))
        self.end_headers()
        self.wfile.write(body)

    do_GET = do_POST = answer

    def log_message(self, *_: object) -> None:
        pass


class Passwords(Case):
    def setUp(self) -> None:
        super().setUp()
        self.token = self.server.runner()
        self.server.start()
        self.shown, self.other = Repositories(self.room), Repositories(self.room)
        for server in (self.shown, self.other):
            self.addCleanup(server.server_close)
            self.addCleanup(server.shutdown)
        self.write("password", "pass'word $x\n")

    def test_a_password_is_for_its_own_host_alone(self) -> None:
        self.repository("part", {"part.txt": "a part\n"})
        self.write("work/.gitmodules", f'[submodule "part"]\npath = part\nurl = {self.other.url}/part/.git\n')
        self.git("update-index", "--add", "--cacheinfo", "160000," + self.git("rev-parse", "HEAD", folder=self.path("part")) + ",part")
        self.git("add", ".gitmodules")
        self.git("commit", "--quiet", "-m", "with a part of elsewhere")
        repository, self.work = self.work, f"{self.shown.url}/work/.git"
        self.begin_runner(self.token, rest=f'user = "ci"\npassword_file = "{self.path("password")}"\n')
        number = self.project.pipeline("""\
            a:
              script:
                - cat hello.txt; git remote -v; git config --list; env
            b:
              variables:
                GIT_SUBMODULE_STRATEGY: normal
              allow_failure: true
              script: echo
            """)
        self.work = repository
        self.assertEqual(self.project.ends(number), "success")
        self.assert_line(self.project.trace(1, "a"), "hello")
        self.assert_line(self.project.trace(1, "b"), "the runner failed: git failed")
        self.assertNotIn("pass'word", self.project.trace(1, "a") + self.project.trace(1, "b") + self.read("one.log"))
        self.assertTrue(any(self.shown.seen))
        self.assertEqual(set(self.other.seen), {None})

    def test_a_user_that_the_address_names(self) -> None:
        repository, self.work = self.work, f"{self.shown.url.replace('//', '//ci@')}/work/.git"
        self.begin_runner(self.token, rest=f'password_file = "{self.path("password")}"\n')
        number = self.project.pipeline("a:\n  script: cat hello.txt\n")
        self.work = repository
        self.assertEqual(self.project.ends(number), "success", self.project.trace(1, "a"))


class Programs(Case):
    def setUp(self) -> None:
        super().setUp()
        self.token = self.server.runner()
        self.server.start()

    def test_a_kept_clone_has_the_usual_access_and_no_bit_that_the_unit_forbids(self) -> None:
        self.begin_runner(self.token)
        number = self.project.pipeline("a:\n  script: cat hello.txt\n")
        self.assertEqual(self.project.ends(number), "success")
        kept = os.path.join(self.path("one"), "repositories", "1.git")
        folders = {os.stat(folder).st_mode & 0o7777 for folder, _, _ in os.walk(kept)}
        files = [os.stat(os.path.join(folder, name)).st_mode & 0o7777 for folder, _, names in os.walk(kept) for name in names]
        self.assertEqual(folders, {0o755})
        self.assertEqual({mode & 0o7044 for mode in files}, {0o044})

    def test_a_kept_clone_that_was_damaged(self) -> None:
        file = "a:\n  script: cat hello.txt; git log --oneline\n"
        self.begin_runner(self.token)
        self.assertEqual(self.project.ends(self.project.pipeline(file)), "success")
        kept = os.path.join(self.path("one"), "repositories", "1.git")
        for name in ("packed-refs.lock", "refs/heads/main.lock"):  # as a git leaves them that is killed
            self.write(f"one/repositories/1.git/{name}", "")
        self.commit("second")
        self.assertEqual(self.project.ends(self.project.pipeline(file)), "success", self.project.trace(2, "a"))
        for more in ("third", ""):  # files that hold nothing, as after a loss of power
            for folder, _, names in os.walk(os.path.join(kept, "objects")):
                for name in names:
                    os.chmod(os.path.join(folder, name), 0o644)
                    os.truncate(os.path.join(folder, name), 0)
            commit = self.commit(more) if more else self.git("rev-parse", "HEAD")
            number = self.project.pipeline(file)
            self.assertEqual(self.project.ends(number), "success", self.project.trace(number, "a"))
            self.assert_line(self.project.trace(number, "a"), f"{commit[:7]} third")
        self.assertEqual(sorted(os.listdir(os.path.dirname(kept))), ["1.git", "1.git.lock"])

    def test_a_name_that_no_branch_has(self) -> None:
        self.commit("second")
        self.begin_runner(self.token)
        for ref in ("main~1", "main^{tree}", "main@{0}"):
            number = self.project.pipeline("a:\n  script: echo\n", ref)
            self.assertEqual(self.project.ends(number), "failed")
            self.assertIn(f"the runner failed: branch {ref} isn't in {self.work}", self.project.trace(number, "a"))

    def test_a_folder_has_one_runner(self) -> None:
        first = self.begin_runner(self.token)
        until(lambda: "asks" in self.read("one.log"))
        second = self.begin_runner(self.token)
        self.assertEqual(second.wait(40), 2)
        self.assertIn(f"ciserver-runner: another runner uses {self.path('one')}\n", self.read("one.log"))
        self.assertIsNone(first.poll())

    def test_a_runner_goes_on_where_the_server_refuses_it_or_isnt_there(self) -> None:
        runner = self.begin_runner("r9-unknown")
        until(lambda: "the server refuses: 403 M4\n" in self.read("one.log"))
        other = self.begin_runner(self.token, "two")
        self.server.kill()
        until(lambda: "no answer from 127.0.0.1" in self.read("two.log"))
        time.sleep(0.5)
        self.assertEqual((runner.poll(), other.poll()), (None, None))
        self.server.start()
        self.assertEqual(self.project.ends(self.project.pipeline("a:\n  script: echo\n")), "success")
        for process in (runner, other):
            process.send_signal(signal.SIGTERM)
            self.assertEqual(process.wait(40), 0)

    def test_a_full_disk_below_standard_error(self) -> None:
        os.symlink("/dev/full", self.path("one.log"))
        runner = self.begin_runner(self.token)
        self.assertEqual(self.project.ends(self.project.pipeline("a:\n  script: echo\n")), "success")
        runner.send_signal(signal.SIGTERM)
        self.assertEqual(runner.wait(40), 0)

    def test_polls_slow_down(self) -> None:
        self.server.kill()
        self.server.process = self.counting(5)
        self.begin_runner(self.token, pause=30)
        begun = time.monotonic()
        self.assertEqual(self.server.process.wait(60), 0)  # the fifth poll: after 1, 1.5, 2.25 and 3.4 seconds
        self.assertGreater(time.monotonic() - begun, 8)

    def counting(self, requests: int) -> subprocess.Popen:
        """A server that ends after so many requests."""
        words = [PROGRAM, "serve", "--db", self.server.db, "--port", str(self.server.port), "--requests", str(requests)]
        process = subprocess.Popen(words, stdout=subprocess.PIPE, text=True)
        process.stdout.readline()
        return process


if __name__ == "__main__":
    unittest.main()
