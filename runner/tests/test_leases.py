"""What becomes of jobs where servers, runners and lines fail: no job runs on beside its next attempt."""
import os
import random
import re
import signal
import socket
import threading
import time
import unittest

from support import Case, until

# A job that leaves marks while it runs, and goes on after SIGTERM.
MARKS = "    - trap 'echo \"$CI_JOB_ID told\" >> {0}/marks' TERM\n    - while :; do echo $CI_JOB_ID >> {0}/marks; sleep 0.1 || :; done\n"


class Leases(Case):
    with_clock = True

    def setUp(self) -> None:
        super().setUp()
        self.tokens = [self.server.runner(), self.server.runner()]
        self.server.start()

    def begin_long_job(self, more: str = "", port: int = 0):
        """Has the first runner run a job that doesn't end by itself. It may find the server at another port."""
        real, self.server.port = self.server.port, port or self.server.port
        runner = self.begin_runner(self.tokens[0])
        self.server.port = real
        self.project.pipeline(f"long:\n{more}  script:\n" + MARKS.format(self.room))
        until(lambda: self.lines("marks"))
        return runner

    def put_on(self, seconds: int) -> None:
        """Has the clock go faster, for so many seconds: five of them in a quarter of one."""
        for _ in range(seconds // 5):
            self.clock.put_on(5)
            time.sleep(0.25)

    def assert_gone(self, attempt: str = "1") -> None:
        """No more marks of an attempt come: at once, or in the few seconds that a busy machine takes."""
        def stands() -> bool:
            count = self.lines("marks").count(attempt)
            time.sleep(0.5)
            return self.lines("marks").count(attempt) == count
        until(stands, 4)

    def assert_one_after_another(self) -> None:
        attempts = [int(line.split()[0]) for line in self.lines("marks")]
        self.assertEqual(attempts, sorted(attempts))

    def cause(self) -> list[str]:
        self.server.kill()
        return self.server.rows("SELECT state, cause FROM attempt WHERE id = 1")

    def test_cancelled_job_is_told_to_end_and_killed_ten_seconds_later(self) -> None:
        self.begin_long_job()
        self.project.ask("POST", "/jobs/1/cancel")
        self.clock.put_on(8)  # the runner says that its job runs once ten seconds have passed
        until(lambda: "1 told" in self.lines("marks"))
        self.clock.put_on(5)
        count = len(self.lines("marks"))
        until(lambda: len(self.lines("marks")) > count)
        self.clock.put_on(6)
        self.assert_gone()
        until(lambda: "attempt 1 of long, project 1: it was cancelled" in self.read("one.log"))

    def test_job_that_ends_by_itself_once_it_was_cancelled(self) -> None:
        self.begin_runner(self.tokens[0])
        self.project.pipeline("a:\n  variables:\n    CI_JOB_ARTIFACTS: hello.txt\n"
                              f"  script: touch {self.room}/begun; until test -e {self.room}/end; do sleep 0.1; done\n")
        until(lambda: os.path.exists(self.path("begun")))
        time.sleep(2)  # what it printed is sent, and nothing more is said for ten seconds
        self.project.ask("POST", "/jobs/1/cancel")
        self.write("end", "")
        until(lambda: "attempt 1 of a, project 1: success, but the server took nothing more of it\n" in self.read("one.log"), 20)
        self.assertEqual(self.project.job(1, "a")["status"], "canceled")
        self.assertEqual(os.listdir(self.path("one/artifacts/1/1")), [])

    def test_time_limit(self) -> None:
        self.begin_runner(self.tokens[0])
        self.project.pipeline(f"long:\n  timeout: 1 minute\n  script: touch {self.room}/begun; sleep 1000\n")
        until(lambda: os.path.exists(self.path("begun")))
        self.put_on(45)
        self.assertEqual(self.project.ends(1), "failed")
        self.assertTrue(self.project.trace(1, "long").endswith("\nended: its time limit\n"))
        self.assertEqual(self.cause(), ["2|5"])

    def test_end_of_the_runner(self) -> None:
        runner = self.begin_long_job()
        runner.send_signal(signal.SIGTERM)
        until(lambda: "1 told" in self.lines("marks"))
        self.clock.put_on(10)
        self.assertEqual(runner.wait(40), 0)
        self.assert_gone()
        self.assertTrue(self.project.trace(1, "long").endswith("\nended: the runner was told to end\n"))
        self.assertEqual(self.cause(), ["2|4"])

    def test_runner_takes_no_more_and_lets_its_job_end(self) -> None:
        runner = self.begin_runner(self.tokens[0])
        self.project.pipeline(f"a:\n  script: touch {self.room}/begun; sleep 2\nb:\n  script: echo\n")
        until(lambda: os.path.exists(self.path("begun")))
        runner.send_signal(signal.SIGQUIT)
        self.assertEqual(runner.wait(40), 0)
        self.assertEqual([job["status"] for job in self.project.shown(1)["jobs"]], ["success", "pending"])

    def test_killed_runner(self) -> None:
        runner = self.begin_long_job("  retry: 1\n")
        runner.kill()
        self.put_on(15)
        self.assert_gone()
        self.begin_runner(self.tokens[1], "two")
        self.put_on(110)
        until(lambda: "2" in self.lines("marks"))
        self.assert_one_after_another()
        self.assertEqual(self.cause(), ["2|3"])

    def test_stopped_runner(self) -> None:
        runner = self.begin_long_job("  retry: 1\n")
        runner.send_signal(signal.SIGSTOP)
        self.put_on(80)
        self.assertNotIn("1 told", self.lines("marks"))
        self.put_on(40)
        self.assert_gone()
        self.assertIn("1 told", self.lines("marks"))
        self.begin_runner(self.tokens[1], "two")
        self.put_on(10)
        until(lambda: "2" in self.lines("marks"))
        runner.send_signal(signal.SIGCONT)
        time.sleep(2)
        self.assert_one_after_another()

    def test_outage_of_over_two_minutes(self) -> None:
        self.begin_long_job("  retry: 1\n")
        self.server.kill()
        self.put_on(80)
        self.assertNotIn("1 told", self.lines("marks"))
        self.put_on(40)
        self.assert_gone()
        self.put_on(10)
        self.server.start()
        self.begin_runner(self.tokens[1], "two")
        until(lambda: "2" in self.lines("marks"))
        self.assert_one_after_another()
        self.assertEqual(self.cause(), ["2|3"])

    def test_shorter_outage_is_bridged(self) -> None:
        self.begin_runner(self.tokens[0])
        self.project.pipeline(f"build:\n  script: for i in $(seq 20); do echo line $i; touch {self.room}/begun; sleep 0.1; done\n")
        until(lambda: os.path.exists(self.path("begun")))
        self.server.kill()
        self.put_on(80)
        self.server.start()
        self.assertEqual(self.project.ends(1), "success")
        lines = [line for line in self.project.trace(1, "build").splitlines() if line.startswith("line")]
        self.assertEqual(lines, [f"line {number}" for number in range(1, 21)])

    def test_kills_of_the_server_and_two_runners_on_one_resource_group(self) -> None:
        for name, token in zip(("one", "two"), self.tokens):
            self.begin_runner(token, name, "concurrent = 2")
        marks = f"    - for i in $(seq 10); do echo $CI_JOB_ID >> {self.room}/marks; sleep 0.05; done\n    - seq 2000\n"
        numbers = []
        for ref in range(6):
            file = f"ship:\n  retry: 2\n  resource_group: prod\n  script:\n{marks}"
            numbers.append(self.project.pipeline(file, f"main{ref}", {"CI_COMMIT_SHA": self.git("rev-parse", "HEAD")}))
            time.sleep(random.random())
            self.server.kill()
            self.server.start()
        for number in numbers:
            until(lambda: self.project.shown(number)["status"] == "success" or (self.put_on(20), False)[1])
            self.assertIn("\n1999\n2000\nended: exit code 0\n", self.project.trace(number, "ship"))
        marks = self.lines("marks")
        begun = [mark for place, mark in enumerate(marks) if place == 0 or marks[place - 1] != mark]
        self.assertEqual(len(begun), len(set(begun)), begun)  # none goes on behind another one
        self.assertGreaterEqual(len(begun), 6)
        self.server.kill()
        self.assertEqual(self.server.rows("PRAGMA integrity_check"), ["ok"])
        told = re.findall(r"^attempt (\d+) of ship, project 1: (success|\w+_failure)$", self.read("one.log") + self.read("two.log"), re.MULTILINE)
        self.assertGreaterEqual(len(told), 6)
        for attempt, state in told:
            self.assertEqual(self.server.rows(f"SELECT state FROM attempt WHERE id = {attempt}"), ["1" if state == "success" else "2"])

    def test_replies_that_are_lost(self) -> None:
        proxy = LossyProxy(self.server.port)
        self.addCleanup(proxy.close)
        real, self.server.port = self.server.port, proxy.port
        self.begin_runner(self.tokens[0])
        self.server.port = real
        self.project.pipeline("build:\n  script: for i in $(seq 60); do seq 2000; sleep 0.1; done\n")
        self.assertEqual(self.project.ends(1), "success")
        printed = self.project.trace(1, "build").partition("done\n")[2]
        self.assertEqual(printed, "".join(f"{n}\n" for n in range(1, 2001)) * 60 + "ended: exit code 0\n")
        self.assertGreater(proxy.lost, 3)


    def test_a_job_that_was_told_to_end_by_its_lease_is_told_so(self) -> None:
        proxy = SlowProxy(self.server.port)
        self.addCleanup(proxy.close)
        self.begin_long_job(port=proxy.port)
        proxy.goes_on.clear()
        self.put_on(100)
        until(lambda: "1 told" in self.lines("marks") or (self.put_on(5), False)[1])
        proxy.goes_on.set()  # the lease is renewed while the job has its last ten seconds
        time.sleep(2)
        self.put_on(15)
        self.assertEqual(self.project.ends(1), "failed")
        self.assertTrue(self.project.trace(1, "long").endswith("\nended: the server wasn't heard for two minutes\n"))
        self.assertEqual(self.cause(), ["2|3"])


    def test_a_grant_that_comes_late(self) -> None:
        proxy = SlowProxy(self.server.port)
        self.addCleanup(proxy.close)
        proxy.goes_on.clear()
        self.project.pipeline("build:\n  script: echo\n")
        real, self.server.port = self.server.port, proxy.port
        self.begin_runner(self.tokens[0])
        self.server.port = real
        until(lambda: self.project.shown(1)["status"] == "running")
        self.put_on(110)
        proxy.goes_on.set()
        self.assertEqual(self.project.ends(1), "success", self.read("one.log"))


class LossyProxy:
    """Hands requests on to a server, and every second reply to what is said of an attempt to nobody."""

    def __init__(self, server: int):
        self.server, self.lost, self.count = server, 0, 0
        self.place = socket.create_server(("127.0.0.1", 0))
        self.port = self.place.getsockname()[1]
        threading.Thread(target=self.serve, daemon=True).start()

    def close(self) -> None:
        self.place.close()

    def serve(self) -> None:
        while True:
            try:
                peer = self.place.accept()[0]
            except OSError:
                return
            with peer:
                request = self.request(peer)
                with socket.create_connection(("127.0.0.1", self.server)) as server:
                    server.sendall(request)
                    reply = b""
                    while data := server.recv(65_536):
                        reply += data
                if self.is_to_come(request):
                    peer.sendall(reply)

    def is_to_come(self, request: bytes) -> bool:
        self.count += 1
        lost = bool(self.count % 2) and b"/jobs/request" not in request.partition(b"\r\n")[0]
        self.lost += lost
        return not lost

    @staticmethod
    def request(peer: socket.socket) -> bytes:
        data = b""
        while b"\r\n\r\n" not in data:
            data += peer.recv(65_536)
        head, _, body = data.partition(b"\r\n\r\n")
        length = next((int(line.split(b":")[1]) for line in head.split(b"\r\n") if line.lower().startswith(b"content-length:")), 0)
        while len(body) < length:
            body += peer.recv(65_536)
        return head + b"\r\n\r\n" + body


class SlowProxy(LossyProxy):
    """Hands requests on to a server, and each reply when it may go on."""

    def __init__(self, server: int):
        self.goes_on = threading.Event()
        self.goes_on.set()
        super().__init__(server)

    def is_to_come(self, request: bytes) -> bool:
        return self.goes_on.wait(25)


if __name__ == "__main__":
    unittest.main()
