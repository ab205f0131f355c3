"""Parts of the runner by themselves."""
import glob
import http.server
import json
import os
import random
import shlex
import shutil
import subprocess
import sys
import tempfile
import threading
import time
import unittest
from unittest import mock

from support import RUNNER, run

sys.path.insert(0, os.path.dirname(RUNNER))

from ciserver_runner import api, config, git, main, pack, script, store, where  # noqa: E402
from ciserver_runner.refused import Refused  # noqa: E402
from ciserver_runner.trace import HEAD, LIMIT, TAIL, Mask, Trace, values_to_mask  # noqa: E402


class Masks(unittest.TestCase):
    def masked(self, values: list[bytes], pieces: list[bytes]) -> bytes:
        mask = Mask(values)
        return b"".join(map(mask.feed, pieces)) + mask.flush()

    def test_values_in_pieces(self) -> None:
        for pieces in ([b"a secret b"], [b"a sec", b"ret b"], [b"a ", b"s", b"e", b"c", b"r", b"e", b"t", b" b"]):
            self.assertEqual(self.masked([b"secret"], pieces), b"a [MASKED] b")

    def test_the_longer_value_goes_first(self) -> None:
        self.assertEqual(self.masked([b"abcd", b"abcdefgh"], [b"abcd", b"efgh abcd", b"ef"]), b"[MASKED] [MASKED]ef")

    def test_the_beginning_of_a_value_that_doesnt_go_on(self) -> None:
        self.assertEqual(self.masked([b"secret"], [b"sec", b"ond secre"]), b"second secre")

    def test_any_pieces_give_the_same(self) -> None:
        chance = random.Random(1)
        values = [b"abab", b"babb", b"aaaaaa", b"ab\nab"]
        for _ in range(500):
            text = bytes(chance.choice(b"ab\n") for _ in range(40))
            cuts = sorted(chance.randrange(41) for _ in range(5))
            pieces = [text[start:end] for start, end in zip([0, *cuts], [*cuts, 40])]
            self.assertEqual(self.masked(values, pieces), self.masked(values, [text]))
            self.assertFalse(any(value in self.masked(values, pieces) for value in values))

    def test_a_long_value_costs_no_more_for_each_time_that_another_is_printed(self) -> None:
        key = "\n".join(f"{number:064}" for number in range(100))
        begun = time.process_time()
        text = self.masked(values_to_mask([key, "password"]), [b"x password y\n" * 5_000])
        self.assertLess(time.process_time() - begun, 5)
        self.assertEqual(text, b"x [MASKED] y\n" * 5_000)

    def test_what_is_looked_for(self) -> None:
        whole = "first line\n  x\nlong enough"
        self.assertEqual(values_to_mask(["abc", "", "key", whole]), [whole.encode(), b"long enough", b"first line"])


class Traces(unittest.TestCase):
    def whole(self, size: int) -> bytes:
        trace = Trace(Mask())
        data = random.Random(1).randbytes(size)
        for start in range(0, size, 50_000):
            trace.write(data[start:start + 50_000])
        trace.close()
        out = b""
        while piece := trace.piece(len(out)):
            self.assertLessEqual(len(piece), 65_536)
            out += piece
        self.assertLessEqual(len(out), LIMIT)
        self.assertEqual(out[:min(size, HEAD)], data[:HEAD])
        self.assertEqual(out[-min(size, TAIL):], data[-min(size, TAIL):])
        return out

    def test_sizes_about_the_limit(self) -> None:
        for size in (1, HEAD - 1, HEAD, HEAD + 1, HEAD + TAIL):
            self.assertEqual(len(self.whole(size)), size)
        for size in (HEAD + TAIL + 1, LIMIT, LIMIT + 100_000):
            self.assertIn(b"\n[%d bytes are left out here" % (size - HEAD - TAIL), self.whole(size))

    def test_lines_of_the_runner_begin_a_line(self) -> None:
        trace = Trace(Mask([b"secret"]))
        trace.line("one")
        trace.write(b"two sec")
        trace.line("three secret")
        trace.close()
        self.assertEqual(trace.piece(0), b"one\ntwo sec\nthree [MASKED]\n")


class Patterns(unittest.TestCase):
    def test_which_paths_match(self) -> None:
        names = ["a.txt", "b/a.txt", "b/c/a.txt", "b/c/x.o", "d.log", "[x]", "{a", ".hidden/f", "a,b"]
        for pattern, wanted in (("*.txt", ["a.txt"]), ("**/*.txt", ["a.txt", "b/a.txt", "b/c/a.txt"]), ("b/*", ["b/a.txt"]),
                                ("b/**", ["b/a.txt", "b/c/a.txt", "b/c/x.o"]),
                                ("?.{txt,log}", ["a.txt", "d.log"]), ("[ab].txt", ["a.txt"]), ("[!a].log", ["d.log"]), ("*/f", [".hidden/f"]),
                                ("[[]x]", ["[x]"]), ("a,b", ["a,b"]), ("b/**/x.o", ["b/c/x.o"]), ("{b/{a,z},d}.{txt,log}", ["b/a.txt", "d.log"]),
                                ("**a*t", ["a.txt", "b/a.txt", "b/c/a.txt"]), ("**/c/*.*", ["b/c/a.txt", "b/c/x.o"]),
                                ("*b/**/*a*", ["b/a.txt", "b/c/a.txt"])):
            looked = pack.compiled(pattern)
            self.assertEqual([name for name in names if looked.fullmatch(name)], wanted, pattern)

    def test_no_name_takes_long(self) -> None:
        begun = time.process_time()
        for pattern in ("*a" * 20 + "*b", "**/" * 20 + "b", "**a" * 20 + "b", "{**,*a}" * 6 + "b"):
            self.assertFalse(pack.compiled(pattern).fullmatch("/".join("a" * 500)), pattern)
            self.assertTrue(pack.compiled(pattern).fullmatch("a" * 250 + "b") or pattern.startswith("**/"), pattern)
        self.assertRaises(Refused, pack.compiled, "{a,b}" * 20)
        self.assertRaises(Refused, pack.compiled, "{a,b")
        self.assertLess(time.process_time() - begun, 5)

    def test_paths_outside_are_refused(self) -> None:
        self.assertEqual(pack.normal("./a//b/", "/r"), "a/b")
        self.assertEqual(pack.normal("/r/a", "/r"), "a")
        for path in ("/etc", "..", "a/../../b", "/rest"):
            self.assertRaises(Refused, pack.normal, path, "/r")

    def test_all_that_is_there_but_git(self) -> None:
        with tempfile.TemporaryDirectory() as root:
            for name in (".git/config", "a/.git/config", "a/b"):
                os.makedirs(os.path.dirname(os.path.join(root, name)), exist_ok=True)
                open(os.path.join(root, name), "w", encoding="utf-8").close()
            os.mkfifo(os.path.join(root, "pipe"))
            self.assertEqual(pack.matching(root, [".git/config", ".git/*"], [], lambda: None), [])
            names = pack.matching(root, ["."], [], lambda: None)
            self.assertEqual(names, ["a", "a/.git", "a/.git/config", "a/b", "pipe"])
            os.symlink("a", root + "/link")
            self.assertEqual(pack.pack(root, [*names, "link"], root + "/x.tar", 10, lambda: None), 3)
            self.assertEqual(run("tar", "-tf", root + "/x.tar").splitlines(), ["a/", "a/.git/", "a/.git/config", "a/b", "link"])


class Texts(unittest.TestCase):
    def test_variables_are_put_in(self) -> None:
        values = {"A": "1", "B": "$A-${C}", "C": "<$B>", "E": ""}
        for text, wanted in (("$A", "1"), ("${A}b$$A", "1b$A"), ("$NONE/$E/x$", "//x$"), ("$B", "1-<$B>"), ("${A", "${A")):
            self.assertEqual(script.expanded(text, values), wanted)

    def test_variables_that_name_very_many(self) -> None:
        values = {chr(65 + place): f"${chr(66 + place)}" * 100 for place in range(9)} | {"LONG": "x" * 60_000}
        self.assertRaises(Refused, script.expanded, "$A", values)
        self.assertRaises(Refused, script.expanded, "$LONG" * 20, values)
        self.assertEqual(len(script.expanded("$LONG" * 10, values)), 600_000)

    def test_the_script_in_each_shell(self) -> None:
        values = {"A": "it's\n$HOME `x` \\", "PATH2": "", "PPID": "1", "UID": "x", "IFS": "a"}
        text = script.text_of(values, ["printf '<%s>' \"$A\"", "x=1; y=2", "echo $x$y; cat", "false | true", "exit 7", "echo no"])
        for shell in filter(shutil.which, ("bash", "dash", "busybox")):
            words = ["busybox", "sh"] if shell == "busybox" else [shell]
            done = subprocess.run([*words, "-c", script.READ_ALL], input=text, stdout=subprocess.PIPE, stderr=subprocess.PIPE, check=False)
            self.assertIn(b"<it's\n$HOME `x` \\>", done.stdout, shell)
            self.assertIn(b"\n12\n", done.stdout, shell)
            self.assertEqual(done.returncode, 7 if shell == "dash" else 1, shell)  # dash has no pipefail

    def test_names_of_services(self) -> None:
        self.assertEqual(where.aliases_of("postgres:15"), ["postgres"])
        self.assertEqual(where.aliases_of("host:5000/group/db:1@sha256:ab"), ["host5000-group-db", "host5000__group__db"])


class Answers(http.server.BaseHTTPRequestHandler):
    """Answers a request by what its path says: STATUS/BODY."""

    def do_PUT(self) -> None:
        status, body = self.path.removesuffix("/api/v4/jobs/1")[1:].split("/")
        self.send_response(int(status))
        self.send_header("Content-Length", str(len(body)))
        self.end_headers()
        self.wfile.write(body.encode())

    def log_message(self, *_: object) -> None:
        pass


class Calls(unittest.TestCase):
    def test_what_a_proxy_says_is_no_answer(self) -> None:
        with http.server.HTTPServer(("127.0.0.1", 0), Answers) as server:
            threading.Thread(target=server.serve_forever, daemon=True).start()
            for text in ("502/bad", '503/{"code":503}', "200/maintenance", '403/{"code":"blocked"}', "301/moved", '503/{"code":"M17"}'):
                with self.assertRaises(api.Unanswered, msg=text):
                    api.Api(f"http://127.0.0.1:{server.server_port}/{text}").put_state(1, "j1-ab", {"state": "running"}, 10)
            made = api.Api(f'http://127.0.0.1:{server.server_port}/403/{{"code":"M7"}}').put_state(1, "j1-ab", {"state": "running"}, 10)
            self.assertEqual((made.status, made.code), (403, "M7"))
            server.shutdown()

    def test_a_machine_without_room_for_a_thread(self) -> None:
        runner = main.Runner(config.from_table(Configurations.GOOD))
        grant = {"id": 1, "token": "j1-ab", "timeout": 60, "job_info": {"name": "a", "stage": "test", "project_id": 1}, "script": [], "variables": []}
        answers = [api.Answer(201, "", "", 0, json.dumps(grant).encode()), api.Answer(204, "", "", 0, b"")]

        def answer(_: str) -> api.Answer:
            runner.draining = len(answers) == 1
            return answers.pop(0)

        runner.api.request_job = answer
        with mock.patch.object(threading.Thread, "start", side_effect=RuntimeError("can't start new thread")):
            runner.ask()
        self.assertEqual((answers, runner.jobs), ([], {0: None}))


class Configurations(unittest.TestCase):
    GOOD = {"url": "http://h", "token": "r7-ab", "folder": "/f", "projects": {"1": {"repository": "/r"}}}

    def test_a_good_one(self) -> None:
        made = config.from_table(self.GOOD | {"artifacts": {"keep_days": 2}, "concurrent": 3})
        self.assertEqual((made.number, made.artifacts_keep, made.concurrent, made.cache_folder), ("7", 172_800, 3, "/f/cache"))

    def test_faults(self) -> None:
        for more, told in (({"urls": "x"}, "`urls` is unknown"), ({"url": "h:80"}, "`url` is http"),
                           ({"concurrent": 0}, "`concurrent` is a whole number"),
                           ({"concurrent": True}, "`concurrent` is a whole number"), ({"masked": ["A", 1]}, "`masked` is a list of texts"),
                           ({"where": "vm"}, "`where` is"), ({"cache": {"limit": 1}}, "`cache.limit` is unknown"),
                           ({"cache": 1}, "`cache` is a table"),
                           ({"projects": {"x": {}}}, "a project is told by its number"), ({"projects": {"1": {}}}, "the address of a Git repository"),
                           ({"projects": {"1": {"repository": "https://a:b@h/r"}}}, "has a password"),
                           ({"projects": {"1": {"repository": "r", "branch": "x"}}}, "unknown"), ({"projects": ["r"]}, "`projects` is a table"),
                           ({"projects": {"1": {"repository": "ssh://[::1/r"}}}, "`projects.1.repository`: Invalid IPv6 URL"),
                           ({"url": "http://h:x"}, "`url` is http"), ({"url": "http://h:65536"}, "`url` is http"),
                           ({"url": "http://[::1"}, "`url` is http"),
                           ({"ca_file": "/none"}, "cannot read certificates of /none: No such file or directory"),
                           ({"ca_file": os.path.realpath(__file__)}, "cannot read certificates of .*no certificate"),
                           ({"token": 5}, "`token` is a text"), ({"token_file": True}, "`token_file` is a text"),
                           ({"token": ""}, "`token` is missing"), ({"token": "", "token_file": "/none"}, "cannot read /none")):
            with self.assertRaisesRegex(config.Fault, told):
                config.from_table(self.GOOD | more)

    def test_words_and_the_example(self) -> None:
        with tempfile.NamedTemporaryFile("w", suffix=".token") as file:
            file.write("r3-ab\n")
            file.flush()
            made = config.from_words(["--url", "https://h/", "--token-file", file.name, "--folder", "f", "--project", "2=/r=x", "--concurrent", "2"])
            self.assertEqual((made.url, made.token, made.folder, made.projects[2].repository), ("https://h", "r3-ab", os.path.abspath("f"), "/r=x"))
            example = os.path.join(os.path.dirname(RUNNER), "config.example.toml")
            made = config.from_words(["--config", example, "--token-file", file.name])
            self.assertEqual(made.number, "3")
            with tempfile.NamedTemporaryFile("w", suffix=".toml") as table:
                table.write('url = "http://h"\nfolder = "f"\ntoken = "r4-ab"\n')
                table.flush()
                self.assertEqual(config.from_words(["--config", table.name]).number, "4")
                self.assertEqual(config.from_words(["--config", table.name, "--token-file", file.name]).number, "3")

    def test_paths_are_those_of_the_folder_that_the_runner_begins_in(self) -> None:
        table = {"repository": os.path.basename(__file__), "ssh_key": "key's"}
        made = config.from_table(self.GOOD | {"projects": {"1": table, "2": {"repository": "host:r"}}})
        here = os.getcwd()
        self.assertEqual((made.projects[1].repository, made.projects[2].repository), (f"{here}/{table['repository']}", "host:r"))
        self.assertEqual(shlex.split(git._environment(made.projects[1])["GIT_SSH_COMMAND"])[:3], ["ssh", "-i", f"{here}/key's"])

    def test_the_program_says_what_is_wrong(self) -> None:
        done = subprocess.run([RUNNER, "--url", "http://h", "--folder", "f"], stderr=subprocess.PIPE, text=True, check=False)
        self.assertEqual((done.returncode, done.stderr), (2, "ciserver-runner: `token` is missing\n"))


class Room(unittest.TestCase):
    def write(self, path: str, text: str = "") -> None:
        os.makedirs(os.path.dirname(path), exist_ok=True)
        with open(path, "w", encoding="utf-8") as file:
            file.write(text)

    def test_expired_artifacts_go(self) -> None:
        with tempfile.TemporaryDirectory() as root:
            for place, left in (("1/1/1", -1), ("1/1/2", 60), ("1/2/3", -1), ("2/9/4", 60)):
                record = {"job": "a", "stage": "test", "attempt": int(place[-1]), "kept": True, "expires": time.time() + left}
                self.write(f"{root}/{place}.json", json.dumps(record))
                self.write(f"{root}/{place}.tar")
            for name, text in (("6", "{}"), ("7", "[]"), ("8", '{"expires": 1e99}')):
                self.write(f"{root}/1/1/{name}.json", text)
            store.remove_expired(root)
            found = sorted(os.path.relpath(path, root) for path in glob.glob(f"{root}/*/*/*"))
            self.assertEqual(found, ["1/1/2.json", "1/1/2.tar", "2/9/4.json", "2/9/4.tar"])
            self.assertEqual(sorted(os.listdir(f"{root}/1")), ["1"])

    def test_what_killed_runners_left_goes_after_a_day(self) -> None:
        with tempfile.TemporaryDirectory() as root:
            for name in ("a/1/1/2.tar", "a/1/1/2.new", "a/1/1/3.tar.3.new", "c/1/ab.tar.4.new"):
                self.write(f"{root}/{name}")
                self.write(f"{root}/{name.replace('/1/', '/9/', 1)}")
                os.utime(f"{root}/{name}", (time.time() - 90_000,) * 2)
            store.remove_expired(root + "/a")
            store.make_room(root + "/c", 1)
            found = sorted(os.path.relpath(path, root) for path in glob.glob(f"{root}/**", recursive=True) if os.path.isfile(path))
            self.assertEqual(found, ["a/9/1/2.new", "a/9/1/2.tar", "a/9/1/3.tar.3.new", "c/9/ab.tar.4.new"])

    def test_caches_that_were_used_longest_ago_go(self) -> None:
        with tempfile.TemporaryDirectory() as root:
            for name, used in (("1/a", 300), ("1/b", 100), ("2/c", 200)):
                self.write(f"{root}/{name}.tar", "x" * 10)
                os.utime(f"{root}/{name}.tar", (used, used))
            store.make_room(root, 25)
            self.assertEqual(sorted(glob.glob(f"{root}/*/*")), [f"{root}/1/a.tar", f"{root}/2/c.tar"])

    def test_folders_however_deep_are_removed(self) -> None:
        root = tempfile.mkdtemp()
        code = "import os, sys; os.chdir(sys.argv[1]); [(os.mkdir('d'), os.chdir('d')) for _ in range(3_000)]"
        subprocess.run([sys.executable, "-c", code, root], check=True)
        store.remove_tree(root)
        self.assertFalse(os.path.lexists(root))

    def test_folders_that_may_not_be_written_are_removed(self) -> None:
        root = tempfile.mkdtemp()
        os.makedirs(root + "/a/b")
        open(root + "/a/b/c", "w", encoding="utf-8").close()
        os.symlink("/etc", root + "/a/link")
        os.chmod(root + "/a/b", 0o500)
        os.chmod(root + "/a", 0o0)
        store.remove_tree(root)
        self.assertFalse(os.path.lexists(root))
        self.assertTrue(os.path.exists("/etc/passwd"))


if __name__ == "__main__":
    unittest.main()
