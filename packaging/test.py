#!/usr/bin/env python3
"""Holds the manual's pages and the completion against what the programs print for --help, and tries what make install lays.

    packaging/test.py [CISERVER]        as in: packaging/test.py bin/ciserver

Every command, option and word of it that --help prints, of the program, of each of its commands, of the runner and of the two scripts, stands in its page, in the part of
its command; and the completion offers these and no others. It ends with `N passed, M failed`, and with 0 where none failed. It wants python3, python3-yaml and bash.
"""
import gzip
import os
import re
import subprocess
import sys
import tempfile
import unittest

HERE = os.path.dirname(os.path.abspath(__file__))
ROOT = os.path.dirname(HERE)
CISERVER = os.path.join(ROOT, "bin", "ciserver")
PAGES = ("ciserver.1", "ciserver-backup.1", "ciserver-convert.1", "ciserver-gitlab-ci.5", "ciserver-page.1", "ciserver-runner.1")
OPTION = re.compile(r"(?<![\w-])--?[a-zA-Z][a-z-]*")


def printed(*words, **more):
    """What a command prints; it has to end with 0."""
    return subprocess.run(words, capture_output=True, text=True, check=True, **more).stdout


def help_of(*words):
    return printed(*words, "--help", env={**os.environ, "COLUMNS": "500"})


def left_sides(text, *titles):
    """The left sides of the rows below these titles of a help."""
    found = []
    for title in titles:
        _, _, below = text.partition(f"\n{title}\n")
        for line in below.split("\n\n")[0].splitlines():
            if line.startswith("  ") and not line.startswith(" " * 12) and line.strip():
                found.append(re.split(r" {2,}", line.strip())[0])
    return found


def options_of(text):
    return {word for side in left_sides(text, "Options:", "options:") for word in OPTION.findall(side)}


def commands_of(text):
    return [side.split()[0] for side in left_sides(text, "Commands:")]


def plain(page):
    """A page's text without roff's own signs, a line for each of its."""
    text = re.sub(r"\\f[BIPR]|\\&", "", page)
    for sign, stands in (("\\-", "-"), ("\\(aq", "'"), ("\\(ga", "`"), ("\\(ha", "^"), ("\\(ti", "~"), ("\\e", "\\")):
        text = text.replace(sign, stands)
    return text


def parts_of(page):
    """The tags (.TP) of a page, by the title of the section or the part of it that they stand in, with what is said below each."""
    parts, title, lines = {}, "", plain(page).splitlines()
    for at, line in enumerate(lines):
        if line.startswith((".SH ", ".SS ")):
            title = line[4:]
        elif line == ".TP":
            parts.setdefault(title, {})[lines[at + 1]] = lines[at + 2]
    return parts


def missing(page, part, text, *titles):
    """The left sides of a help, of these titles or of all, that aren't tags of a part of the page, or of which nothing is said there."""
    tags = parts_of(page).get(part, {})
    titles = titles or ("Arguments:", "Options:", "positional arguments:", "options:")
    return [side for side in left_sides(text, *titles) if tags.get(side, ".PP").startswith(".")]


def completed(*words, script=None):
    """What bash completes behind these words, the last of which is the beginning of one."""
    script = script or os.path.join(HERE, f"{words[0]}.bash")
    line = '. "$1"; shift; COMP_WORDS=("$@"); COMP_CWORD=$(($# - 1)); "_${1//-/_}"; printf "%s\\n" "${COMPREPLY[@]}"'
    return [word for word in printed("bash", "-c", line, "bash", script, *words, cwd=HERE).splitlines() if word]


class Tree(unittest.TestCase):
    """What make install lays, in a folder."""

    @classmethod
    def setUpClass(cls):
        cls.room = tempfile.TemporaryDirectory()
        cls.root = cls.room.name
        for part in ("server", "runner"):
            cls.lay(part)

    @classmethod
    def tearDownClass(cls):
        cls.room.cleanup()

    @classmethod
    def lay(cls, part, **more):
        subprocess.run([f"{HERE}/install.sh", part], check=True, env={**os.environ, "PREFIX": "/usr/local", "DESTDIR": cls.root, "PROGRAM": CISERVER,
                                                                      "SYSCONFDIR": "", **more})

    @classmethod
    def page(cls, name):
        with gzip.open(f"{cls.root}/usr/local/share/man/man{name[-1]}/{name}.gz", "rt", encoding="utf-8") as file:
            return file.read()

    def read(self, path):
        with open(self.root + path, encoding="utf-8") as file:
            return file.read()

    def test_each_command_and_option_is_in_the_page(self):
        page, text = self.page("ciserver.1"), help_of(CISERVER)
        parts = parts_of(page)
        self.assertGreater(len(commands_of(text)), 10)
        self.assertEqual(set(commands_of(text)), set(parts["COMMANDS"]))
        self.assertEqual(set(left_sides(text, "Options:")), set(parts["OPTIONS"]))
        self.assertEqual(missing(page, "COMMANDS", text, "Commands:") + missing(page, "OPTIONS", text), [])
        for name in commands_of(text):
            if name != "help":
                told = help_of(CISERVER, name)
                self.assertTrue(options_of(told), name)
                self.assertEqual(missing(page, f"ciserver {name}", told), [], name)
                self.assertEqual(set(parts[f"ciserver {name}"]), set(left_sides(told, "Arguments:", "Options:")), name)

    def test_a_page_that_lacks_an_option_or_says_nothing_of_it_is_seen(self):
        page, told = self.page("ciserver.1"), help_of(CISERVER, "runner-add")
        tag = "\\fB\\-\\-untagged\\fP"
        self.assertEqual(page.count(f".TP\n{tag}\n"), 1)
        self.assertEqual(missing(page.replace(f".TP\n{tag}\n", ".PP\n"), "ciserver runner-add", told), ["--untagged"])
        self.assertEqual(missing(re.sub(re.escape(f".TP\n{tag}\n") + ".*", lambda _: f".TP\n{tag}\n.PP", page), "ciserver runner-add", told), ["--untagged"])
        self.assertEqual(missing(page, "ciserver runner-pause", told), ["--name <name>", "--project <N>", "--tags <A,B>", "--untagged"])

    def test_the_scripts_and_the_runner_have_their_options_in_their_pages(self):
        for name, script, options in (("ciserver-runner", "runner/ciserver-runner", 9), ("ciserver-convert", "examples/convert.py", 7),
                                      ("ciserver-page", "examples/page.py", 4)):
            told = help_of(sys.executable, "-B", os.path.join(ROOT, script))
            self.assertGreaterEqual(len(options_of(told)), options, name)
            self.assertEqual(missing(self.page(f"{name}.1"), "OPTIONS", told), [], name)
            self.assertEqual(set(parts_of(self.page(f"{name}.1"))["OPTIONS"]), set(left_sides(told, "positional arguments:", "options:")), name)

    def test_the_page_of_the_profile_has_each_code_and_keyword_of_it(self):
        tags = {tag for part in parts_of(self.page("ciserver-gitlab-ci.5")).values() for tag in part}
        for code in [f"Y{n}" for n in range(1, 13)] + [f"X{n}" for n in range(1, 9)] + [f"K{n}" for n in range(1, 17)]:
            self.assertIn(code, tags)
        for keyword in ("script", "stage", "needs", "rules", "when", "retry", "tags", "timeout", "resource_group", "interruptible", "variables", "if"):
            self.assertIn(keyword, tags)

    def test_each_section_of_operating_is_in_a_page(self):
        with open(f"{ROOT}/docs/OPERATING.md", encoding="utf-8") as file:
            titles = set(re.findall(r"(?m)^## (.*)$", file.read()))
        elsewhere = {"A page without a server", "Copies", "What was measured, and how to measure it again"}
        self.assertLess(elsewhere, titles)
        sections = set(re.findall(r"(?m)^\.SH (.*)$", plain(self.page("ciserver.1"))))
        self.assertEqual({title.upper() for title in titles - elsewhere} - sections, set())
        self.assertIn("writes one HTML page", plain(self.page("ciserver-page.1")))
        self.assertIn("Back from a copy.", plain(self.page("ciserver-backup.1")))

    def test_the_words_of_a_copy_are_in_its_page(self):
        ran = subprocess.run([f"{ROOT}/examples/backup.sh"], capture_output=True, text=True, check=False)
        self.assertEqual((ran.returncode, ran.stderr), (2, "backup.sh: the words are FILE COPY [PID]\n"))
        self.assertIn("\nciserver-backup FILE COPY [PID]\n", plain(self.page("ciserver-backup.1")))

    def test_pages_have_no_line_that_roff_would_take_for_its_own(self):
        macros = {"TH", "SH", "SS", "PP", "TP", "IP", "RS", "RE", "nf", "fi", "br"}
        for name in PAGES:
            for line in self.page(name).splitlines():
                if line.startswith((".", "'")):
                    self.assertIn(line[1:].split()[0], macros, line)

    def test_what_is_behind_a_strong_word_is_not_strong(self):
        strong = 0
        for name in PAGES:
            for line in self.page(name).splitlines():
                fonts, before = ["R"], "R"
                for font in re.findall(r"\\f(.)", line):
                    font, before = (before if font == "P" else font), fonts[-1]
                    fonts.append(font)
                self.assertEqual(fonts[-1], "R", line)
                strong += fonts.count("B")
        self.assertGreater(strong, 1000)
        self.assertIn("\\fBA plain \\fBcp\\fB isn\\(aqt safe\\fR, whichever of the two is copied first.", self.page("ciserver-backup.1"))

    def test_a_program_of_another_name_is_called_ciserver_in_its_page(self):
        other = f"{self.root}/other"
        os.symlink(CISERVER, other)
        self.lay("server", PROGRAM=other)
        for name in set(commands_of(help_of(other))) - {"help"}:
            self.assertIn(f"\nciserver {name} ", plain(self.page("ciserver.1")))

    def test_pages_name_programs_as_they_are_installed(self):
        for name in PAGES:
            self.assertIsNone(re.search(r"(?<![\w./])(bin/ciserver|examples/(convert|page)\.py|examples/backup\.sh|runner/ciserver-runner)", plain(self.page(name))), name)
        self.assertIn("ciserver-page /root/copy.db 1", plain(self.page("ciserver-page.1")))
        self.assertIn("ciserver check -", plain(self.page("ciserver.1")))
        self.assertIn("\nciserver-backup /var/lib/ciserver/ci.db /backup/monday.db", plain(self.page("ciserver-backup.1")))

    def test_bash_completes_the_commands_and_options_and_no_others(self):
        text = help_of(CISERVER)
        self.assertEqual(set(completed("ciserver", "")), set(commands_of(text)) | options_of(text))
        self.assertEqual(set(completed("ciserver", "help", "")), set(commands_of(text)))
        self.assertEqual(completed("ciserver", "project"), ["project-add"])
        for name in commands_of(text):
            if name != "help":
                self.assertEqual(set(completed("ciserver", name, "-")), options_of(help_of(CISERVER, name)), name)
        told = help_of(sys.executable, "-B", f"{ROOT}/runner/ciserver-runner")
        self.assertEqual(set(completed("ciserver-runner", "-")), options_of(told))

    def test_a_completion_that_lacks_an_option_is_seen(self):
        with open(f"{HERE}/ciserver.bash", encoding="utf-8") as file:
            text = file.read()
        self.assertEqual(text.count(" --untagged"), 1)
        lacking = f"{self.root}/lacking.bash"
        with open(lacking, "w", encoding="utf-8") as file:
            file.write(text.replace(" --untagged", ""))
        self.assertEqual(options_of(help_of(CISERVER, "runner-add")) - set(completed("ciserver", "runner-add", "-", script=lacking)), {"--untagged"})

    def test_bash_completes_values(self):
        self.assertEqual(completed("ciserver", "report", "--kind", "p"), ["pipeline"])
        self.assertEqual(set(completed("ciserver", "report", "--kind", "")), {"queue", "pipeline", "runners"})
        self.assertEqual(set(completed("ciserver", "plan", "--source", "")), {"push", "web", "schedule", "api", "trigger"})
        self.assertEqual(completed("ciserver", "check", "pages"), ["pages.py"])
        self.assertEqual(completed("ciserver", "serve", "--db", "roff"), ["roff.py"])
        self.assertEqual(completed("ciserver", "serve", "--port", ""), [])
        self.assertEqual(set(completed("ciserver", "serve", "--log", "")), {"events", "requests"})
        self.assertEqual(set(completed("ciserver-runner", "--where", "")), {"shell", "container"})
        self.assertEqual(completed("ciserver-runner", "--config", "roff"), ["roff.py"])

    def test_what_is_laid_runs(self):
        at = f"{self.root}/usr/local/bin"
        self.assertEqual(printed(f"{at}/ciserver", "--version"), printed(CISERVER, "--version"))
        file = f"{self.root}/gitlab.yml"
        with open(file, "w", encoding="utf-8") as written:
            written.write(".base: &base\n  script: make\nbuild:\n  <<: *base\n")
        run = {"env": {**os.environ, "PYTHONDONTWRITEBYTECODE": "1"}}
        text = printed(sys.executable, f"{at}/ciserver-convert", file, **run)
        self.assertEqual(printed(f"{at}/ciserver", "check", "-", input=text), "jobs: 1\n")
        self.assertIn("--config FILE", printed(sys.executable, f"{at}/ciserver-runner", "--help", **run))
        db = f"{self.root}/ci.db"
        printed(f"{at}/ciserver", "init", "--db", db)
        printed(f"{at}/ciserver", "project-add", "--db", db, "--name", "hello")
        self.assertIn("<h1><bdi>hello</bdi></h1>", printed(sys.executable, f"{at}/ciserver-page", db, "1", **run))
        copy = {"env": {**os.environ, "CISERVER": f"{at}/ciserver"}}
        self.assertRegex(printed(f"{at}/ciserver-backup", db, f"{self.root}/copy.db", **copy), r"\Atries: \d+\n\Z")
        self.assertEqual(printed(f"{at}/ciserver", "report", "--db", f"{self.root}/copy.db", "--kind", "queue", "--json"), "[]\n")
        self.assertEqual([name for _, folders, _ in os.walk(self.root) for name in folders if name in ("__pycache__", "cases", "tests")], [])

    def test_the_page_is_laid_whole_where_nginx_looks_for_it(self):
        root = re.search(r"(?m)^ *root (\S+);$", self.read("/usr/local/share/doc/ciserver/examples/nginx.conf"))[1]
        self.assertEqual(root, "/usr/local/share/ciserver/web")
        text = self.read(f"{root}/index.html")
        named = re.findall(r'(?:src|href)="([\w./]+)"', text)
        self.assertIn("js/main.js", named)
        for name in [*named, "icon.svg"]:
            self.assertTrue(os.path.exists(f"{self.root}{root}/{name}"), name)
        modules = sorted(os.listdir(f"{self.root}{root}/js"))
        self.assertEqual(modules, sorted(os.listdir(f"{ROOT}/web/js")))
        for module in modules:
            for name in re.findall(r'from "\./([\w.]+)"', self.read(f"{root}/js/{module}")):
                self.assertIn(name, modules)
        self.assertFalse(os.path.exists(f"{self.root}{root}/tests"))

    def test_units_and_configuration_name_what_is_laid(self):
        for unit, program in (("ciserver", "/usr/local/bin/ciserver"), ("ciserver-runner", "/usr/local/share/ciserver-runner/ciserver-runner")):
            text = self.read(f"/usr/local/lib/systemd/system/{unit}.service")
            self.assertEqual(re.findall(r"^ExecStart=(\S+)", text, re.M), [program])
            self.assertTrue(os.access(self.root + program, os.X_OK))
        self.assertRegex(self.read("/usr/local/lib/systemd/system/ciserver.service"), r"(?m)^EnvironmentFile=-/etc/default/ciserver$")
        self.assertRegex(self.read("/etc/default/ciserver"), r"(?m)^PORT=8080$")

    def test_the_unit_of_one_of_several_servers_differs_by_its_folder_and_its_port_alone(self):
        one, several = (self.read(f"/usr/local/lib/systemd/system/{name}.service").splitlines() for name in ("ciserver", "ciserver@"))
        lines = [line for line in several if not line.startswith("#") and line not in one]
        self.assertEqual(lines, ["Description=ciserver, a continuous integration server, %i", "StateDirectory=ciserver/%i",
                                 "EnvironmentFile=/etc/default/ciserver-%i",
                                 "ExecStart=/usr/local/bin/ciserver serve --db /var/lib/ciserver/%i/ci.db --port ${PORT} --requests 4294967295 --stop-on-fault --log events"])
        self.assertEqual(len(one) - len(several), 1)

    def test_the_configuration_of_a_runner_has_no_project_of_the_example(self):
        import tomllib
        table = tomllib.loads(self.read("/etc/ciserver-runner/config.toml"))
        self.assertEqual(table["token_file"], "/etc/ciserver-runner/token")
        self.assertNotIn("projects", table)
        with open(f"{ROOT}/runner/config.example.toml", "rb") as file:
            self.assertEqual(set(tomllib.load(file)["projects"]), {"1", "2", "3"})

    def test_a_configuration_that_is_there_stays(self):
        path = f"{self.root}/etc/default/ciserver"
        with open(path, "a", encoding="utf-8") as file:
            file.write("# mine\n")
        self.lay("server")
        self.assertIn("# mine\n", self.read("/etc/default/ciserver"))

    def test_another_prefix_has_its_own_configuration(self):
        self.lay("server", PREFIX="/home/me/ci")
        self.lay("runner", PREFIX="/home/me/ci")
        self.assertIn(" root /home/me/ci/share/ciserver/web;", self.read("/home/me/ci/share/doc/ciserver/examples/nginx.conf"))
        text = self.read("/home/me/ci/lib/systemd/system/ciserver-runner.service")
        self.assertRegex(text, r"(?m)^ExecStart=/home/me/ci/share/ciserver-runner/ciserver-runner --config /home/me/ci/etc/ciserver-runner/config.toml$")
        self.assertIn("PORT=", self.read("/home/me/ci/etc/default/ciserver"))

    def test_a_prefix_that_units_cannot_name_is_refused(self):
        for prefix in ("here", "/home/my ci", "/home/a&b", "/home/a#b", "/home/100%"):
            ran = subprocess.run([f"{HERE}/install.sh", "server"], env={**os.environ, "PREFIX": prefix, "DESTDIR": f"{self.root}/refused"}, capture_output=True, text=True, check=False)
            self.assertEqual((ran.returncode, prefix in ran.stderr), (2, True), ran.stderr)
        self.assertFalse(os.path.exists(f"{self.root}/refused"))

    def test_a_prefix_with_a_slash_at_its_end_is_the_same(self):
        self.lay("server", PREFIX="/usr/local/", DESTDIR=f"{self.root}/slash")
        self.assertTrue(os.path.exists(f"{self.root}/slash/etc/default/ciserver"))
        self.assertRegex(self.read("/slash/usr/local/lib/systemd/system/ciserver.service"), r"(?m)^ExecStart=/usr/local/bin/ciserver ")

    def test_others_reach_what_is_laid_under_a_narrow_umask(self):
        subprocess.run(["bash", "-c", 'umask 077; "$0" runner', f"{HERE}/install.sh"], check=True, env={**os.environ, "PREFIX": "/usr/local", "DESTDIR": f"{self.root}/narrow",
                                                                                                    "PROGRAM": CISERVER, "SYSCONFDIR": ""})
        self.assertEqual([at for at, _, _ in os.walk(f"{self.root}/narrow/usr/local") if os.stat(at).st_mode & 0o777 != 0o755], [])


def main():
    global CISERVER
    if len(sys.argv) > 1:
        CISERVER = os.path.abspath(sys.argv[1])
    if not os.access(CISERVER, os.X_OK):
        sys.exit("there is no bin/ciserver: make build")
    ran = unittest.TextTestRunner(verbosity=0).run(unittest.defaultTestLoader.loadTestsFromTestCase(Tree))
    failed = len(ran.failures) + len(ran.errors)
    print(f"{ran.testsRun - failed} passed, {failed} failed")
    return 0 if ran.testsRun and not failed else 1


if __name__ == "__main__":
    sys.dont_write_bytecode = True
    sys.exit(main())
