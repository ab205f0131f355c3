"""What is tried of the page. Each test has a server of its own."""
import json
import os
import subprocess
import tempfile
from itertools import pairwise

from browser import ENTER, ESCAPE, TAB
from selenium.webdriver.common.by import By
from stand import ROOT, until, WAIT

ONE = """
build:
  stage: build
  script: make
"""

CHAIN = """
stages: [build, test, deploy]
compile:
  stage: build
  script: make
lint:
  stage: build
  allow_failure: true
  script: make lint
unit:
  stage: test
  needs: [compile]
  script: make test
whole:
  stage: test
  script: make whole
ship:
  stage: deploy
  when: manual
  allow_failure: false
  script: make ship
"""

SCRIPT = """
stages: [build]
"<script>document.title='owned'</script>":
  stage: build
  tags: ["<img src=x onerror=alert(1)>", gpu]
  resource_group: "<b>bold</b>"
  script: make
"""

GROUPS = """
stages: [deploy]
first:
  stage: deploy
  resource_group: prod
  script: x
second:
  stage: deploy
  resource_group: prod
  script: x
special:
  stage: deploy
  tags: [mainframe]
  script: x
"""


def at(pipeline, job=None):
    return f"#/pipelines/{pipeline}" + (f"/jobs/{job}" if job else "")


def asked(browser, since=0):
    """When the page asked the server, in milliseconds, from a moment on."""
    return browser.run("return performance.getEntriesByType('resource').filter(it => it.name.includes('/api/')).map(it => it.startTime).filter(it => it >= arguments[0])", since)


def gaps(browser):
    """How many requests the page made before it asked for anything once more, and the milliseconds between two requests from there on."""
    told = browser.run("return performance.getEntriesByType('resource').filter(it => it.name.includes('/api/')).map(it => [it.startTime, it.name])")
    names = [name for _, name in told]
    first = next((count for count, name in enumerate(names) if name in names[:count]), len(names))
    return first, [after - before for (before, _), (after, _) in pairwise(told[max(0, first - 1):])]


def asks_again(browser, count=1):
    """Waits until the page has asked so many times more, and drawn what came of all but the last."""
    before = len(asked(browser))
    assert until(lambda: len(asked(browser)) >= before + count), "the page doesn't ask"


def stays(check, seconds):
    """Whether something holds for so long."""
    return until(lambda: not check(), seconds) is None


def test_a_token_is_asked_for_and_kept_for_the_tab(stand, browser):
    browser.open(is_in=False)
    assert browser.sees("form.card h1", "token")
    assert asked(browser) == []
    browser.write("[name=token]", "r1-none" + ENTER)
    assert browser.sees(".card .fault", "no project's token")
    browser.find("[name=token]").clear()
    browser.write("[name=token]", "p1-" + "0" * 32 + ENTER)
    assert browser.sees(".card .fault", "no project has this token")
    browser.write("[name=token]", stand.server.project + ENTER)
    assert browser.sees("h1", "^pipelines$") and browser.sees(".brand", "hello")
    kept = browser.run("return [JSON.stringify(sessionStorage), localStorage.length, document.cookie]")
    assert json.loads(kept[0]) == {"token /": stand.server.project} and kept[1:] == [0, ""]
    browser.driver.refresh()
    assert browser.sees("h1", "^pipelines$")
    browser.press("[data-act=out]")
    assert browser.sees("form.card") and browser.run("return sessionStorage.length") == 0


def test_a_job_becomes_green(stand, browser):
    pipeline = stand.pipeline(CHAIN)["id"]
    browser.open("#/pipelines")
    assert browser.sees(f"[data-pipeline='{pipeline}'] .chip", "pending")
    browser.press(f"[data-pipeline='{pipeline}'] .number")
    job = stand.job(pipeline, "compile")
    assert browser.sees(f".box.pending[data-box='{job}']", "compile")
    grant = stand.take()
    assert browser.sees(f".box.running[data-box='{job}']", "running")
    grant.ends()
    assert browser.sees(f".box.success[data-box='{job}']", "success")
    lint = stand.take()
    assert lint.name == "lint"
    lint.ends("failed", 3)
    assert browser.sees(f".box.warning[data-box='{stand.job(pipeline, 'lint')}']", "failed, allowed")
    green = browser.run("return getComputedStyle(document.querySelector('.box.success')).borderLeftColor")
    orange = browser.run("return getComputedStyle(document.querySelector('.box.warning')).borderLeftColor")
    assert green != orange, (green, orange)


def test_the_picture_has_stages_and_lines_of_needs(stand, browser):
    pipeline = stand.pipeline(CHAIN)["id"]
    browser.open(at(pipeline))
    assert browser.sees(".box", "compile")
    assert [it.text for it in browser.all(".picture .stage")] == ["build", "test", "deploy"]
    ids = {name: str(stand.job(pipeline, name)) for name in ("compile", "lint", "unit", "whole", "ship")}
    lines = {tuple(it.get_attribute("data-ids").split()) for it in browser.all(".lines path")}
    joined = lambda one, other: any(line[0] == ids[one] and ids[other] in line[1:] or line[0] == ids[other] and ids[one] in line[1:] for line in lines)
    for one, other in (("compile", "unit"), ("compile", "whole"), ("lint", "whole"), ("unit", "ship"), ("whole", "ship")):
        assert joined(one, other), (one, other, lines)
    for one, other in (("lint", "unit"), ("compile", "ship"), ("lint", "ship")):
        assert not joined(one, other), (one, other, lines)
    left = [browser.find(f"[data-box='{ids[name]}']").rect["x"] for name in ("compile", "unit", "ship")]
    assert left == sorted(left) and len(set(left)) == 3, left


def test_a_job_is_cancelled_retried_and_played(stand, browser):
    pipeline = stand.pipeline(CHAIN)["id"]
    compile_, ship = stand.job(pipeline, "compile"), stand.job(pipeline, "ship")
    browser.open(at(pipeline, compile_))
    browser.press("[data-act=cancel]")
    assert browser.sees("h1 + .chip", "canceled") and stand.status(compile_) == "canceled"
    browser.press("[data-act=retry]")
    assert browser.sees("h1 + .chip", "pending") and stand.status(compile_) == "pending"
    while grant := stand.take():
        grant.ends()
    browser.go(at(pipeline))
    assert browser.sees(f".box.manual[data-box='{ship}']", "manual")
    browser.press(f".box[data-box='{ship}'] [data-act=play]")
    assert browser.sees(f".box.pending[data-box='{ship}']", "pending") and stand.status(ship) == "pending"
    assert browser.sees("#notes", "ship plays")
    stand.take().ends()
    assert browser.sees("h1 + .chip", "success")


def test_a_pipeline_is_run_with_variables_and_cancelled(stand, browser):
    stand.user("PUT", "/ci_file", ONE)
    browser.open("#/pipelines")
    assert browser.sees(".empty", "no pipeline yet")
    browser.press("[data-act=run]")
    assert browser.sees("dialog h2", "run a pipeline")
    browser.find("dialog [name=ref]").clear()
    browser.write("dialog [name=ref]", "release/2")
    browser.press("dialog form > .button")
    browser.write("dialog [name=key]", "COLOUR")
    browser.write("dialog [name=value]", "blue $x")
    browser.press("dialog [type=submit]")
    assert browser.sees("h1", "pipeline #1") and browser.sees(".top .ref", "release/2")
    if stand.is_real:
        told = stand.send("POST", "/jobs/request", json.dumps({"token": stand.server.shell}).encode())
        assert {"key": "COLOUR", "value": "blue $x"} in told["variables"], told
    browser.press("[data-act=cancel-pipeline]")
    assert browser.sees("h1 + .chip", "canceled")
    assert stand.user("GET", "/pipelines/1")["status"] == "canceled"
    browser.press("[data-act=retry-failed]")
    assert browser.sees("h1 + .chip", "pending|running")


def test_a_refusal_is_told(stand, browser):
    browser.open("#/pipelines")
    browser.press("[data-act=run]")
    browser.press("dialog [type=submit]")
    assert browser.sees("dialog .fault", "no CI file yet")
    browser.keys(ESCAPE)
    assert browser.gone("dialog")
    browser.go("#/pipelines/77")
    assert browser.sees(".empty", "no such pipeline")
    browser.go("#/pipelines/77/jobs/5")
    assert browser.sees(".empty", "no such job")
    browser.go("#/nowhere")
    assert browser.sees("h1", "^pipelines$")


def test_a_job_that_ended_meanwhile_is_told_of(stand, browser):
    pipeline = stand.pipeline(ONE)["id"]
    job = stand.job(pipeline, "build")
    browser.open(at(pipeline, job))
    assert browser.sees("[data-act=cancel]")
    # Somebody is quicker: what the page is about to ask for has been asked for just before.
    browser.run("const was = window.fetch; window.fetch = async (url, more) => { if (more.method === 'POST') await was(url, more); return was(url, more); }")
    browser.press("[data-act=cancel]")
    assert browser.sees(".note.fault", "nothing left to cancel")
    assert browser.sees("h1 + .chip", "canceled")


def test_pipelines_are_filtered(stand, browser):
    for ref in ("main", "feature/a", "feature/b"):
        stand.pipeline(ONE, ref)
    stand.user("POST", "/pipelines/2/cancel")
    browser.open("#/pipelines")
    assert until(lambda: len(browser.all(".row")) == 3)
    browser.write("[name=ref]", "FEAT")
    assert until(lambda: len(browser.all(".row")) == 2)
    browser.run("const it = document.querySelector('[name=status]'); it.value = 'canceled'; it.dispatchEvent(new Event('input', {bubbles: true}))")
    assert until(lambda: len(browser.all(".row")) == 1) and browser.sees(".row .ref", "feature/a")
    assert browser.run("return location.hash") == "#/pipelines?ref=FEAT&status=canceled"
    browser.driver.refresh()
    assert until(lambda: len(browser.all(".row")) == 1)
    assert browser.run("return [document.querySelector('[name=ref]').value, document.querySelector('[name=status]').value]") == ["FEAT", "canceled"]
    browser.open("#/pipelines?ref=none")
    assert browser.sees(".empty", "no pipeline of the newest")
    browser.press(".empty a")
    assert until(lambda: len(browser.all(".row")) == 3)


def test_a_name_that_is_a_script_stays_text(stand, browser):
    pipeline = stand.pipeline(SCRIPT, "<img src=x onerror=document.title='owned'>")["id"]
    name = "<script>document.title='owned'</script>"
    job = stand.job(pipeline, name)
    for where in ("#/pipelines", at(pipeline), "#/waiting", at(pipeline, job)):
        browser.open(where)
        assert browser.sees("main .chip")
        assert browser.run("return document.querySelectorAll('main script, main img, main b').length") == 0
        assert "owned" not in browser.driver.title
    assert browser.sees("h1", "<script>document.title='owned'</script>")
    assert browser.sees(".plate", "<img src=x onerror=alert")
    browser.open("#/groups")
    assert browser.sees("[data-group]", "<b>bold</b>.*free")
    assert browser.run("return document.querySelectorAll('main b').length") == 0


def test_what_waits_is_told_with_why(stand, browser):
    one = stand.pipeline(GROUPS)["id"]
    # Of another branch, so that it makes the first no less wanted.
    stand.pipeline(CHAIN, "next")
    first = stand.take()
    assert first.name == "first"
    browser.open("#/waiting")
    second, special = stand.job(one, "second"), stand.job(one, "special")
    assert browser.sees(f"[data-job='{second}'] .reason", f"prod is held by first #{stand.job(one, 'first')}")
    assert browser.sees(f"[data-job='{special}'] .reason", "runner with mainframe.*none was seen here yet that has it")
    compile_ = stand.job(2, "compile")
    assert browser.sees(f"[data-job='{compile_}'] .reason", "shell runs first")
    assert browser.sees(f"[data-job='{stand.job(2, 'unit')}'] .reason", "waits for compile")
    browser.press(f"[data-job='{special}'] [data-act=cancel]")
    assert browser.gone(f"[data-job='{special}']") and stand.status(special) == "canceled"


def test_resource_groups_and_their_mode(stand, browser):
    one = stand.pipeline(GROUPS)["id"]
    stand.take()
    browser.open("#/groups")
    assert browser.sees("[data-group=prod]", f"held by.*first #{stand.job(one, 'first')}.*1 waits.*second")
    browser.run("const it = document.querySelector('[data-mode=prod]'); it.value = 'oldest_first'; it.dispatchEvent(new Event('change', {bubbles: true}))")
    assert browser.sees("#notes", "prod is oldest first")
    assert stand.user("GET", "/resource_groups/prod")["process_mode"] == "oldest_first"
    stand.user("PUT", "/resource_groups/prod", {"process_mode": "newest_ready_first"})
    assert until(lambda: browser.run("return document.querySelector('[data-mode=prod]').value") == "newest_ready_first")


def test_the_server_is_lost_and_found(stand, browser):
    pipeline = stand.pipeline(ONE)["id"]
    job, grant = stand.job(pipeline, "build"), stand.take()
    grant.says("before\n")
    browser.open(at(pipeline, job))
    assert browser.sees("[data-line='1'] .text", "before")
    stand.server.lose()
    assert browser.sees("#state.lost", "the server doesn't answer")
    assert browser.sees("[data-line='1'] .text", "before") and browser.sees("h1 + .chip", "running")
    browser.press("[data-act=cancel]")
    assert browser.sees(".note.fault", "not known whether it was done")
    stand.server.find()
    assert browser.sees("#state.found", "answers again")
    if not stand.is_real:
        grant.says("after\n")
        assert browser.sees("[data-line='2'] .text", "after")
    assert browser.gone("#state p")


def test_it_asks_once_in_two_seconds_and_not_while_hidden(stand, browser):
    pipeline = stand.pipeline(CHAIN)["id"]
    stand.take()
    for where in ("#/pipelines", at(pipeline), "#/waiting"):
        browser.open(where)
        assert browser.sees("main .chip")
        # What is to be shown is asked for at once: at most eight requests.
        assert until(lambda: len(gaps(browser)[1]) >= 3), (where, gaps(browser))
        at_once, others = gaps(browser)
        assert 0 < at_once <= 8, (where, at_once)
        # Where the machine is busy, a request begins a little after the moment from which the page counts.
        assert min(others) >= 1800, (where, others)
    hidden = browser.run("Object.defineProperty(document, 'hidden', {configurable: true, value: true}); document.dispatchEvent(new Event('visibilitychange')); return performance.now()")
    assert stays(lambda: asked(browser, hidden) == [], 7)
    shown = browser.run("delete document.hidden; document.dispatchEvent(new Event('visibilitychange')); return performance.now()")
    assert until(lambda: asked(browser, shown))
    assert asked(browser, hidden)[0] >= shown


def test_no_other_host_is_asked_and_the_policy_is_strict(stand, browser):
    stand.pipeline(ONE)
    browser.open("#/pipelines")
    assert browser.sees("main .chip")
    names = browser.run("return performance.getEntriesByType('resource').map(it => it.name)")
    assert names and all(name.startswith(stand.url) for name in names), names
    for folder, _, files in os.walk(os.path.join(ROOT, "web")):
        for name in files:
            if name.endswith((".js", ".css", ".html")):
                with open(os.path.join(folder, name), encoding="utf-8") as file:
                    text = file.read()
                assert "http" not in text.replace("http://www.w3.org/2000/svg", "") and "innerHTML" not in text and "eval(" not in text, name
    policy = browser.run("return fetch('.').then(it => it.headers.get('Content-Security-Policy'))")
    assert policy == "default-src 'none'; script-src 'self'; style-src 'self'; connect-src 'self'; img-src 'self' data:; base-uri 'none'; form-action 'none'; frame-ancestors 'none'", policy
    assert browser.run("const it = document.createElement('script'); it.textContent = 'window.ran = 1'; document.body.append(it); return window.ran || 0") == 0
    assert any("Content Security Policy" in it for it in browser.faults())


def test_it_is_used_by_keyboard_alone(stand, browser):
    pipeline = stand.pipeline(ONE)["id"]
    browser.open("#/pipelines")
    assert browser.sees(".row .number")
    for _ in range(30):
        browser.keys(TAB)
        if browser.run("return document.activeElement.className") == "number":
            break
    assert browser.run("return getComputedStyle(document.activeElement).outlineStyle") != "none"
    browser.keys(ENTER)
    assert browser.sees("h1", f"pipeline #{pipeline}")
    assert browser.sees(".box")
    asks_again(browser, 2)
    for _ in range(30):
        browser.keys(TAB)
        if browser.run("return document.activeElement.closest('.box') !== null"):
            break
    browser.keys(TAB)
    assert browser.run("return document.activeElement.dataset.act") == "cancel"
    asks_again(browser, 2)
    assert browser.run("return document.activeElement.dataset.act") == "cancel", "the focus is lost as the page is drawn anew"
    browser.keys(ENTER)
    assert browser.sees("h1 + .chip", "canceled")


def test_it_fits_a_telephone(stand, browser):
    pipeline = stand.pipeline(CHAIN, "a/very/long/branch-name-that-is-longer-than-a-telephone-is-wide/and-then-some")["id"]
    job, grant = stand.job(pipeline, "compile"), stand.take()
    grant.says("x" * 500 + "\n")
    stand.user("PUT", "/resource_groups/production", {"process_mode": "oldest_first"})
    browser.metrics(390, 844, True)
    for where, shown in (("#/pipelines", ".row .chip"), (at(pipeline), ".box"), (at(pipeline, job), ".line"), ("#/waiting", "[data-job] .reason"), ("#/groups", "[data-group]")):
        browser.open(where)
        assert browser.sees("main h1") and browser.sees(shown)
        assert browser.run("return document.documentElement.scrollWidth") <= 390, where
    small = browser.run("return [...document.querySelectorAll('button')].filter(it => it.offsetParent && it.offsetHeight < 24).length")
    assert small == 0
    browser.metrics(320, 600)
    for where in ("#/pipelines", at(pipeline), at(pipeline, job), "#/waiting", "#/groups"):
        browser.open(where)
        assert browser.sees("main .ref, main [data-group]")
        assert browser.run("return document.documentElement.scrollWidth") <= 320, where


def test_dark_and_light(stand, browser):
    stand.pipeline(ONE)
    seen = {}
    for scheme in ("light", "dark"):
        browser.scheme(scheme)
        browser.open("#/pipelines")
        assert browser.sees("main .chip")
        seen[scheme] = browser.run("return [getComputedStyle(document.body).backgroundColor, getComputedStyle(document.querySelector('.number')).color].map(it => it.match(/\\d+/g).map(Number).reduce((a, b) => a + b))")
    (back, ink), (dark_back, dark_ink) = seen["light"], seen["dark"]
    assert back > 600 and ink < 200 and dark_back < 100 and dark_ink > 600, seen


def test_a_pipeline_of_two_hundred_jobs_and_a_long_trace(stand, browser):
    stages = ", ".join(f"s{n}" for n in range(10))
    file = f"stages: [{stages}]\n" + "".join(f"job-{n}:\n  stage: s{n % 10}\n  script: x\n" for n in range(200))
    pipeline = stand.pipeline(file)["id"]
    grant = stand.take()
    for part in range(10):
        grant.says("".join(f"\x1b[3{n % 8}mline {part * 5000 + n} of a long trace\x1b[0m\n" for n in range(1, 5001)))
    browser.open(at(pipeline))
    assert until(lambda: len(browser.all(".box")) == 200)
    assert len(browser.all(".lines path")) <= 400
    browser.command("Performance.enable", timeDomain="threadTicks")
    browser.open(at(pipeline, stand.job(pipeline, grant.name)))
    assert until(lambda: browser.run("return document.querySelectorAll('.line').length") >= 50000, 3 * WAIT, 1)
    # Of the processor, and not by the clock: the machine may be busy.
    spent = {it["name"]: it["value"] for it in browser.command("Performance.getMetrics")["metrics"]}["TaskDuration"]
    assert spent < 20, spent
    browser.driver.find_element(By.CSS_SELECTOR, "[data-pane=follow]").click()
    assert browser.sees("[data-pane=follow][aria-pressed=false]", "")


def test_two_clicks_are_one_act(stand, browser):
    pipeline = stand.pipeline(ONE)["id"]
    job = stand.job(pipeline, "build")
    browser.open(at(pipeline, job))
    assert browser.sees("[data-act=cancel]")
    box = browser.find("[data-act=cancel]").rect
    middle = {"x": box["x"] + box["width"] / 2, "y": box["y"] + box["height"] / 2, "button": "left"}
    for count in (1, 2):
        for kind in ("mousePressed", "mouseReleased"):
            browser.command("Input.dispatchMouseEvent", type=kind, clickCount=count, **middle)
        # By the second click another button stands there.
        assert browser.sees("[data-act=retry]")
    asks_again(browser)
    assert stand.status(job) == "canceled"


def test_an_act_that_takes_long_is_done_once(stand, browser):
    pipeline = stand.pipeline(ONE)["id"]
    job = stand.job(pipeline, "build")
    stand.take()
    browser.open(at(pipeline, job))
    assert browser.sees("[data-act=cancel]")
    browser.run("window.acts = 0; const was = window.fetch; window.fetch = async (url, more) => { if (more.method === 'POST') { window.acts += 1; await new Promise(go => { window.go = go; }); } return was(url, more); }")
    browser.press("[data-act=cancel]")
    asks_again(browser, 2)
    assert browser.run("const it = document.querySelector('[data-act=cancel]'); it.click(); return it.disabled")
    browser.run("window.go()")
    assert browser.sees("h1 + .chip", "canceled") and browser.run("return window.acts") == 1


def test_failed_jobs_are_tried_again_though_one_was_just_before(stand, browser):
    pipeline = stand.pipeline("a:\n  script: x\nb:\n  script: x\nc:\n  script: x\n")["id"]
    for _ in range(3):
        stand.take().ends("failed", 1)
    browser.open(at(pipeline))
    assert browser.sees("[data-act=retry-failed]")
    browser.run("let first = true; const was = window.fetch; window.fetch = async (url, more) => { if (first && more.method === 'POST') { first = false; await was(url, more); } return was(url, more); }")
    browser.press("[data-act=retry-failed]")
    assert browser.sees("#notes", "2 jobs are tried again")
    assert [stand.status(stand.job(pipeline, name)) for name in "abc"] == ["pending"] * 3


def test_focus_and_marks_stay_where_the_page_is_drawn_anew(stand, browser):
    pipeline = stand.pipeline("a:\n  stage: build\n  script: x\nb:\n  stage: build\n  script: x\nc:\n  stage: test\n  script: x\n")["id"]
    first, second = stand.job(pipeline, "a"), stand.job(pipeline, "b")
    browser.open("#/waiting")
    assert browser.sees(f"[data-job='{second}'] [data-act=cancel]")
    browser.run(f"document.querySelector(\"[data-job='{second}'] [data-act=cancel]\").focus()")
    stand.take()
    assert browser.gone(f"[data-job='{first}']")
    assert browser.run("return document.activeElement.dataset.id") == str(second)
    browser.go(at(pipeline))
    assert browser.sees(f"[data-box='{second}'] a")
    browser.run(f"document.querySelector(\"[data-box='{second}'] a\").focus()")
    marked = len(browser.all(".lines .marked"))
    stand.take()
    assert browser.sees(f".box.running[data-box='{second}']")
    assert marked and len(browser.all(".lines .marked")) == marked


def test_what_has_ended_runs_nowhere(stand, browser):
    for n in range(8):
        stand.pipeline(ONE, f"old-{n}")
        stand.take().ends()
    stand.pipeline(ONE, "running")
    running = stand.take()
    waits = stand.pipeline(ONE, "waiting")["id"]
    browser.open("#/waiting")
    reason = f"[data-job='{stand.job(waits, 'build')}'] .reason"
    assert browser.sees(reason, "shell runs build #9")
    running.ends()
    assert browser.sees(reason, "shell would fit, and runs none of the jobs here")
    # Of those that have ended the five newest are read, and no more.
    asks_again(browser, 4)
    read = browser.run("return [...new Set(performance.getEntriesByType('resource').map(it => (/pipelines\\/(\\d+)\\/jobs/.exec(it.name) ?? [])[1]).filter(Boolean))].map(Number).sort((a, b) => a - b)")
    assert read == [4, 5, 6, 7, 8, 9, 10], read


def test_which_job_goes_first_is_told(stand, browser):
    ship = "  stage: deploy\n  resource_group: prod\n  script: x\n"
    stand.user("PUT", "/resource_groups/prod", {"process_mode": "newest_ready_first"})
    old = stand.pipeline(f"ship:\n{ship}", "a")["id"]
    newer = stand.pipeline(f"first:\n{ship}", "b")["id"]
    # It is newer still, but its job isn't ready.
    stand.pipeline(f"make:\n  stage: build\n  script: x\nbehind:\n{ship}", "c")
    browser.open("#/waiting")
    assert browser.sees(f"[data-job='{stand.job(old, 'ship')}'] .reason", f"newest ready first: first #{stand.job(newer, 'first')} goes before it")


def test_a_mode_is_set_of_the_group_that_is_meant(stand, browser):
    stand.pipeline("a:\n  resource_group: pröd\n  script: x\nb:\n  resource_group: a<b\n  script: x\nc:\n  resource_group: c-1_2.3\n  script: x\n")
    browser.open("#/groups")
    assert browser.sees("[data-mode='c-1_2.3']")
    assert [it.get_attribute("data-mode") for it in browser.all("select[data-mode]")] == ["c-1_2.3"]
    assert until(lambda: [it.text for it in browser.all("[data-group] .number")] == ["a<b", "c-1_2.3", "pröd"])
    change = "const it = document.querySelector('select[data-mode]'); it.focus(); it.value = arguments[0]; it.dispatchEvent(new Event('change', {bubbles: true}))"
    browser.run(change, "oldest_first")
    assert browser.sees("#notes", "c-1_2.3 is oldest first")
    stand.server.lose()
    browser.run(change, "newest_ready_first")
    assert browser.sees(".note.fault", "not known whether it was done")
    assert browser.run("return document.querySelector('select[data-mode]').value") == "oldest_first"


def test_numbers_past_the_greatest_lead_to_the_list(stand, browser):
    stand.pipeline(ONE)
    for where in ("#/pipelines/9999999999999999", "#/pipelines/1/jobs/9007199254740993"):
        browser.open(where)
        assert browser.sees("h1", "^pipelines$") and browser.run("return location.hash") == "#/pipelines"
        assert not browser.find(".note")


def test_what_is_no_answer_of_the_server_is_told(stand, browser):
    browser.open("#/pipelines")
    assert browser.sees(".empty", "no pipeline yet")
    browser.run("window.count = 0; window.real = window.fetch; window.fetch = async () => { window.count += 1; return new Response('<p>gone</p>', {status: 404}); }")
    assert browser.sees("#state.lost", "status 404")
    # Asked again after two seconds, four and eight.
    until(lambda: False, 6.5)
    assert browser.run("return window.count") <= 3 and not browser.find(".note")
    browser.run("window.fetch = async () => new Response('{}')")
    browser.go("#/groups")
    assert browser.sees("#state.lost", "the answer isn't the server's")
    browser.run("window.fetch = window.real")
    browser.go("#/pipelines")
    assert browser.sees("#state.found", "answers again")


def test_a_clock_that_is_set_back_stops_nothing(stand, browser):
    pipeline = stand.pipeline(ONE)["id"]
    job, grant = stand.job(pipeline, "build"), stand.take()
    grant.says("one\n")
    browser.open(at(pipeline, job))
    assert browser.sees("[data-line='1']")
    browser.run("const was = Date.now; Date.now = () => was() - 3600e3")
    asks_again(browser, 2)
    grant.says("two\n")
    assert browser.sees("[data-line='2'] .text", "^two$", 30)


def test_signing_out_forgets_all(stand, browser):
    browser.open("#/pipelines")
    assert browser.sees(".empty", "no pipeline yet")
    stand.server.lose()
    assert browser.sees("#state.lost")
    # Whoever signs out isn't told of a server that nobody asks; nor who is signed out.
    browser.press("[data-act=out]")
    assert browser.sees("form.card") and not browser.find("#state p")
    stand.server.find()
    browser.open("#/pipelines")
    assert browser.sees(".empty", "no pipeline yet")
    stand.server.lose()
    assert browser.sees("#state.lost")
    browser.run("sessionStorage.setItem('token /', 'p1-' + '0'.repeat(32))")
    stand.server.find()
    assert browser.sees(".card .fault", "no project has this token") and not browser.find("#state p")
    # An answer that comes behind it is another's.
    browser.open("#/nothing-yet", is_in=False)
    assert browser.sees("form.card")
    browser.run("window.real = window.fetch; window.fetch = async () => { await new Promise(go => { window.go = go; }); return new Response(JSON.stringify({id: 1, name: 'of another'})); }")
    browser.write("[name=token]", stand.server.project + ENTER)
    assert until(lambda: browser.run("return Boolean(window.go)"))
    browser.press("[data-act=out]")
    browser.run("window.fetch = window.real; window.go()")
    browser.write("[name=token]", stand.server.project + ENTER)
    assert browser.sees(".brand", "^hello$")
    browser.run("sessionStorage.setItem('token /', 'p1-' + '0'.repeat(32)); window.go = null; window.fetch = async () => { await new Promise(go => { window.go = go; }); return new Response('{\"code\":\"M1\"}', {status: 401}); }")
    assert until(lambda: browser.run("return Boolean(window.go)"))
    browser.press("[data-act=out]")
    # The token is another one by the time at which the first is refused.
    browser.run("window.fetch = window.real; sessionStorage.setItem('token /', arguments[0]); location.hash = '#/groups'; setTimeout(window.go, 500)", stand.server.project)
    assert browser.sees(".empty", "no group is held") and not browser.find("form.card")


def test_a_pipeline_that_is_pruned_meanwhile_is_told_of(stand, browser):
    pipeline = stand.pipeline(ONE)["id"]
    job, first = stand.job(pipeline, "build"), stand.take()
    first.says("one\n").ends("failed", 1)
    stand.user("POST", f"/jobs/{job}/retry")
    stand.take().says("two\n").ends()
    browser.open(at(pipeline, job))
    assert browser.sees("[data-line='1'] .text", "^two$")
    stand.server.prune()
    browser.press(f"[data-key='attempt-{first.id}'] a")
    assert browser.sees(".bar .soft", "has been pruned") and browser.sees(".empty", "pruned since")
    asks_again(browser)
    assert not browser.find(".note")


def test_what_ended_again_unseen_is_read_again(stand, browser):
    pipeline = stand.pipeline("a:\n  stage: build\n  script: x\nb:\n  stage: test\n  script: x\n")["id"]
    stand.take().ends("failed", 1)
    browser.open("#/pipelines")
    assert until(lambda: browser.find(".stages"))
    label = "return document.querySelector('.stages a').getAttribute('aria-label')"
    assert until(lambda: browser.run(label) == "build: a failed")
    browser.run("Object.defineProperty(document, 'hidden', {configurable: true, value: true}); document.dispatchEvent(new Event('visibilitychange'))")
    until(lambda: False, 1)
    stand.user("POST", f"/jobs/{stand.job(pipeline, 'a')}/retry")
    stand.take().ends()
    stand.take().ends("failed", 1)
    browser.run("delete document.hidden; document.dispatchEvent(new Event('visibilitychange'))")
    assert until(lambda: browser.run(label) == "build: a success", 30)


def test_a_fault_of_what_was_written_is_told_as_such(stand, browser):
    stand.user("PUT", "/ci_file", ONE)
    browser.open("#/pipelines")
    browser.press("[data-act=run]")
    for at_ in (1, 2):
        browser.press("dialog form > .button")
        browser.write(f".variable:nth-child({at_}) [name=key]", "TWICE")
    browser.press("dialog [type=submit]")
    assert browser.sees("dialog .fault", "a variable's name.*stands once")
    browser.keys(ESCAPE)
    assert browser.gone("dialog")
    made = stand.pipeline(ONE)["id"]
    job = stand.job(made, "build")
    stand.user("POST", f"/jobs/{job}/cancel")
    browser.go(at(made, job))
    assert browser.sees(".empty", "^No runner took the job.$")


def luminance(colour):
    parts = [part / 255 for part in colour]
    return sum(share * (part / 12.92 if part <= 0.04045 else ((part + 0.055) / 1.055) ** 2.4) for share, part in zip((0.2126, 0.7152, 0.0722), parts))


def contrast(browser, selector, part="color", ground=None, pseudo=None):
    """The contrast of what a selector finds with its ground, by WCAG."""
    found = browser.run("return [getComputedStyle(document.querySelector(arguments[0]), arguments[3])[arguments[1]], getComputedStyle(document.querySelector(arguments[2])).backgroundColor]",
                        selector, part, ground or selector, pseudo)
    one, other = sorted((luminance([int(it) for it in colour[colour.index("(") + 1:-1].split(",")[:3]]) for colour in found), reverse=True)
    return (one + 0.05) / (other + 0.05)


def test_it_is_read_well(stand, browser):
    pipeline = stand.pipeline(CHAIN)["id"]
    job, grant = stand.job(pipeline, "compile"), stand.take()
    grant.says("\x1b[30;43mWARN\x1b[0m \x1b[7;32mPASS\x1b[0m \x1b[102mbright\x1b[0m\nhere\n").ends()
    for scheme in ("light", "dark"):
        browser.scheme(scheme)
        browser.open("#/pipelines")
        assert browser.sees("main .chip")
        assert contrast(browser, "[name=ref]", ground="[name=ref]", pseudo="::placeholder") >= 4.5
        browser.go(at(pipeline))
        assert browser.sees(".box") and contrast(browser, ".lines path", "stroke", ".wide") >= 3
        browser.go(f"{at(pipeline, job)}/attempts/{grant.id}/lines/2")
        assert browser.sees(".line.here")
        assert contrast(browser, ".line.here .no", ground=".line.here") >= 4.5
        for nth in (1, 2, 3):
            assert contrast(browser, f"[data-line='1'] .text span:nth-child({nth})") >= 4.5, nth


def test_the_page_may_lie_in_a_folder_with_a_blank(stand, browser):
    with tempfile.TemporaryDirectory(prefix="a page ") as room:
        with open(os.path.join(room, "index.html"), "w", encoding="utf-8") as file:
            file.write("<p>it lies here</p>")
        words = [f"{ROOT}/examples/web.sh", str(stand.server.port)]
        front = subprocess.Popen(words, stdout=subprocess.PIPE, text=True, start_new_session=True, env=os.environ | {"PAGE": room})
        try:
            browser.driver.get(front.stdout.readline().strip())
            assert browser.sees("p", "^it lies here$")
        finally:
            front.terminate()
            front.wait()
            front.stdout.close()
