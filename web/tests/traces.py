"""What is tried of attempts and their traces."""
from cases import at, asks_again, ONE, stays
from stand import until


def test_a_trace_grows_and_is_asked_from_where_it_was(stand, browser):
    pipeline = stand.pipeline(ONE)["id"]
    job, grant = stand.job(pipeline, "build"), stand.take()
    grant.says("first line\nsecond ")
    browser.open(at(pipeline, job))
    assert browser.sees("[data-line='1'] .text", "^first line$") and browser.sees("[data-line='2'] .text", "^second ?$")
    browser.run("document.querySelector('[data-line=\"1\"]').dataset.mine = 'yes'")
    browser.run("window.whole = []; const was = window.fetch; window.fetch = async (url, more) => { const reply = await was(url, more); if (url.endsWith('/trace')) window.whole.push([more.headers.Range || null, reply.status]); return reply; }")
    grant.says("line, in ü")
    assert browser.sees("[data-line='2'] .text", "^second line, in ü$")
    grant.says("\n" + "".join(f"line {n}\n" for n in range(3, 601)))
    assert browser.sees("[data-line='600'] .text", "^line 600$")
    assert browser.run("return document.querySelector('[data-line=\"1\"]').dataset.mine") == "yes"
    assert until(lambda: browser.run("const it = document.querySelector('.log'); return it.scrollHeight - it.scrollTop - it.clientHeight") < 60)
    asks = browser.run("return window.whole")
    assert asks and all(it[0] and it[0].startswith("bytes=") for it in asks) and {it[1] for it in asks} <= {206, 416}, asks
    grant.says("end").ends("failed", 7)
    assert browser.sees("h1 + .chip", "failed") and browser.sees("[data-line='601'] .text", "^end$")
    assert browser.sees(".attempts .why", "its script failed, exit code 7")
    # It is asked for once more at most, where the page heard of the end just then.
    count = len(browser.run("return window.whole"))
    asks_again(browser, 2)
    assert len(browser.run("return window.whole")) <= count + 1


def test_a_trace_without_ranges_is_read_too(stand, browser):
    pipeline = stand.pipeline(ONE)["id"]
    job, grant = stand.job(pipeline, "build"), stand.take()
    grant.says("one\n")
    browser.open(at(pipeline, job))
    assert browser.sees("[data-line='1'] .text", "^one$")
    browser.run("const was = window.fetch; window.fetch = (url, more) => { delete more.headers.Range; return was(url, more); }")
    grant.says("two\n")
    assert browser.sees("[data-line='2'] .text", "^two$")
    assert [it.text for it in browser.all(".line .text")] == ["one", "two"]


def test_colours_sections_and_carriage_returns(stand, browser):
    pipeline = stand.pipeline(ONE)["id"]
    job, grant = stand.job(pipeline, "build"), stand.take()
    grant.says("\x1b[31mred\x1b[0m plain \x1b[1;38;5;208mstrange\x1b[0m \x1b[38;2;1;2;3mown\x1b[m\x1b[K\r\n")
    grant.says("section_start:100:one[collapsed=true]\r\x1b[0KThe first\nwithin\nsection_end:103:one\r\x1b[0K")
    grant.says("section_start:103:two\r\x1b[0K\x1b[36mThe second\x1b[0m\n10%\r50%\r100%\n\x1b]0;title\x07after\nsection_end:110:two\r\x1b[0K\n\x1b[32mgreen goes\non\x1b[0m\n").ends()
    browser.open(at(pipeline, job))
    assert browser.sees("[data-line='8'] .text", "on")
    texts = [it.get_attribute("textContent") for it in browser.all(".line .text")]
    assert texts == ["red plain strange own", "The first", "within", "The second", "100%", "after", "green goes", "on"], texts
    assert browser.find(".fg-1").text == "red" and browser.find("[data-line='8'] .fg-2").text == "on"
    assert browser.run("return [...document.querySelectorAll('[data-line=\"1\"] span span')].map(it => it.style.color)") == ["", "rgb(255, 135, 0)", "rgb(1, 2, 3)"]
    assert browser.run("return [...document.querySelectorAll('details.section')].map(it => [it.dataset.section, it.open, it.querySelector('.took').textContent])") == [["one", False, "3 s"], ["two", True, "7 s"]]
    browser.press("[data-section=one] summary .text")
    assert browser.run("return document.querySelector('[data-section=one]').open")


def test_each_line_has_a_link_and_the_raw_text_is_shown(stand, browser):
    pipeline = stand.pipeline(ONE)["id"]
    job, grant = stand.job(pipeline, "build"), stand.take()
    grant.says("".join(f"\x1b[32mline {n}\x1b[0m\n" for n in range(1, 401))).ends()
    browser.open(at(pipeline, job))
    assert browser.sees("[data-line='400']")
    browser.run("document.querySelector('[data-line=\"250\"] .no').click()")
    wanted = f"#/pipelines/{pipeline}/jobs/{job}/attempts/{grant.id}/lines/250"
    assert until(lambda: browser.run("return location.hash") == wanted)
    assert browser.sees(".line.here .text", "^line 250$")
    browser.driver.refresh()
    assert browser.sees(".line.here .text", "^line 250$")
    assert until(lambda: browser.run("const a = document.querySelector('.line.here').getBoundingClientRect(), b = document.querySelector('.log').getBoundingClientRect(); return a.top >= b.top && a.bottom <= b.bottom"))
    browser.press("[data-pane=raw]")
    assert browser.sees("pre.raw") and browser.run("return document.querySelector('pre.raw').textContent").startswith("\x1b[32mline 1\x1b[0m\n")
    browser.press("[data-pane=raw]")
    assert browser.gone("pre.raw")


def test_attempts_are_told_and_each_has_its_trace(stand, browser):
    pipeline = stand.pipeline(ONE)["id"]
    job, first = stand.job(pipeline, "build"), stand.take()
    first.says("of the first\n").ends("failed", None, "runner_system_failure")
    stand.user("POST", f"/jobs/{job}/retry")
    second = stand.take()
    second.says("of the second\n")
    browser.open(at(pipeline, job))
    assert browser.sees("[data-line='1'] .text", "of the second")
    assert browser.sees(f"[data-key='attempt-{first.id}']", "failed.*the runner's own system failed.*shell")
    browser.press(f"[data-key='attempt-{first.id}'] a")
    assert browser.sees("[data-line='1'] .text", "of the first")
    assert browser.find(f"[data-key='attempt-{first.id}'] [aria-current]")
    assert browser.sees("h1 + .chip", "running")


def test_a_trace_that_is_a_script_stays_text(stand, browser):
    pipeline = stand.pipeline(ONE)["id"]
    job, grant = stand.job(pipeline, "build"), stand.take()
    grant.says("<script>document.title='owned'</script>\n<img src=x onerror=\"document.title='owned'\">\n\x1b[31m<b>no</b>\x1b[0m\x00\x07\n").ends()
    browser.open(at(pipeline, job))
    assert browser.sees("[data-line='2'] .text", "^<img src=x")
    assert browser.sees("[data-line='3'] .text", "^<b>no</b>$")
    assert browser.run("return document.querySelectorAll('.log script, .log img, .log b').length") == 0
    assert "owned" not in browser.driver.title


def test_what_is_said_to_a_terminal_alone_is_left_out(stand, browser):
    pipeline = stand.pipeline(ONE)["id"]
    job, grant = stand.job(pipeline, "build"), stand.take()
    grant.says("\x1b[?25lhidden\x1b[?25h \x1b[>4;2mplain\n")
    grant.says("\x1b[38:2::10:20:30mown\x1b[0m \x1b[31mred\x1b[4:0m too\x1b[0m \x1b[58;2;255;0;0mplain\n")
    grant.says("shown\r\x1b[0m\nwiped\r\x1b[K\n\x1b[31mstart\n10%\x1b[0m\r20%\n")
    grant.says("\x1b[32mgreen\n\x1b[0msection_start:1:a\r\x1b[0KHeader\n\x1b[31mred\n\x1b[0msection_end:5:a\r\x1b[0K\nplain \x1b[31").ends()
    browser.open(at(pipeline, job))
    assert browser.sees("[data-line='10'] .text", "plain")
    texts = [it.get_attribute("textContent") for it in browser.all(".line .text")]
    assert texts == ["hidden plain", "own red too plain", "shown", "", "start", "20%", "green", "Header", "red", "plain "], texts
    coloured = browser.run("return [...document.querySelectorAll('.line .text span')].map(it => [it.textContent, it.className, it.style.color])")
    assert coloured == [["own", "", "rgb(10, 20, 30)"], ["red", "fg-1", ""], [" too", "fg-1", ""], ["start", "fg-1", ""], ["green", "fg-2", ""], ["red", "fg-1", ""]], coloured


def test_the_last_line_is_shown_where_it_has_no_end(stand, browser):
    pipeline = stand.pipeline(ONE)["id"]
    job, grant = stand.job(pipeline, "build"), stand.take()
    grant.says("section_start:1:a\r\x1b[0KHeader\nsection_end:5:a\r\x1b[0KJob succeeded").ends()
    browser.open(at(pipeline, job))
    assert browser.sees("[data-line='2'] .text", "^Job succeeded$") and browser.sees(".section .took", "^4 s$")
    second = stand.pipeline(ONE, "other")["id"]
    stand.take().says("x\n").ends()
    browser.open(at(second, stand.job(second, "build")))
    assert browser.sees(".bar .soft", "^1 line, 2 bytes$")


def test_many_sections_and_many_lines(stand, browser):
    pipeline = stand.pipeline(ONE)["id"]
    job, grant = stand.job(pipeline, "build"), stand.take()
    grant.says("x\n" * 150000)
    browser.open(at(pipeline, job))
    assert browser.sees(".left-out", "^The first 50000 lines aren't shown here") and browser.sees("[data-line='150000']")
    assert browser.find("[data-line='50001']") and not browser.find("[data-line='50000']")
    grant.says("y\n" * 300).ends()
    # The first 250 that were shown go with their chunk.
    assert browser.sees(".left-out", "^The first 50250 lines") and browser.sees("[data-line='150300'] .text", "^y$")
    assert not browser.find("[data-line='50250']") and browser.find("[data-line='50251']")
    second = stand.pipeline(ONE, "other")["id"]
    stand.take().says("".join(f"section_start:1:s{n}\r\x1b[0KHeader {n}\nwithin {n}\n" for n in range(3000))).ends()
    browser.open(at(second, stand.job(second, "build")))
    assert browser.sees("[data-line='6000'] .text", "^within 2999$") and browser.sees("[data-line='5999'] .text", "^Header 2999$")


END = "const it = document.querySelector('.log'); return Math.round(it.scrollHeight - it.scrollTop - it.clientHeight)"
FIRST = "const top = document.querySelector('.log').getBoundingClientRect().top; return [...document.querySelectorAll('.line')].find(it => it.getBoundingClientRect().bottom > top + 1).dataset.line"


def test_a_trace_keeps_its_place_and_is_followed_to_its_end(stand, browser):
    piece = lambda first, last: "".join(f"line {n} {'w' * (300 if n % 2 else 10)}\n" for n in range(first, last + 1))
    pipeline = stand.pipeline(ONE)["id"]
    job, grant = stand.job(pipeline, "build"), stand.take()
    grant.says(piece(1, 2000))
    browser.open(at(pipeline, job))
    assert browser.sees("[data-line='2000']") and until(lambda: browser.run(END) < 2)
    box = browser.find(".log").rect
    browser.command("Input.dispatchMouseEvent", type="mouseWheel", x=box["x"] + 300, y=box["y"] + 200, deltaX=0, deltaY=-6000)
    assert browser.sees("[data-pane=follow][aria-pressed=false]")
    until(lambda: False, 1)
    before = browser.run(FIRST)
    grant.says(piece(2001, 4000))
    assert browser.sees("[data-line='4000']")
    asks_again(browser)
    assert browser.run(FIRST) == before
    browser.press("[data-pane=follow]")
    for n in (4001, 4002):
        grant.says(piece(n, n))
        assert browser.sees(f"[data-line='{n}']") and until(lambda: browser.run(END) < 2)
        assert stays(lambda: browser.run(END) < 2, 1)


def test_an_attempt_stays_where_one_goes_by_keys(stand, browser):
    pipeline = stand.pipeline(ONE)["id"]
    job, first = stand.job(pipeline, "build"), stand.take()
    first.says("one\ntwo\n").ends("failed", 1)
    browser.open(at(pipeline, job))
    assert browser.sees("[data-line='2']")
    browser.run("document.querySelector('.log').focus()")
    browser.keys("j", "j")
    assert browser.sees(".line.here .text", "^two$")
    stand.user("POST", f"/jobs/{job}/retry")
    stand.take().says("of the second\n")
    assert browser.sees(".attempts li:nth-child(2)", "failed")
    asks_again(browser, 2)
    assert browser.sees(".line.here .text", "^two$")
    assert browser.run("return location.hash") == f"#/pipelines/{pipeline}/jobs/{job}/attempts/{first.id}/lines/2"


def test_an_answer_that_takes_long_is_waited_for_while_it_comes(stand, browser):
    pipeline = stand.pipeline(ONE)["id"]
    job, grant = stand.job(pipeline, "build"), stand.take()
    grant.says("one\ntwo\n").ends()
    browser.open("#/groups")
    assert browser.sees("h1", "resource groups")
    # Half a minute is one second here.
    browser.run("const was = window.setTimeout; window.setTimeout = (does, wait) => was(does, wait === 30000 ? 1000 : wait);"
                "const real = window.fetch; window.fetch = async (url, more) => { const reply = await real(url, more); if (!url.endsWith('/trace')) return reply;"
                "const bytes = new Uint8Array(await reply.arrayBuffer()); let at = 0;"
                "return new Response(new ReadableStream({async pull(to) { await new Promise(go => was(go, 500)); if (more.signal.aborted) return to.error(new Error('late'));"
                "if (at === bytes.length) return to.close(); to.enqueue(bytes.slice(at, at + 1)); at += 1; }}), {headers: {'Content-Type': 'text/plain'}}); }")
    browser.go(at(pipeline, job))
    assert browser.sees("[data-line='2'] .text", "^two$") and not browser.find("#state.lost")


def test_what_is_no_trace_of_the_server_is_not_shown_as_one(stand, browser):
    pipeline = stand.pipeline(ONE)["id"]
    job, grant = stand.job(pipeline, "build"), stand.take()
    grant.says("one\n")
    browser.open(at(pipeline, job))
    assert browser.sees("[data-line='1'] .text", "^one$")
    browser.run("window.real = window.fetch; window.fetch = async (url, more) => url.endsWith('/trace') ? new Response('<p>Sign on!</p>\\n', {headers: {'Content-Type': 'text/html'}}) : window.real(url, more)")
    grant.says("two\n")
    assert browser.sees("#state.lost", "the answer isn't the server's")
    browser.run("window.fetch = window.real")
    assert browser.sees("[data-line='2'] .text", "^two$") and not browser.find("[data-line='3']")
