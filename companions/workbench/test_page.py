"""Visits the page with a real browser. Where there is none, says that the page was not tried.

The program is the plain interpreter, or the one that EVATS_PROGRAM names. Nothing is said of how long anything takes.
"""
import http.server
import os
import signal
import subprocess
import sys
import tempfile
import threading
import time
import unittest
from pathlib import Path

from . import browser
from .test_workbench import COMPANIONS, PROGRAM, RECORDED, SECONDS, SLOW, THREE, Served
from .visitor import Visitor

MANY = str(Path(__file__).with_name("many"))
FRAMES = 120
# Pans the picture in each frame, and gives how many frames there were, and how many events were drawn at most.
PANS = """
const [frames, by, done] = arguments, svg = document.getElementById("picture"), seen = new Set();
let count = 0, most = 0;
function frame() {
  count += 1;
  const drawn = [...svg.querySelectorAll(".event")].map((node) => node.dataset.event);
  drawn.forEach((name) => seen.add(name));
  most = Math.max(most, drawn.length);
  svg.dispatchEvent(new WheelEvent("wheel", { deltaX: by, bubbles: true, cancelable: true }));
  if (count < frames) requestAnimationFrame(frame);
  else done({ count, most, seen: seen.size });
}
requestAnimationFrame(frame);
"""
# What another page can try.
FOREIGN = """<!doctype html><title>another</title>
<form method="post" action="ADDRESSdo"><input name="text" value="vat evil () 0"></form>
<script>
const tried = [], noted = (asked, word) => asked.then(() => tried.push(word), () => tried.push("refused"));
const post = (words) => fetch("ADDRESSdo", { method: "POST", body: '{"text": "vat evil () 0"}', ...words });
Promise.all([
  noted(post({ mode: "no-cors" }), "answered"), noted(post({ headers: { "Content-Type": "application/json" } }), "answered"),
  noted(fetch("ADDRESSstate"), "read"),
]).then(() => document.title = tried.join(" "));
</script>"""


def setUpModule():
    """Starts one browser for all; where that is not possible, says so, and nothing is tried."""
    folder = tempfile.TemporaryDirectory()
    unittest.addModuleCleanup(folder.cleanup)
    Page.saved, (Page.browser, why) = Path(folder.name), browser.started(folder.name)
    if not Page.browser:
        print(f"test_page: THE PAGE WAS NOT TRIED: {why}", file=sys.stderr)
        raise unittest.SkipTest(f"the page was not tried: {why}")
    unittest.addModuleCleanup(Page.browser.quit)


class Page(Served):
    """A page that is served, and a visitor of it."""

    saved = browser = None

    def visit(self, text=""):
        """Comes to the page of a session of these commands."""
        if text:
            self.do(text)
        visitor = Visitor(self.browser, self.server.address)
        if text:
            visitor.waits()
        self.addCleanup(lambda: self.assertEqual(visitor.faults(), []))
        return visitor

    def file_saved(self, name):
        """What the browser saved under a name."""
        limit, path = time.monotonic() + SECONDS, self.saved / name
        while not path.exists() and time.monotonic() < limit:
            time.sleep(0.05)
        text = path.read_text()
        path.unlink()
        return text


class Sessions(Page):
    def make_vat(self, visitor, name, script, *known):
        visitor.presses("New vat…")
        visitor.element("#vat-name").send_keys(name)
        for each in known:
            visitor.element(f"#vat input[value={each}]").click()
        visitor.element("#vat-script").send_keys(script)
        visitor.presses("Make it")
        visitor.reads("#picture", name)
        visitor.waits()

    def test_three_vats_are_made_and_run_and_an_event_is_read(self):
        visitor = self.visit()
        visitor.reads("#empty", "Nothing has happened yet")
        bank, ann, bob = (part.split("\n", 1)[1] for part in THREE.split("vat ")[1:])
        self.make_vat(visitor, "bank", bank)
        self.make_vat(visitor, "ann", ann, "bank")
        self.make_vat(visitor, "bob", bob.partition("\nrun")[0], "ann")
        visitor.presses("Step")
        visitor.reads("#transcript", "ok e4 value <e4.o0>")
        visitor.waits()
        visitor.presses("Run to the end")
        visitor.reads("#transcript", "idle")
        visitor.waits()
        self.assertEqual(list(visitor.events()), ["e1", "e2", "e3", "e4", "e5", "e6", "e8", "e10", "e14"])
        lanes = visitor.run("return [...document.querySelectorAll('.label .vat')].map((each) => each.textContent)")
        self.assertEqual(lanes, ["bank", "ann", "bob"])
        visitor.clicks("e14")
        visitor.reads("#details", "The vat bank took the message e6.m1 and ran it to its end.", "It ended with the value 15.")
        visitor.reads("#details", "14 e14 live turn e6.m1")
        visitor.element("#details [data-name='e6.m1']").click()
        visitor.reads("#details", "message e6.m1", "e6 made it.", "e14 took it.")

    def test_a_message_that_waits_is_in_the_picture(self):
        visitor = self.visit(THREE.replace("run 100", "run 3"))
        waiting = """return [...document.querySelectorAll("#picture .waiting")].map((node) =>
            [node.dataset.event, node.querySelector(".caption").textContent])"""
        self.assertEqual(visitor.run(waiting), [["e5.m0", "to bank"], ["e6.m0", "to ann"], ["e6.m1", "to ann"]])
        visitor.clicks("e5.m0")
        visitor.reads("#details", "message e5.m0", "It is on its way to bank.")
        visitor.presses("Let it arrive: arrive e5.m0")
        visitor.reads("#transcript", "arrive e5.m0", "ok e7")
        visitor.waits()
        self.assertIn(["e5.m0", "at bank"], visitor.run(waiting))
        visitor.presses("Have its turn: turn e5.m0")
        visitor.reads("#transcript", "ok e8 value <e8.o0>")

    def test_texts_of_any_length_and_kind_are_shown(self):
        programs = ['var t := "`"; while (t.size() < 30000) { t := t + t }; t', '"``e1`undo e1`<b>`"',
                    'var t := "e1 "; while (t.size() < 30000) { t := t + t }; t']
        visitor = self.visit("vat a () 0\nstep")
        for text in programs:
            visitor.types(f"ask a {text}")
            visitor.types("step")
        shown = visitor.run("""return [...document.querySelectorAll("#transcript .reply > div")].map((node) =>
            [...node.childNodes].filter((child) => child.localName !== "small").map((child) => child.textContent).join(""))""")
        values = ["`" * 32_768, "``e1`undo e1`<b>`", "e1 " * 16_384]
        self.assertEqual([f'ok e{place} value "{value}"' in shown for place, value in zip((4, 6, 8), values)], [True] * 3)
        visitor.clicks("e4")
        visitor.reads("#details", "`" * 1_000)

    def test_what_is_refused_can_be_mended_in_its_window(self):
        visitor = self.visit("vat a () 0\nstep")
        visitor.presses("Ask a vat…")
        visitor.element("#ask-program").send_keys("[1, 2")
        visitor.presses("Ask")
        visitor.reads("#ask .refusal", "What stands at byte 5 cannot follow")
        visitor.element("#ask-program").send_keys("]")
        visitor.presses("Ask")
        visitor.reads("#transcript", "ask a [1, 2]", "ok e3 e3.m0")

    def test_a_turn_that_ended_with_a_problem_is_marked(self):
        visitor = self.visit('vat a () 1\nthrow("no")\nstep\nask a 1\nstep')
        self.assertEqual([name for name, words in visitor.events().items() if "fault" in words], ["e2"])

    def test_a_cone_is_undone_and_redone(self):
        visitor = self.visit(THREE)
        visitor.clicks("e8")
        visitor.presses("Undo it, with what came of it…")
        visitor.reads("#confirm", "This takes back 7 events, e8 and what came of it: e8 e12 e13 e14")
        cone = [name for name, words in visitor.events().items() if "cone" in words]
        self.assertLessEqual({"e8", "e14"}, set(cone))
        visitor.presses("Leave it")
        self.assertEqual(visitor.text("#confirm"), "")
        visitor.presses("Undo it, with what came of it…")
        visitor.presses("Undo these 7")
        visitor.reads("#transcript", "ok undone 7")
        visitor.waits()
        self.assertEqual([name for name, words in visitor.events().items() if "undone" in words], ["e8", "e14"])
        visitor.reads("#details", "undone")
        visitor.presses("Redo these 7")
        visitor.reads("#transcript", "ok redone 7")
        visitor.waits()
        self.assertEqual([name for name, words in visitor.events().items() if "undone" in words], [])
        self.assertEqual(self.session.ask("journal")[7], "8 e8 live turn e5.m0 causes e4 e5 e7")

    def test_an_undo_is_refused_and_explained(self):
        visitor = self.visit(THREE)
        visitor.types("undo e8")
        said = visitor.reads("#transcript", "no B15 NotClosed e8 e12")
        self.assertIn("e8 cannot be taken back alone: e12 came of it and is live.", said)
        self.assertEqual([name for name, words in visitor.events().items() if "marked" in words], ["e8", "e14"])
        visitor.element("#picture .step.refusal")
        visitor.reads("#refused", "e8 cannot be taken back alone: e12 came of it and is live.", "would do: it takes back")
        visitor.presses("undo-cone e8")
        self.assertEqual(visitor.run("return document.getElementById('command').value"), "undo-cone e8")

    def test_exchange_and_settle(self):
        visitor = self.visit("vat a () 0\nvat b () 0\nrun 9\nask a 1\nask b 2")
        visitor.clicks("e5")
        visitor.presses("Exchange with the next")
        visitor.reads("#transcript", "ok exchanged e5 e6")
        visitor.waits()
        visitor.clicks("e4")
        visitor.presses("Settle up to here…")
        visitor.presses("Settle them")
        visitor.reads("#transcript", "ok settled 4")
        visitor.waits()
        self.assertEqual(list(visitor.events()), ["e5", "e6"])

    def test_a_session_is_saved_and_loaded_again(self):
        visitor = self.visit(THREE + "undo-cone e8")
        journal = self.session.ask("journal")
        visitor.presses("Save")
        saved = self.file_saved("session.evats")
        self.assertEqual(saved, THREE + "undo-cone e8\n")
        visitor.types("ask ann 1")
        file = self.folder / "again.evats"
        file.write_text(saved)
        visitor.element("#file").send_keys(str(file))
        visitor.presses("Load")
        visitor.sees("the session", "return document.querySelectorAll('#transcript .row').length", wanted=lambda count: count == 5)
        visitor.waits()
        self.assertEqual((self.session.ask("journal"), len(self.session.answered)), (journal, 5))

    def test_what_another_page_does_is_seen(self):
        visitor = self.visit(THREE)
        self.do("ask ann 1")
        visitor.reads("#transcript", "ask ann 1", "ok e21 e21.m0")
        self.whole(self.done("load", text="vat other () 0"))
        visitor.reads("#transcript", "vat other () 0", "ok e1 e1.m0")
        visitor.waits()
        self.assertNotIn("ask ann 1", visitor.text("#transcript"))
        self.assertEqual(list(visitor.events()), ["e1"])

    def test_the_picture_is_saved(self):
        visitor = self.visit(THREE)
        visitor.presses("Picture as SVG")
        self.assertEqual(self.file_saved("picture.svg").count('class="event'), 9)

    def test_light_and_dark(self):
        visitor = self.visit(THREE)
        ground = "return getComputedStyle(document.body).backgroundColor"
        seen = []
        for _ in range(2):
            seen.append(visitor.run(ground))
            visitor.element("#theme").click()
        self.assertEqual(set(seen), {"rgb(245, 246, 248)", "rgb(20, 23, 28)"})

    def test_arrivals_and_causes_where_they_are_wanted(self):
        visitor = self.visit(THREE)
        visitor.element("#all").click()
        visitor.sees("arrivals", "return document.querySelectorAll('#picture .event').length", wanted=lambda count: count == 20)
        visitor.element("#causes").click()
        visitor.element("#picture .arrow.cause")


class Lines(Page):
    def test_a_script_on_several_lines(self):
        visitor = self.visit()
        command, enter = visitor.element("#command"), visitor.keys.ENTER
        command.send_keys("vat a ()", enter)
        visitor.reads("#choices", "the script: an empty line outside of brackets ends it")
        command.send_keys("def o {", enter, "to get() { return 7 } }", enter)
        count = "return document.getElementById('command').value.split('\\n').length"
        visitor.sees("four lines", count, wanted=lambda count: count == 4)
        command.send_keys(enter)
        visitor.reads("#transcript", "vat a () 2", "ok e1 e1.m0")
        visitor.waits()
        command.send_keys(visitor.keys.ARROW_UP)
        self.assertEqual(visitor.run("return document.getElementById('command').value").split("\n")[0], "vat a ()")

    def test_words_are_completed(self):
        visitor = self.visit("vat bank () 0")
        command = visitor.element("#command")
        command.send_keys("tu", visitor.keys.TAB)
        visitor.sees("a word", "return document.getElementById('command').value", wanted=lambda value: value == "turn ")
        command.send_keys("e", visitor.keys.TAB)
        visitor.sees("a message", "return document.getElementById('command').value", wanted=lambda value: value == "turn e1.m0")

    def test_all_of_it_by_keys(self):
        visitor = self.visit("vat a () 1\nvar n := 1")
        visitor.key("n")
        visitor.reads("#transcript", "ok e2 value 1", "turn e1.m0")
        visitor.waits()
        visitor.key("a")
        visitor.element("#ask-program").send_keys("n := 2", visitor.keys.CONTROL + visitor.keys.ENTER)
        visitor.reads("#transcript", "ok e3 e3.m0")
        visitor.waits()
        visitor.key("g")
        visitor.reads("#transcript", "idle")
        visitor.waits()
        visitor.key("p", visitor.keys.HOME, visitor.keys.ARROW_RIGHT, visitor.keys.ENTER)
        visitor.reads("#details", "e2", "turn of a")
        visitor.key("w", visitor.keys.END, visitor.keys.ENTER)
        visitor.reads("#details", "Why e2 and e4", "e2 → e4")
        self.assertEqual(visitor.text("#notice"), "")
        visitor.key("u")
        visitor.reads("#confirm", "This takes back e4 alone")
        visitor.key(visitor.keys.ENTER)
        visitor.reads("#transcript", "ok undone 1")
        visitor.waits()
        visitor.key("z")
        visitor.reads("#transcript", "ok redone 1")
        visitor.key("?")
        visitor.reads("#keys", "How to use the workbench")
        visitor.key(visitor.keys.ESCAPE, "/", "sho")
        self.assertEqual(visitor.run("return document.getElementById('command').value"), "sho")


class Endings(Page):
    def test_a_killed_program(self):
        visitor = self.visit(THREE)
        os.killpg(self.session.program.process.pid, signal.SIGKILL)
        visitor.reads("#notice", "The program has ended: signal 9 ended it (Killed).")
        self.assertEqual(len(visitor.events()), 9)
        visitor.presses("Save the commands")
        self.assertEqual(self.file_saved("session.evats"), THREE)
        visitor.presses("Begin it again from its 4 commands")
        visitor.reads("#transcript", "The program was started again with the commands before.")
        visitor.waits()
        visitor.types("ask ann 1")
        visitor.reads("#transcript", "ok e21 e21.m0")

    def test_a_workbench_that_has_ended(self):
        variables = {**os.environ, "PYTHONPATH": str(COMPANIONS)}
        words = [sys.executable, "-m", "workbench", "--program", PROGRAM]
        with subprocess.Popen(words, env=variables, stdout=subprocess.PIPE, text=True) as process:
            visitor = Visitor(self.browser, process.stdout.readline().split()[-1])
            process.terminate()
            visitor.reads("#notice", "The workbench does not answer: it has ended.")
        self.browser.get("about:blank")
        self.browser.get_log("browser")


class Busy(Page):
    def program_words(self):
        path = self.folder / "slow"
        path.write_text(SLOW)
        path.chmod(0o755)
        return [str(path)]

    def test_a_command_that_takes_long_is_stopped(self):
        visitor = self.visit()
        visitor.element("#command").send_keys("run 1000", visitor.keys.ENTER)
        visitor.reads("#notice", "The program is at work: run 1000")
        visitor.presses("Stop")
        visitor.reads("#transcript", "run 1000 was ended: all is as before it.")
        self.assertEqual(visitor.text("#notice"), "")


class Doors(Page):
    def test_another_page_does_nothing(self):
        self.do("vat a () 0")
        page = FOREIGN.replace("ADDRESS", self.server.address).encode()

        class Other(http.server.BaseHTTPRequestHandler):
            def do_GET(self):
                self.send_response(200)
                self.send_header("Content-Type", "text/html")
                self.end_headers()
                self.wfile.write(page)

            def log_message(self, *_):
                """Nothing is written for requests."""

        with http.server.ThreadingHTTPServer(("127.0.0.1", 0), Other) as other:
            threading.Thread(target=other.serve_forever, daemon=True).start()
            self.browser.get(f"http://127.0.0.1:{other.server_address[1]}/")
            limit = time.monotonic() + SECONDS
            while self.browser.title in ("", "another") and time.monotonic() < limit:
                time.sleep(0.05)
            self.assertIn(self.browser.title.count("refused"), (2, 3), self.browser.title)
            self.assertNotIn("read", self.browser.title.split())
            self.browser.execute_script("document.forms[0].submit()")
            while "another page asks this" not in self.browser.page_source and time.monotonic() < limit:
                time.sleep(0.05)
            self.assertIn("another page asks this", self.browser.page_source)
            other.shutdown()
        self.browser.get_log("browser")
        self.assertEqual(len(self.session.answered), 1)

    def test_a_wrong_token(self):
        self.browser.get(f"{self.server.address[:-2]}/")
        self.assertIn("the address has not the token", self.browser.page_source)
        self.assertEqual(self.browser.find_elements("css selector", "#picture"), [])
        self.browser.get_log("browser")


class Recorded(Page):
    words = (RECORDED,)

    def test_two_events_are_chosen(self):
        text = Path(RECORDED).with_name("recorded.replies").read_text().split("> journal")[0]
        visitor = self.visit("\n".join(line[2:] for line in text.splitlines() if line[:2] in ("> ", "| ")))
        visitor.element("#all").click()
        visitor.element("[data-event=e12]")
        visitor.clicks("e7")
        visitor.clicks_with_shift("e14")
        visitor.reads("#details", "Why e7 and e14", "e8 → e12 by the message e8.m0")
        labels = visitor.run("return [...document.querySelectorAll('#picture .step text')].map((each) => each.textContent)")
        self.assertEqual(labels, ["1 · msg e7.m0", "2 · msg e8.m0", "3 · msg e8.m0", "4 · msg e8.m0"])
        self.assertEqual([name for name, words in visitor.events().items() if "chosen" in words], ["e7", "e14"])
        visitor.acts().move_to_element(visitor.element("#details li:nth-child(2)")).perform()
        visitor.element("#picture .step.pointed[data-step='1']")
        visitor.clicks("e14")
        visitor.reads("#details", "what carol knows of e10.p0", "sent <e1.p0> <- w()")


class Many(Page):
    words = (MANY,)

    def test_ten_thousand_events_are_panned(self):
        visitor = self.visit()
        visitor.reads("#count", "10,000 events")
        drawn = visitor.events()
        self.assertIn("e10000", drawn)
        self.assertLess(len(drawn), 200)
        told = self.browser.execute_async_script(PANS, FRAMES, -300)
        self.assertEqual(told["count"], FRAMES)
        self.assertLess(told["most"], 200)
        self.assertGreater(told["seen"], 2 * len(drawn))
        for _ in range(20):
            visitor.element("#out").click()
        told = self.browser.execute_async_script(PANS, FRAMES, -300)
        self.assertLess(told["most"], 600)
        self.assertGreater(told["seen"], told["most"])
        visitor.key("p", visitor.keys.HOME)
        visitor.element("[data-event=e1]")
        self.assertNotIn("e10000", visitor.events())


if __name__ == "__main__":
    unittest.main()
