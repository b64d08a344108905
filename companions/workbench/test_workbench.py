"""Asks the server of the workbench as a page does, and as others would. The program is the plain interpreter, or the one that
EVATS_PROGRAM names."""
import http.client
import json
import os
import re
import shutil
import signal
import subprocess
import sys
import tempfile
import threading
import time
import unittest
import unittest.mock
from pathlib import Path
from urllib.parse import urlencode

import conversation
from conversation.session import Session

from .desk import Desk
from .server import PAGE, Workbench

COMPANIONS = Path(__file__).resolve().parents[1]
STAND_IN = str(Path(conversation.__file__).with_name("stand_in"))
PROGRAM = os.environ.get("EVATS_PROGRAM") or STAND_IN
RECORDED = str(Path(conversation.__file__).with_name("recorded"))
SECONDS = 120
THREE = """\
vat bank () 1
def bank { to open(n) { return def _ { to plus(m) { return n + m } } } }
vat ann (bank) 2
def account := bank <- open(10)
def ann { to account() { return account } }
vat bob (ann) 1
(ann <- account()) <- plus(5)
run 100
"""
# A program that does not come to an end of a command.
SLOW = """\
#!/bin/sh
while read line; do case "$line" in cone*) echo "no B12 NoEvent ${line#cone }";; enabled) echo "enabled 0";; run*) sleep 60;;
esac; done
"""


class Served(unittest.TestCase):
    """A workbench that is served, and a client of it."""

    words = (PROGRAM,)

    def setUp(self):
        folder = tempfile.TemporaryDirectory()
        self.addCleanup(folder.cleanup)
        self.folder = Path(folder.name)
        patched = unittest.mock.patch.dict(os.environ, {"XDG_STATE_HOME": folder.name})
        patched.start()
        self.addCleanup(patched.stop)
        self.session = Session(self.program_words(), is_watched=True)
        self.addCleanup(self.session.__exit__)
        self.desk = Desk(self.session, {"program": "tried", "standing": "named"})
        self.server = Workbench(self.desk)
        threading.Thread(target=self.server.serve_forever, args=(0.05,), daemon=True).start()
        self.addCleanup(self.server.server_close)
        self.addCleanup(self.server.shutdown)

    def program_words(self):
        return self.words

    def ask(self, method, path, body=None, **headers):
        """The status and the body that the server answers with, whatever is said of it."""
        connection = http.client.HTTPConnection("127.0.0.1", self.server.server_address[1], timeout=SECONDS)
        self.addCleanup(connection.close)
        names = {"host": "Host", "origin": "Origin", "kind": "Content-Type", "site": "Sec-Fetch-Site"}
        connection.request(method, path, body, {names[name]: value for name, value in headers.items()})
        reply = connection.getresponse()
        return reply.status, reply.read().decode()

    def read(self, name, /, **words):
        status, body = self.ask("GET", f"/{self.server.token}/{name}?{urlencode(words)}")
        self.assertIn(status, (200, 409), body)
        return json.loads(body)

    def done(self, name, /, **words):
        headers = {"origin": self.server.origin, "kind": "application/json"}
        status, body = self.ask("POST", f"/{self.server.token}/{name}", json.dumps(words), **headers)
        self.assertIn(status, (200, 409), body)
        return json.loads(body)

    def whole(self, state):
        """The state once all is done."""
        limit = time.monotonic() + SECONDS
        while (state["busy"] is not None or state["waiting"]) and time.monotonic() < limit:
            state = self.done("wait")
        return state

    def do(self, text):
        return self.whole(self.done("do", text=text))


class Doors(Served):
    def status(self, method="GET", path=None, body=None, **headers):
        status, told = self.ask(method, path or f"/{self.server.token}/state", body, **headers)
        self.assertNotIn("enabled", told if status == 403 else "")
        return status

    def post(self, **headers):
        return self.status("POST", f"/{self.server.token}/do", json.dumps({"text": "vat a () 0"}), **headers)

    def test_the_address_is_of_this_machine_alone(self):
        self.assertEqual(self.server.server_address[0], "127.0.0.1")
        self.assertRegex(self.server.address, r"^http://127\.0\.0\.1:\d+/[\w-]{32}/$")

    def test_the_token(self):
        self.assertEqual(self.status(), 200)
        token = self.server.token
        for path in ("/", "/state", f"/{token[:-1]}/state", f"/{token}x/", f"/x/{token}/state", "/%00/", "/%E4/", "//state"):
            self.assertEqual(self.status(path=path), 403, path)
        for name in ("", "main.js", "style.css", "picture.svg", "session.evats", "pulse"):
            self.assertEqual(self.status(path=f"/wrong/{name}"), 403, name)

    def test_each_workbench_has_a_token_of_its_own(self):
        with Workbench(self.desk) as other:
            self.assertNotEqual(other.token, self.server.token)

    def test_the_host(self):
        port = self.server.server_address[1]
        for host in ("evil.example", f"evil.example:{port}", "127.0.0.1", f"127.0.0.1:{port + 1}", f"localhost:{port}", ""):
            self.assertEqual(self.status(host=host), 403, host)
        self.assertEqual(self.status(host=f"127.0.0.1:{port}"), 200)

    def test_the_origin(self):
        own = self.server.origin
        for origin in ("http://evil.example", "null", own + "0", own.replace("http", "https"), "http://127.0.0.1:1"):
            self.assertEqual(self.status(origin=origin), 403, origin)
            self.assertEqual(self.post(origin=origin, kind="application/json"), 403, origin)
        self.assertEqual(self.post(kind="application/json"), 403)
        self.assertEqual(self.status(site="cross-site"), 403)
        self.assertEqual(self.status(site="same-site"), 403)
        self.assertEqual(self.read("state")["commands"], 0)
        self.assertEqual(self.post(origin=self.server.origin, kind="application/json"), 200)
        self.assertEqual(self.whole(self.done("wait"))["commands"], 1)

    def test_what_a_form_of_another_page_can_send(self):
        for kind in ("text/plain", "application/x-www-form-urlencoded", "multipart/form-data"):
            self.assertEqual(self.post(origin=self.server.origin, kind=kind), 403, kind)

    def test_what_is_no_request_of_the_page(self):
        token = self.server.token
        names = ["told?name=e1%0Ashow", "cone?name=", "told?name=e1.x0", "why?first=e1&second=e1%20e2", "cone", "why?first=e1"]
        for path in [*names, "nothing", "../server.py", "..%2fserver.py", "page/main.js", ".", "state/"]:
            self.assertIn(self.status(path=f"/{token}/{path}"), (400, 403), path)
        words = {"origin": self.server.origin, "kind": "application/json"}
        asked = [("nothing", "{}"), ("do", "{"), ("do", "[]"), ("do", "{}"), ("do", '{"text": 1}'), ("load", '{"text": null}')]
        for name, body in asked:
            self.assertEqual(self.status("POST", f"/{token}/{name}", body, **words), 400, (name, body))
        self.assertEqual(self.status("PUT", f"/{token}/do", "{}", **words), 501)

    def test_the_files_of_the_page(self):
        for file in PAGE.iterdir():
            status, body = self.ask("GET", f"/{self.server.token}/{file.name}")
            self.assertEqual((status, body), (200, file.read_text()), file.name)
        self.assertEqual(self.ask("GET", f"/{self.server.token}/")[1], (PAGE / "index.html").read_text())

    def test_the_page_takes_nothing_from_elsewhere(self):
        for file in PAGE.iterdir():
            addresses = set(re.findall(r"https?://[\w./]+", file.read_text()))
            self.assertLessEqual(addresses, {"http://www.w3.org/2000/svg"}, file.name)

    def test_what_browsers_are_told(self):
        connection = http.client.HTTPConnection("127.0.0.1", self.server.server_address[1], timeout=SECONDS)
        self.addCleanup(connection.close)
        connection.request("GET", f"/{self.server.token}/")
        headers = connection.getresponse().headers
        self.assertIn("default-src 'none'; script-src 'self'", headers["Content-Security-Policy"])
        self.assertIn("frame-ancestors 'none'", headers["Content-Security-Policy"])
        self.assertEqual((headers["Referrer-Policy"], headers["Cache-Control"]), ("no-referrer", "no-store"))


class Sessions(Served):
    def test_commands_are_answered(self):
        state = self.do(THREE + "ask ann 1 +\n")
        self.assertEqual([row["lines"][0].split()[0] for row in state["rows"]], ["vat", "vat", "vat", "run", "ask"])
        self.assertEqual((state["rows"][-2]["reply"][-1], state["rows"][-1]["code"], state["commands"]), ("idle", "L5", 4))
        self.assertEqual((state["vats"], state["enabled"]), (["bank", "ann", "bob"], []))

    def test_what_may_be_done_with_the_vat_of_a_message(self):
        state = self.do(THREE.replace("run 100", "run 3"))
        self.assertEqual(state["enabled"][0], ["arrive e5.m0", "bank"])
        self.assertIn(["learn ann e1.p0", ""], state["enabled"])

    def test_replies_say_what_their_events_were(self):
        rows = self.do(THREE.replace("run 100", "run 3\nrun 100\nstep"))["rows"]
        self.assertEqual([row["did"] for row in rows[-3:-1]], [{}, {}])
        row = self.do("undo-cone e9\nrun 1")["rows"][-1]
        self.assertEqual(row["did"], {"e21": "arrive e6.m0"})

    def test_rows_are_told_once(self):
        self.do("vat a () 0\nstep")
        self.assertEqual([row["reply"] for row in self.read("state", since=1)["rows"]], [["ok e2 value null"]])

    def test_what_wants_more_lines_is_not_taken(self):
        for text in ("vat a ()", "vat a () 2\n1", "vat a ()\ndef o {", "vat a () 0\nask a f("):
            state = self.done("do", text=text, whole=0)
            self.assertTrue(state["more"], text)
            self.assertEqual(state["commands"], 0, text)
        self.assertIsNone(self.done("do", text="vat a ()\ndef o {\n}\n\n", whole=0)["more"])
        self.assertIsNone(self.done("do", text="vat b () 1\n7", whole=0)["more"])
        self.assertEqual(self.whole(self.done("do", text="ask a f(", whole=1))["rows"][-1]["code"], "L5")

    def test_typed_lines_are_kept_for_the_next_time(self):
        self.done("do", text="vat a () 0", kept=1, whole=0)
        self.done("do", text="step")
        self.assertEqual(self.read("history"), ["vat a () 0"])

    def test_labels(self):
        state = self.do("vat a () 0 as it\nturn $it.m0\nturn $other.m0\nlabels")
        self.assertEqual(state["rows"][1]["lines"], ["turn e1.m0"])
        self.assertEqual([row["told"] for row in state["rows"][2:]], [["no event has the label $other"], ["$it e1"]])

    def test_a_refusal_in_words_with_what_helps(self):
        row = self.do(THREE + "undo e8")["rows"][-1]
        self.assertEqual((row["code"], row["marks"]), ("B15", ["e8", "e12"]))
        self.assertEqual(row["told"][0], "e8 cannot be taken back alone: e12 came of it and is live.")
        self.assertTrue(row["told"][1].startswith("`undo-cone e8` would do: it takes back e8 e12 e13 e14"), row["told"])

    def test_undo_and_redo(self):
        self.do(THREE)
        cone = self.read("cone", name="e8")["events"]
        self.assertEqual(cone[:4], ["e8", "e12", "e13", "e14"])
        row = self.do("undo-cone e8")["rows"][-1]
        self.assertEqual((row["reply"], row["undone"]), ([f"ok undone {len(cone)}"], cone))
        self.assertEqual(self.read("redo", name="e14"), {"alone": cone[:4], "whole": [*cone[:4], cone[-1]]})
        self.assertEqual(self.read("redo", name="e8"), {"alone": ["e8"], "whole": cone})
        self.assertEqual(self.read("cone", name="e8"), {"events": [], "told": "e8 is undone."})
        self.assertEqual(self.do(f"redo {' '.join(cone)}")["rows"][-1]["reply"], [f"ok redone {len(cone)}"])

    def test_the_picture(self):
        self.do(THREE)
        picture = self.read("picture")
        self.assertEqual([lane[0] for lane in picture["lanes"]], ["bank", "ann", "bob"])
        rows = {row[0]: row for row in picture["events"]}
        self.assertEqual(list(rows), ["e1", "e2", "e3", "e4", "e5", "e6", "e8", "e10", "e14"])
        self.assertEqual((rows["e14"][3:5], rows["e14"][8:]), (["turn", 0], ["value 15", ["e11", "e12", "e13", "e20"]]))
        self.assertEqual(picture["hosts"]["e13"], "e14")
        arrows = {(row[1], row[2]): len(row[8]) for row in picture["arrows"]}
        self.assertEqual((arrows["e6", "e14"], arrows["e5", "e8"]), (3, 1))
        self.assertEqual(len(self.read("picture", all=1)["events"]), 20)
        self.assertIn("cause", {row[0] for row in self.read("picture", causes=1)["arrows"]})

    def test_the_picture_as_svg(self):
        self.do(THREE)
        status, body = self.ask("GET", f"/{self.server.token}/picture.svg?look=dark&cone=e8")
        self.assertEqual((status, body.count('class="event'), body.count("#14171c") > 0), (200, 9, True))
        self.assertEqual(len(re.findall(r'class="event turn live cone"', body)), 2)

    def test_what_is_chosen(self):
        self.do(THREE)
        told = self.read("told", name="e14")
        self.assertEqual((told["vat"], told["line"].split()[:5]), ("bank", ["14", "e14", "live", "turn", "e6.m1"]))
        self.assertEqual(self.read("told", name="e6.m1")["words"], ["e6 made it.", "e14 took it."])
        self.assertIn(["bank", "object e8.o0 _"], self.read("told", name="e8.o0")["shown"])
        self.assertEqual(self.read("told", name="e99"), {"fault": "The journal has no event e99 that is not settled."})

    def test_words_go_on(self):
        self.do("vat bank () 0")
        self.assertEqual(self.read("words", before="", text="undo"), ["undo ", "undo-cone "])
        self.assertEqual(self.read("words", before="turn ", text=""), ["e1.m0"])
        self.assertEqual(self.read("words", before="", text="sav"), ["save "])

    def test_saving_and_loading(self):
        self.do(THREE + "ask nobody 1\nundo-cone e8")
        _, saved = self.ask("GET", f"/{self.server.token}/session.evats")
        self.assertEqual(saved, THREE + "undo-cone e8\n")
        journal = self.session.ask("journal")
        self.do("ask ann 1")
        state = self.whole(self.done("load", text=saved))
        self.assertEqual((state["commands"], state["count"], self.session.ask("journal")), (5, 5, journal))

    def test_files_that_are_named(self):
        file = self.folder / "session"
        told = [self.do(f"{word} {file}")["rows"][-1]["told"] for word in ("load", "save", "save")]
        self.assertEqual(told[0], [f"cannot read {file}: No such file or directory"])
        self.assertEqual(told[2], [f"cannot write {file}: File exists"])
        file.write_text(THREE)
        self.assertEqual(self.do(f"load {file}")["commands"], 4)

    def test_a_session_that_is_sent_names_no_files(self):
        file = self.folder / "script"
        file.write_text("7\n")
        lines = [f"save {self.folder}/made", f"save {file}", f"load {file}", f"vat a () @{file}", f"ask a @{file}", "vat a () 0"]
        state = self.whole(self.done("load", text="\n".join(lines)))
        self.assertEqual([row["code"] for row in state["rows"]], ["fault"] * 5 + [None])
        self.assertIn("commands that were sent to the workbench name no files", state["rows"][0]["told"][0])
        self.assertEqual((file.read_text(), (self.folder / "made").exists()), ("7\n", False))

    def test_a_loaded_file_names_nothing_outside_of_its_folder(self):
        inner = self.folder / "inner"
        inner.mkdir()
        (inner / "next").write_text("vat a () @script\n")
        (inner / "script").write_text("7\n")
        (inner / "session").write_text("save ../made\nload next\nload session\nload /dev/zero\nstep\nsave made\n")
        rows = self.do(f"load {inner}/session\nshow")["rows"]
        self.assertEqual([row["lines"][0].split()[0] for row in rows], ["save", "vat", "load", "load", "step", "save", "show"])
        self.assertEqual([row["code"] for row in rows], ["fault", None, "fault", "fault", None, None, None])
        self.assertEqual((inner / "made").read_text(), "vat a () 1\n7\nstep\n")
        self.assertFalse((self.folder / "made").exists())

    def test_a_reply_that_cannot_be_looked_at(self):
        with unittest.mock.patch.multiple("conversation.program", MOST_KEPT=400, LAST_KEPT=100):
            state = self.do("vat a () 1\n\"" + "x" * 2_000 + "\"\nrun 1")
            self.assertEqual((state["busy"], state["rows"][-2]["reply"][0][:12]), (None, "ok e2 value "))
            self.assertIn("the reply to `show` is too long to be looked at", state["rows"][-1]["told"][0])
            self.assertIn("too long to be looked at", self.read("picture")["fault"])
            self.assertEqual(self.read("state", since=len(state["rows"]))["rows"], [])
        self.assertEqual(self.do("undo-cone e1")["vats"], [])

    def test_want_of_memory_is_told(self):
        with unittest.mock.patch.object(self.server.view, "picture", side_effect=MemoryError):
            self.assertEqual(self.read("picture"), {"fault": "There is not memory enough for this."})

    def test_what_workers_did_is_saved(self):
        self.do("vat a () 0\nask a 7\nwork 1 9")
        _, saved = self.ask("GET", f"/{self.server.token}/session.evats")
        self.assertEqual(saved, "vat a () 0\nask a 7\nturn e1.m0\nturn e2.m0\n")

    def test_help(self):
        rows = self.do("help\nhelp undo\nhelp B15\nstop")["rows"]
        self.assertIn("  stop ", " ".join(rows[0]["told"]))
        self.assertTrue(rows[1]["told"][0].startswith("undo E"))
        self.assertIn("cannot be taken back alone", rows[2]["told"][0])
        self.assertEqual(rows[3]["told"], ["The program is at no command."])

    def test_a_long_reply_is_cut(self):
        self.do(THREE + "ask ann 1\n" * 300)
        row = self.do("run 1000\njournal\njournal")["rows"][-1]
        self.assertEqual((len(row["reply"]), row["told"]), (400, ["220 more lines were replied; they are not shown here"]))


class Endings(Served):
    def test_a_killed_program(self):
        self.do(THREE)
        os.killpg(self.session.program.process.pid, signal.SIGKILL)
        self.session.program.process.wait()
        pulse = self.read("pulse")
        self.assertEqual(pulse["ended"], "signal 9 ended it (Killed)")
        state = self.read("state")
        self.assertEqual((state["ended"], state["commands"]), (pulse["ended"], 4))
        self.assertEqual(self.done("do", text="step"), {"fault": "The program has ended."})
        self.assertEqual(self.read("told", name="e1"), {"fault": "The program has ended."})
        self.assertEqual(self.ask("GET", f"/{self.server.token}/session.evats")[1], THREE)
        again = self.done("again")
        self.assertEqual((again["ended"], again["commands"]), (None, 4))
        self.assertEqual(len(self.read("picture", all=1)["events"]), 20)

    def test_a_program_that_is_killed_in_a_command(self):
        self.do("vat a () 0")
        os.killpg(self.session.program.process.pid, signal.SIGKILL)
        state = self.done("do", text="step")
        self.assertEqual((state["ended"], state["commands"], state["waiting"]), ("signal 9 ended it (Killed)", 1, 0))

    def test_the_picture_stays_while_the_program_is_ended(self):
        self.do(THREE)
        self.read("picture")
        os.killpg(self.session.program.process.pid, signal.SIGKILL)
        self.session.program.process.wait()
        self.read("pulse")
        self.assertEqual(len(self.read("picture", all=1)["events"]), 20)


class Busy(Served):
    def program_words(self):
        path = self.folder / "slow"
        path.write_text(SLOW)
        path.chmod(0o755)
        return [str(path)]

    def test_a_command_that_takes_long_can_be_stopped(self):
        state = self.done("do", text="run 1000\nenabled")
        self.assertEqual((state["busy"], state["waiting"], state["asked"]), ("run 1000", 1, 2))
        self.assertEqual(self.read("told", name="e1"), {"fault": "The program is at work."})
        self.assertEqual(self.done("wait")["busy"], "run 1000")
        for way in (lambda: self.done("stop"), lambda: self.done("do", text="stop", kept=1, whole=0)):
            state = way()
            self.assertEqual((state["busy"], state["waiting"], state["commands"]), (None, 0, 0))
            self.assertEqual(state["rows"][-1]["told"], ["`run 1000` was ended: all is as before it."])
            self.assertEqual(self.done("do", text="run 1000")["busy"], "run 1000")


class Slow(Served):
    """A program that takes long to show what there is."""

    def program_words(self):
        path = self.folder / "slow"
        path.write_text(SLOW.replace("run*) sleep 60", "show) sleep 3; echo vat a e1"))
        path.chmod(0o755)
        return [str(path)]

    def test_what_takes_long_to_be_shown_is_heard_later(self):
        state, seen = self.done("do", text="enabled"), []
        while state["busy"] is not None:
            seen.append(state["busy"])
            state = self.done("wait")
        self.assertIn("show", seen)
        self.assertEqual((state["rows"][0]["reply"], state["vats"]), (["enabled 0"], ["a"]))


class Recorded(Served):
    words = (RECORDED,)

    def setUp(self):
        super().setUp()
        text = (Path(RECORDED).with_name("recorded.replies")).read_text().split("> journal")[0]
        self.do("\n".join(line[2:] for line in text.splitlines() if line[:2] in ("> ", "| ")))

    def test_why_with_its_cells(self):
        why = self.read("why", first="e7", second="e14")
        self.assertEqual((why["kind"], why["told"], len(why["steps"])), ("chain", None, 4))
        self.assertEqual(why["steps"][1], ["e8", "e12", "msg e8.m0", "the message e8.m0"])
        self.assertEqual(self.read("why", first="e4", second="e2")["kind"], "none")

    def test_the_cells_of_an_event(self):
        told = self.read("told", name="e14")
        self.assertIn([False, "what carol knows of e10.p0", "view e1 e10.p0", None], told["cells"])
        self.assertEqual((told["notes"], told["message"]["lines"][-1]), ([], " sent <e1.p0> <- w()"))

    def test_an_object(self):
        self.assertEqual(self.read("told", name="e4.o0")["lines"][-1], " method y(c) { c <- w() }")


class Unasked(Served):
    words = (STAND_IN, "--unasked")

    def test_why_by_the_journal_alone(self):
        self.do(THREE)
        why = self.read("why", first="e5", second="e14")
        self.assertEqual((why["kind"], why["steps"][0][0], why["steps"][-1][1]), ("chain", "e5", "e14"))
        self.assertIn("does not know the command `why`", why["told"])

    def test_what_the_program_cannot_tell(self):
        self.do(THREE)
        cannot = "This program cannot tell more: it does not know the command `{}`."
        self.assertEqual(self.read("told", name="e14")["notes"], [cannot.format("event")])
        self.assertEqual(self.read("told", name="e6.m1")["notes"], [cannot.format("message")])
        self.assertEqual(self.read("told", name="e8.o0")["notes"], [cannot.format("object")])


class Commands(unittest.TestCase):
    def test_the_command_serves_the_page_and_ends_with_its_program(self):
        with tempfile.TemporaryDirectory() as folder:
            file = Path(folder, "session")
            file.write_text(THREE)
            variables = {**os.environ, "PYTHONPATH": str(COMPANIONS), "XDG_STATE_HOME": folder}
            words = [sys.executable, "-m", "workbench", "--program", PROGRAM, str(file)]
            with subprocess.Popen(words, env=variables, stdout=subprocess.PIPE, stderr=subprocess.PIPE, text=True) as process:
                address = process.stdout.readline().split()[-1]
                host, _, path = address.removeprefix("http://").partition("/")
                connection = http.client.HTTPConnection(host, timeout=SECONDS)
                connection.request("GET", f"/{path}state")
                self.assertEqual(json.loads(connection.getresponse().read())["asked"], 4)
                connection.close()
                process.send_signal(signal.SIGINT)
                self.assertEqual((process.wait(SECONDS), process.stderr.read()), (0, ""))

    def test_a_program_that_is_not_there(self):
        words = [sys.executable, "-m", "workbench", "--program", "/nowhere/program"]
        ended = subprocess.run(words, cwd=COMPANIONS, capture_output=True, text=True, check=False, timeout=SECONDS)
        self.assertEqual(ended.returncode, 2)
        self.assertIn("workbench: cannot run /nowhere/program", ended.stderr)


class Tools(unittest.TestCase):
    """What .ci/tools says on a machine without a browser."""

    def said(self, installer=None):
        with tempfile.TemporaryDirectory() as folder:
            for name in ("bash", "env", "dirname", "readlink", "mktemp", "timeout", "tail", "rm", "sh"):
                os.symlink(shutil.which(name), Path(folder, name))
            os.symlink(sys.executable, Path(folder, "python3"))
            for name, told in {"id": "0", **({"apt-get": installer} if installer else {})}.items():
                Path(folder, name).write_text(f"#!/bin/sh\necho {told}\n[ {name} = id ]\n")
                Path(folder, name).chmod(0o755)
            ran = subprocess.run([COMPANIONS.parent / ".ci" / "tools"], env={"PATH": folder}, capture_output=True, text=True,
                                 check=False, timeout=SECONDS)
        self.assertEqual((ran.returncode, ran.stderr), (0, ""))
        return ran.stdout

    def test_nothing_is_installed_where_that_is_not_possible(self):
        self.assertIn("tools: not found, so the page of ./workbench will not be tried: chromium", self.said())

    def test_an_installation_that_fails_is_told(self):
        said = self.said("no network")
        self.assertIn("tools: installing chromium chromium-driver", said)
        self.assertIn("tools: installing failed; apt-get said:\nno network\n", said)
        self.assertIn("tools: not found, so the page of ./workbench will not be tried: chromium", said)


if __name__ == "__main__":
    unittest.main()
