"""Looks at the parts of pictures. No program is run."""
import random
import re
import unittest
import xml.etree.ElementTree as ElementTree
from pathlib import Path

from conversation.commands import lines_of
from conversation.journal import read_journal

from .arrows import cause_arrows, direct_causes, message_arrows
from .layout import BOX_HEIGHT, MOST_TRACKS, MOST_WAITING, Scene, layout, waiting_messages
from .looks import DARK, LIGHT, LOOKS
from .svg import picture

JOURNAL = """\
1 e1 live birth a causes
2 e2 live turn e1.m0 causes e1
3 e3 undone ask a causes e1
4 e4 undone turn e3.m0 causes e1 e2 e3
5 e5 live ask a causes e1
6 e6 live turn e5.m0 causes e1 e2 e5
7 e7 live ask a causes e1
8 e8 live turn e7.m0 causes e1 e2 e6 e7
"""
SENDS = """\
1 e1 live birth alice causes
2 e2 live birth bob causes
3 e3 live turn e1.m0 causes e1
4 e4 live arrive e3.m0 causes e1 e3
5 e5 live turn e3.m0 causes e1 e2 e3 e4
6 e6 live forward e3.m1 causes e1 e3
7 e7 live learn bob e3.p0 causes e2 e5
"""
HOMES = dict(e1="alice", e2="bob", e3="alice", e4="bob", e5="bob", e6="bob", e7="bob")


def events_of(text):
    return read_journal(lines_of(text))


def scene_of(journal, homes=None, texts={}, publishers={}):
    """A scene of a journal; without homes the vats are those of the births, in turn."""
    events = events_of(journal)
    names = [event.arguments[0] for event in events if event.kind == "birth"] or ["a"]
    homes = homes or {event.name: names[place % len(names)] for place, event in enumerate(events)}
    return Scene(events, homes, list(dict.fromkeys(homes.values())), texts, publishers)


def tree_of(svg):
    root = ElementTree.fromstring(svg)
    for element in root.iter():
        element.tag = element.tag.partition("}")[2]
    return root


def groups(root, word):
    return [group for group in root.iter("g") if word in group.get("class").split()]


def events_by_name(root):
    return {group.get("data-event"): group for group in groups(root, "event")}


def ends(root, word):
    found = [group for group in groups(root, word) if "arrow" in group.get("class").split()]
    return sorted((group.get("data-from"), group.get("data-to")) for group in found)


def text_of(group, word):
    return next(text.text for text in group.iter("text") if text.get("class") == word)


def random_journal(seed, length):
    """A journal whose causes have nothing to do with a program, but stand before what came of them."""
    chance, lines = random.Random(seed), ["1 e1 live birth a causes", "2 e2 live birth b causes"]
    for place in range(3, length + 1):
        numbers = sorted(chance.sample(range(1, place), min(place - 1, chance.randint(0, 5))))
        causes, maker = [f"e{number}" for number in numbers], f"e{chance.randrange(1, place)}"
        what = chance.choice([f"ask {chance.choice('ab')}", f"turn {maker}.m0", f"arrive {maker}.m0", "learn b e1.p0"])
        lines.append(" ".join([str(place), f"e{place}", chance.choice(["live", "undone"]), what, "causes", *causes]))
    return "".join(f"{line}\n" for line in lines)


class Arrows(unittest.TestCase):
    def test_causes_leave_out_what_follows(self):
        events = events_of(JOURNAL)
        shown = {event.name for event in events}
        self.assertEqual([arrow.source for arrow in cause_arrows(events, shown) if arrow.target == "e8"], ["e6"])
        self.assertEqual(direct_causes(events)["e8"], ["e6", "e7"])

    def test_causes_reach_what_the_journal_says(self):
        for seed in range(20):
            events = events_of(random_journal(seed, 30))
            direct, by_causes, by_arrows = direct_causes(events), {}, {}
            for event in events:
                by_causes[event.name] = set(event.causes).union(*(by_causes[cause] for cause in event.causes))
                sources = direct[event.name]
                by_arrows[event.name] = set(sources).union(*(by_arrows[source] for source in sources))
            self.assertEqual(by_causes, by_arrows)

    def test_a_message_goes_from_event_to_event(self):
        lines = ["1 e1 live birth a causes", "2 e2 live turn e1.m0 causes e1", "3 e3 live arrive e2.m0 causes e2"]
        lines += ["4 e4 live forward e2.m0 causes e2 e3", "5 e5 live arrive e2.m0 causes e2 e3 e4"]
        lines.append("6 e6 live turn e2.m0 causes e2 e3 e4 e5")
        events = read_journal(lines)
        everything = {event.name for event in events}
        found = [(arrow.source, arrow.target) for arrow in message_arrows(events, everything)]
        self.assertEqual(found, [("e1", "e2"), ("e2", "e3"), ("e3", "e4"), ("e4", "e5"), ("e5", "e6")])
        (_, folded) = message_arrows(events, {"e1", "e2", "e6"})
        self.assertEqual((folded.source, folded.target, folded.folded), ("e2", "e6", ("e3", "e4", "e5")))

    def test_causes_go_on_behind_what_is_not_shown(self):
        events = events_of("1 e1 live birth a causes\n2 e2 live learn a e1.p0 causes e1\n3 e3 live ask a causes e2\n")
        self.assertEqual([(arrow.source, arrow.target) for arrow in cause_arrows(events, {"e1", "e3"})], [("e1", "e3")])

    def test_settled_causes_have_no_arrows(self):
        events = read_journal(["base 2", "3 e3 live ask a causes e1", "4 e4 live turn e3.m0 causes e1 e2 e3"])
        shown = {"e3", "e4"}
        self.assertEqual(cause_arrows(events, shown), [])
        self.assertEqual([(arrow.source, arrow.target) for arrow in message_arrows(events, shown)], [("e3", "e4")])


class Pictures(unittest.TestCase):
    def drawn(self, journal, cone_of=None, texts={}, **options):
        return tree_of(picture(scene_of(journal, texts=texts), cone_of, **options))

    def test_each_event_has_a_box_with_its_name_its_kind_and_its_line(self):
        boxes = events_by_name(self.drawn(JOURNAL))
        self.assertEqual(list(boxes), [f"e{number}" for number in range(1, 9)])
        for event in events_of(JOURNAL):
            box = boxes[event.name]
            self.assertIn(event.kind, box.get("class").split())
            self.assertEqual((text_of(box, "name"), text_of(box, "kind")), (event.name, event.kind))
            self.assertEqual(box.find("title").text, event.line)

    def test_later_kinds_are_drawn(self):
        root = tree_of(picture(scene_of(SENDS, HOMES), is_folded=False))
        self.assertEqual([text_of(box, "kind") for box in groups(root, "event")][3:], ["arrive", "turn", "forward", "learn"])
        self.assertEqual([text_of(lane, "label") for lane in groups(root, "lane")], ["alice", "bob"])
        self.assertEqual({name: box.get("data-vat") for name, box in events_by_name(root).items()}, HOMES)

    def test_what_is_folded_has_a_dot_on_the_arrow(self):
        root = tree_of(picture(scene_of(SENDS, HOMES, publishers={"e7": "e5"}), has_causes=False))
        self.assertEqual(list(events_by_name(root)), ["e1", "e2", "e3", "e5", "e6"])
        dots = {group.get("data-to"): len(group.findall("circle")) for group in groups(root, "arrow")}
        self.assertEqual(dots, {"e3": 0, "e5": 1, "e6": 0})
        self.assertTrue(events_by_name(root)["e5"].find("title").text.endswith("folded into it: e4 e7"))

    def test_messages_that_are_not_done(self):
        events = events_of("".join(SENDS.splitlines(True)[:4]))
        scene = Scene(events, dict(HOMES), ["alice", "bob"])
        messages = {"e3.m0": ("at", "bob"), "e3.m1": ("flying", "bob"), "e1.m0": ("done", "e3")}
        scene.waiting = waiting_messages(events, scene.homes, messages)
        root = tree_of(picture(scene, has_causes=False))
        found = {box.get("data-event"): (text_of(box, "kind"), text_of(box, "caption")) for box in groups(root, "waiting")}
        self.assertEqual(found, {"e3.m0": ("waits", "at bob"), "e3.m1": ("flies", "to bob")})
        self.assertEqual({box.get("data-vat") for box in groups(root, "waiting")}, {"bob"})
        # The arrival is folded into the message that waits.
        self.assertNotIn("e4", events_by_name(root))
        dots = {group.get("data-to"): len(group.findall("circle")) for group in groups(root, "arrow")}
        self.assertEqual((dots["e3.m0"], dots["e3.m1"]), (1, 0))
        whole = tree_of(picture(scene, has_causes=False, is_folded=False))
        self.assertIn(("e4", "e3.m0"), ends(whole, "message"))

    def test_a_lane_has_few_messages_that_wait(self):
        scene = scene_of(JOURNAL)
        found = waiting_messages(scene.events, scene.homes, {f"e2.m{number}": ("at", "a") for number in range(100)})
        self.assertEqual((len(found), found[0].arguments, found[-1].arguments), (MOST_WAITING, ("at a",), ("and 88 more",)))

    def test_a_dark_picture_has_the_dark_colours(self):
        light, dark = self.drawn(JOURNAL), self.drawn(JOURNAL, look=DARK)
        self.assertEqual([root.find("rect").get("fill") for root in (light, dark)], [LIGHT.ground, DARK.ground])
        for root, look in ((light, LIGHT), (dark, DARK)):
            self.assertEqual(events_by_name(root)["e2"].find("rect").get("stroke"), look.boxes["turn"][0])

    def test_arrows(self):
        root = self.drawn(JOURNAL)
        self.assertEqual(ends(root, "message"), [("e1", "e2"), ("e3", "e4"), ("e5", "e6"), ("e7", "e8")])
        self.assertEqual(
            ends(root, "cause"), [("e1", "e3"), ("e1", "e5"), ("e1", "e7"), ("e2", "e4"), ("e2", "e6"), ("e6", "e8")]
        )

    def test_undone_events_are_hollow_and_their_arrows_dashed(self):
        root = self.drawn(JOURNAL)
        for name, box in events_by_name(root).items():
            is_undone = name in ("e3", "e4")
            self.assertEqual("undone" in box.get("class").split(), is_undone, name)
            self.assertEqual(box.find("rect").get("fill") == "#ffffff", is_undone, name)
        self.assertEqual(ends(root, "undone"), [("e1", "e3"), ("e2", "e4"), ("e3", "e4")])
        for group in groups(root, "arrow"):
            is_dashed = group.find("path").get("stroke-dasharray") is not None
            self.assertEqual(is_dashed, "undone" in group.get("class").split())

    def test_the_arrows_from_an_undone_event_are_dashed(self):
        root = self.drawn("1 e1 undone birth a causes\n2 e2 live turn e1.m0 causes e1\n")
        self.assertEqual(ends(root, "undone"), [("e1", "e2")])

    def test_a_cone_is_coloured(self):
        root = self.drawn(JOURNAL, "e5")
        boxes = events_by_name(root)
        coloured = [name for name in boxes if "cone" in boxes[name].get("class").split()]
        self.assertEqual(coloured, ["e5", "e6", "e8"])
        self.assertEqual(ends(root, "cone"), [("e5", "e6"), ("e6", "e8")])
        colours = {boxes[name].find("rect").get("stroke") for name in coloured}
        self.assertEqual(len(colours), 1)
        for group in groups(root, "arrow"):
            self.assertEqual(group.find("path").get("stroke") in colours, "cone" in group.get("class").split())
        self.assertEqual(groups(self.drawn(JOURNAL), "cone"), [])

    def test_the_legend_tells_of_a_cone_where_there_is_one(self):
        legends = [len(groups(self.drawn(JOURNAL, name), "legend")[0].findall("rect")) for name in (None, "e5")]
        self.assertEqual(legends, [2, 3])

    def test_captions(self):
        boxes = events_by_name(self.drawn(JOURNAL, texts={"e4": "value 10", "e5": "x\n" * 50}))
        captions = {name: text_of(box, "caption") for name, box in boxes.items()}
        self.assertEqual((captions["e2"], captions["e4"]), ("e1.m0", "value 10"))
        self.assertTrue(captions["e5"].startswith("x x x") and captions["e5"].endswith("…"))
        self.assertEqual(boxes["e4"].find("title").text, "4 e4 undone turn e3.m0 causes e1 e2 e3\nvalue 10")

    def test_no_text_breaks_the_file(self):
        said_ = "<&>\"' \x9b\x0b\x00\ufffe"
        box = events_by_name(self.drawn(JOURNAL, texts={"e5": said_}))["e5"]
        self.assertEqual(text_of(box, "caption"), "<&>\"' \\u{9b} \\u{0…")
        self.assertEqual(box.find("title").text.split("\n")[1], "<&>\"' \\u{9b}\\u{b}\\u{0}\ufffd")

    def test_an_empty_journal_is_told(self):
        root = self.drawn("")
        self.assertEqual(text_of(root, "empty"), "The journal has no events.")
        self.assertEqual(groups(root, "event"), [])

    def test_the_width_grows(self):
        widths = [float(self.drawn(random_journal(1, length)).get("width")) for length in (40, 80, 160)]
        self.assertGreater(widths[1], 1.6 * widths[0])
        self.assertGreater(widths[2], 1.6 * widths[1])

    def test_the_page_has_the_same_colours(self):
        sheet = (Path(__file__).parents[1] / "workbench" / "page" / "style.css").read_text()
        for name, look in LOOKS.items():
            rules = re.search(rf'data-theme="{name}"\] {{(.*?)}}', sheet, re.DOTALL)[1]
            colours = dict(re.findall(r"--([\w-]+): (#\w+)", rules))
            for kind, (line, fill) in look.boxes.items():
                self.assertEqual((colours[kind], colours[f"{kind}-fill"]), (line, fill), (name, kind))
            for part in ("ground", "lane", "label", "border", "ink", "faint", "cone", "message", "cause"):
                self.assertEqual(colours[part], getattr(look, part), (name, part))


class Layouts(unittest.TestCase):
    def plans(self, length=40):
        """Pictures of random journals in two vats."""
        scenes = [scene_of(random_journal(seed, length)) for seed in range(20)]
        return [layout(scene, is_folded=seed % 2 == 0, has_causes=seed % 3 == 0) for seed, scene in enumerate(scenes)]

    @staticmethod
    def crossed(points, box):
        """Whether a line along these points runs through a box."""
        for (x, y), (to_x, to_y) in zip(points, points[1:]):
            is_along = min(y, to_y) < box.bottom and max(y, to_y) > box.top
            is_across = min(x, to_x) < box.right and max(x, to_x) > box.left
            is_upright = x == to_x and box.left < x < box.right
            is_level = y == to_y and box.top < y < box.bottom
            if is_upright and is_along or is_level and is_across:
                return True
        return False

    def test_boxes_stand_in_their_lanes_in_the_order_of_the_journal(self):
        for plan in self.plans(60):
            lanes, ends = {lane.vat: lane for lane in plan.lanes}, {}
            for before, box in zip(plan.boxes, plan.boxes[1:]):
                self.assertLess(before.left, box.left)
                self.assertLess(before.event.position, box.event.position)
            for box in plan.boxes:
                self.assertLess(ends.get(box.place, -1), box.left)
                ends[box.place] = box.right
                self.assertTrue(lanes[box.vat].top < box.top and box.top + BOX_HEIGHT < lanes[box.vat].bottom)
            for above, below in zip(plan.lanes, plan.lanes[1:]):
                self.assertLess(above.bottom, below.top)

    def test_no_message_runs_through_a_box(self):
        for plan in self.plans():
            for way in plan.ways:
                crossed = [box.event.name for box in plan.boxes if self.crossed(way.points, box)]
                self.assertTrue(way.arrow.kind == "cause" or crossed == [], (way.arrow, crossed))

    def test_arrows_lead_to_the_right(self):
        for plan in self.plans():
            for way in plan.ways:
                self.assertLess(way.start, way.end, way.arrow)

    def test_level_parts_of_other_arrows_do_not_meet(self):
        last = 0
        for plan in self.plans():
            channels = {}
            for way in plan.ways:
                channels.setdefault(way.channel, []).append(way)
            for ways in channels.values():
                levels = sorted({way.track for way in ways})
                for place, way in enumerate(ways):
                    for other in ways[:place]:
                        is_shared = way.rail == other.rail
                        is_meeting = way.track == other.track and way.start <= other.end and other.start <= way.end
                        is_last = len(levels) == MOST_TRACKS and way.track in (levels[0], levels[-1])
                        last += is_last
                        self.assertTrue(is_shared or is_last or not is_meeting, (way.arrow, other.arrow))
        self.assertGreater(last, 0)

    def test_short_arrows_run_next_to_the_row(self):
        for what, is_below in (("turn e9.m0", True), ("ask a", False)):
            causes = ["", "", "", " e2", " e1"]
            lines = [f"{place} e{place} live {what} causes{names}\n" for place, names in enumerate(causes, 1)]
            plan = layout(scene_of("".join(lines)), is_folded=False, has_causes=True)
            levels = {way.arrow.source: way.track for way in plan.ways if way.arrow.kind == "cause"}
            self.assertEqual(levels["e2"] < levels["e1"], is_below)

    def test_each_event_is_in_one_box(self):
        for seed in range(20):
            scene = scene_of(random_journal(seed, 60))
            plan = layout(scene)
            inside = [name for box in plan.boxes for name in (box.event.name, *box.folded)]
            self.assertEqual(sorted(inside), sorted(event.name for event in scene.events))
            lives = {event.name: event.is_live for event in scene.events}
            for name, host in plan.hosts.items():
                self.assertTrue(lives[host] or not lives[name], (name, host))

    def test_eighty_eight_events_are_not_wide(self):
        lines = ["1 e1 live birth a causes", "2 e2 live birth b causes"]
        for place in range(3, 89):
            what = f"turn e{place - 1}.m0" if place % 2 == 0 else f"ask {'ab'[place // 2 % 2]}"
            lines.append(f"{place} e{place} live {what} causes e{place - 1}")
        homes = {f"e{place}": "ab"[(place - 1) // 2 % 2] for place in range(1, 89)}
        plan = layout(scene_of("".join(f"{line}\n" for line in lines), homes))
        self.assertEqual(len(plan.boxes), 88)
        self.assertLess(plan.width, 4000)

    def test_ten_thousand_events_are_laid_out(self):
        plan = layout(scene_of(random_journal(5, 10_000)))
        self.assertEqual(sum(1 + len(box.folded) for box in plan.boxes), 10_000)
        self.assertLess(plan.height, 2 * (3 * (2 * 15 + 9 * MOST_TRACKS) + 2 * BOX_HEIGHT + 10))


if __name__ == "__main__":
    unittest.main()
