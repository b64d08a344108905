"""The picture as the text of an SVG file. Each look stands in attributes of its element, so that every viewer shows it."""
import re
import xml.etree.ElementTree as ElementTree

from conversation.journal import cone
from conversation.visible import visible

from .layout import BOX_HEIGHT, PADDING, ROUND, WAITING, layout, shortened
from .looks import LIGHT
from .paths import dots, head, number, shaft

SANS = "DejaVu Sans, Verdana, Helvetica, Arial, sans-serif"
MONO = "DejaVu Sans Mono, Menlo, Consolas, Courier New, monospace"
MARGIN = 20
LABEL_CHARACTER, LEAST_LABEL_WIDTH, LONGEST_LABEL = 9.5, 40, 24
WIDTHS = {"message": 2, "cause": 1.4}
DASHES = "5 4"

# Characters that no XML text may have, besides controls.
FORBIDDEN = re.compile("[\ufffe\uffff]")
LONGEST_TITLE = 1000
LEAST_WIDTH = 760
LEGEND_CHARACTER = 6.3


def add(parent, tag, **attributes):
    """A new element; `_` in an attribute's name stands for `-`, and one behind a name for nothing."""
    words = {name.rstrip("_").replace("_", "-"): value for name, value in attributes.items() if value is not None}
    texts = {name: value if isinstance(value, str) else number(value) for name, value in words.items()}
    return ElementTree.SubElement(parent, tag, texts)


def legible(text):
    """A text of lines as XML may have it, in which each control is spelled."""
    return FORBIDDEN.sub("\ufffd", "\n".join(map(visible, text.split("\n"))))


def entitle(parent, text):
    add(parent, "title").text = shortened(legible(text), LONGEST_TITLE)


def classes(*words):
    return " ".join(word for word in words if word)


class Drawing:
    """A picture that is being drawn: its root, its look, and the events of the cone that is coloured."""

    def __init__(self, look, members):
        self.look, self.members = look, members
        self.root = ElementTree.Element("svg", {"xmlns": "http://www.w3.org/2000/svg", "font-family": SANS})

    def write(self, parent, text, x, y, **attributes):
        element = add(parent, "text", x=x, y=y, **{"font_size": "12", "fill": self.look.ink, **attributes})
        element.text = legible(text)

    def is_within(self, arrow):
        return arrow.source in self.members and arrow.target in self.members

    def draw_line(self, parent, points, kind, is_live, is_in_cone):
        colour = self.look.cone if is_in_cone else getattr(self.look, kind)
        dashes = None if is_live else DASHES
        add(parent, "path", d=shaft(points), fill="none", stroke=colour, stroke_width=WIDTHS[kind], stroke_dasharray=dashes)
        add(parent, "polygon", points=head(points[-1], points[-2]), fill=colour)

    def draw_arrow(self, parent, way):
        arrow, is_in_cone = way.arrow, self.is_within(way.arrow)
        words = classes("arrow", arrow.kind, "live" if arrow.is_live else "undone", is_in_cone and "cone")
        group = add(parent, "g", class_=words, data_from=arrow.source, data_to=arrow.target)
        entitle(group, told_of(way))
        self.draw_line(group, way.points, arrow.kind, arrow.is_live, is_in_cone)
        for x, y in dots(way.points, len(arrow.folded)):
            add(group, "circle", cx=x, cy=y, r=2.6, fill=self.look.boxes["move"][0])

    def draw_frame(self, parent, left, top, width, height, kind, is_live, is_in_cone):
        line, fill = (self.look.cone, self.look.cone_fill) if is_in_cone else self.look.box(kind)
        dashes, thickness = None if is_live else DASHES, 2.4 if is_in_cone else 1.3
        corner = height / 2 if kind in WAITING else 7
        add(parent, "rect", x=left, y=top, width=width, height=height, rx=corner, fill=fill if is_live else self.look.lane,
            stroke=line, stroke_width=thickness, stroke_dasharray=dashes)

    def draw_event(self, parent, box, texts):
        event, is_in_cone = box.event, box.event.name in self.members
        # What is still to come is no event.
        word = "waiting" if event.kind in WAITING else "event"
        words = classes(word, event.kind, "live" if event.is_live else "undone", is_in_cone and "cone")
        group = add(parent, "g", class_=words, data_event=event.name, data_vat=box.vat)
        learnt = f"folded into it: {' '.join(box.folded)}" if box.folded else None
        entitle(group, "\n".join(part for part in (event.line, texts.get(event.name), learnt) if part))
        self.draw_frame(group, box.left, box.top, box.width, BOX_HEIGHT, event.kind, event.is_live, is_in_cone)
        ink = self.look.ink if event.is_live else self.look.faint
        inset = PADDING + (ROUND if event.kind in WAITING else 0)
        left, right = box.left + inset, box.right - inset
        self.write(group, event.name, left, box.top + 16, font_size="12.5", font_weight="bold", fill=ink, class_="name")
        self.write(group, event.kind, right, box.top + 16, font_size="11.5", text_anchor="end", fill=self.look.faint,
                   class_="kind")
        self.write(group, box.caption, left, box.top + 32, font_size="11", font_family=MONO, fill=ink, class_="caption")

    def draw_lane(self, parent, lane, label_width, right):
        group = add(parent, "g", class_="lane", data_vat=lane.vat)
        entitle(group, f"vat {lane.vat}")
        height, middle = lane.bottom - lane.top, (lane.top + lane.bottom) / 2
        for width, fill in ((right - MARGIN, self.look.lane), (label_width, self.look.label)):
            add(group, "rect", x=MARGIN, y=lane.top, width=width, height=height, rx=8, fill=fill, stroke=self.look.border)
        across = MARGIN + label_width / 2
        self.write(group, "vat", across, middle - 8, text_anchor="middle", fill=self.look.faint)
        self.write(group, shortened(lane.vat, LONGEST_LABEL), across, middle + 10, font_size="16", font_weight="bold",
                   text_anchor="middle", class_="label")

    def draw_sample(self, parent, x, y, shape, is_live, is_in_cone):
        if shape in ("box", "pill"):
            self.draw_frame(parent, x, y - 8, 28, 16, "turn" if shape == "box" else "waits", is_live, is_in_cone)
        elif shape == "dot":
            add(parent, "circle", cx=x + 14, cy=y, r=2.6, fill=self.look.boxes["move"][0])
        else:
            self.draw_line(parent, [(x, y), (x + 28, y)], shape, is_live, is_in_cone)

    def draw_legend(self, top, width, items):
        """Draws the legend in lines of this width, and tells its lower edge."""
        group = add(self.root, "g", class_="legend")
        x, y = MARGIN, top + 12
        for text, shape, is_live, is_in_cone in items:
            length = 36 + LEGEND_CHARACTER * len(text) + 22
            if x > MARGIN and x + length > width - MARGIN:
                x, y = MARGIN, y + 24
            self.draw_sample(group, x, y, shape, is_live, is_in_cone)
            self.write(group, text, x + 36, y + 4, fill=self.look.faint)
            x += length
        self.write(group, "From left to right: the order of the journal.", MARGIN, y + 28, fill=self.look.faint)
        return y + 34


def told_of(way):
    """What an arrow says, in words."""
    arrow = way.arrow
    if arrow.kind == "cause":
        return f"{arrow.target} came of {arrow.source}"
    way_there = f" by {', '.join(arrow.folded)}" if arrow.folded else ""
    came = f"which came from {arrow.source}{way_there}"
    target = way.target.event
    if target.kind in WAITING:
        return f"the message {target.name}, {came}, {target.kind} {way.target.caption}"
    return f"{target.name} took {target.message}, {came}"


def legend_items(plan, cone_of):
    """The words of the legend, each with what its sample shows: a box, a pill, a dot or an arrow; whether it is live, and in the
    cone."""
    items = [
        ("event", "box", True, False),
        ("undone event", "box", False, False),
        ("message, to the event that took it", "message", True, False),
    ]
    if any(box.event.kind in WAITING for box in plan.boxes):
        items.append(("message that is not done yet", "pill", True, False))
    if any(way.arrow.folded for way in plan.ways):
        items.append(("arrived or went on", "dot", True, False))
    if any(way.arrow.kind == "cause" for way in plan.ways):
        items.append(("cause; not drawn where it follows from others", "cause", True, False))
    items.append(("arrow to an undone event", "message", False, False))
    return items + ([(f"{cone_of} and what came of it", "box", True, True)] if cone_of else [])


def moved(plan, x, y):
    """The picture, with all that it has moved."""
    for box in plan.boxes:
        box.left, box.top = box.left + x, box.top + y
    for way in plan.ways:
        way.track += y
    for lane in plan.lanes:
        lane.top, lane.bottom = lane.top + y, lane.bottom + y
    return plan


def picture(scene, cone_of=None, is_folded=True, has_causes=True, look=LIGHT):
    """The picture of a scene as the text of an SVG file."""
    longest = max((len(shortened(vat, LONGEST_LABEL)) for vat in scene.lanes), default=0)
    label_width = max(LEAST_LABEL_WIDTH, LABEL_CHARACTER * longest) + 2 * PADDING
    plan = moved(layout(scene, is_folded, has_causes), MARGIN + label_width + MARGIN, MARGIN)
    width = max(MARGIN + label_width + MARGIN + plan.width + 2 * MARGIN, LEAST_WIDTH)
    drawing = Drawing(look, cone(scene.events, cone_of) if cone_of else set())
    root = drawing.root
    entitle(root, "A picture of causes")
    add(root, "rect", class_="ground", width="100%", height="100%", fill=look.ground)
    for lane in plan.lanes:
        drawing.draw_lane(root, lane, label_width, width - MARGIN)
    # What is coloured stands over what is not, and messages over causes.
    for way in sorted(plan.ways, key=lambda way: (drawing.is_within(way.arrow), way.arrow.kind == "message")):
        drawing.draw_arrow(root, way)
    for box in plan.boxes:
        drawing.draw_event(root, box, scene.texts)
    bottom = plan.height + MARGIN
    if not scene.events:
        drawing.write(root, "The journal has no events.", MARGIN, bottom + 10, class_="empty")
        bottom += 30
    height = drawing.draw_legend(bottom + 10, width, legend_items(plan, cone_of)) + MARGIN
    root.set("width", number(width))
    root.set("height", number(height))
    root.set("viewBox", f"0 0 {number(width)} {number(height)}")
    ElementTree.indent(root, " ")
    return ElementTree.tostring(root, encoding="unicode") + "\n"
