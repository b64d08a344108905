"""Where everything of the picture stands: lanes, boxes of events, and the ways of arrows between them.

Each event begins right of the one before it in the journal, and of what stands in its own row. A lane has two rows of boxes:
above what puts a message there, below what takes one. Arrows run along tracks in the channels above, between and below the
rows, and leave a box where no other one stands in their way: no message runs through the box of another event.
"""
from bisect import bisect_left, insort
from collections import defaultdict
from dataclasses import dataclass, field, replace

from conversation.journal import Event, maker_of
from conversation.visible import visible

from .arrows import arrows_to_waiting, cause_arrows, message_arrows

# Lengths are in pixels; those of texts are in characters, and what one takes is a little more than most fonts need.
STEP, GAP = 28, 14
BOX_HEIGHT = 40
LEAST_BOX_WIDTH = 74
LONGEST_CAPTION = 18
CHARACTER, HEADING_CHARACTER = 6.7, 7.4
PADDING = 9
TRACK, MOST_TRACKS = 9, 8
TRACK_MARGIN = 14
LEAST_BETWEEN, LEAST_OUTSIDE = 22, 11
LANE_GAP = 9

# How far from its left edge the arrows of a kind leave a box, and arrive at one.
LEAVING = {"message": 22, "cause": 30}
ARRIVING = {"message": 11, "cause": 4}

ABOVE, BELOW = 0, 1
IN_UPPER_ROW = {"birth", "ask", "arrive", "waits", "flies"}
FOLDED = {"arrive", "forward", "learn"}
# The kinds of what is still to come, messages that are not done; how many stand in a lane at most; and how much further from the
# edge their texts are, which is round.
WAITING = {"waits", "flies"}
MOST_WAITING, ROUND = 12, 6


def shortened(text, length):
    return text if len(text) <= length else text[: length - 1] + "…"


@dataclass
class Box:
    """An event's place: its lane and row, its left and its upper edge, its width. Of the events that are folded into it the
    journal tells as well."""

    event: object
    vat: str
    row: int
    caption: str
    width: float
    left: float = 0
    top: float = 0
    folded: list = field(default_factory=list)

    @property
    def right(self):
        return self.left + self.width

    @property
    def bottom(self):
        return self.top + BOX_HEIGHT

    @property
    def place(self):
        return self.vat, self.row


@dataclass
class Way:
    """How an arrow runs: along a track of a channel.

    A channel is named by its vat and its number from above: 0 is above the rows, 1 between them, 2 below. A rail is what the
    arrows of one kind from one event have in common: they share a track.
    """

    arrow: object
    source: Box
    target: Box
    channel: tuple
    leaves_below: bool
    arrives_below: bool
    track: float = 0

    @property
    def rail(self):
        return self.arrow.source, self.arrow.kind

    @property
    def start(self):
        return self.source.left + LEAVING[self.arrow.kind]

    @property
    def end(self):
        return self.target.left + ARRIVING[self.arrow.kind]

    @property
    def points(self):
        leaving = self.source.bottom if self.leaves_below else self.source.top
        arriving = self.target.bottom if self.arrives_below else self.target.top
        return [(self.start, leaving), (self.start, self.track), (self.end, self.track), (self.end, arriving)]


@dataclass
class Lane:
    vat: str
    top: float
    bottom: float


@dataclass
class Layout:
    """The picture; `hosts` tells of each event in whose box it is."""

    boxes: list
    ways: list
    lanes: list
    hosts: dict
    width: float
    height: float


@dataclass
class Scene:
    """What a picture is of: the events of a journal with the vat of each, the vats from above, and what events have to say;
    the turns into which what vats learn is folded; and the messages that are not done, as what is still to come of events."""

    events: list
    homes: dict
    lanes: list
    texts: dict = field(default_factory=dict)
    publishers: dict = field(default_factory=dict)
    waiting: list = field(default_factory=list)


def scene_of(session):
    """What there is to be drawn of a session."""
    events, homes = session.look()
    by_name = {event.name: event for event in events}
    learnt = [event for event in events if event.kind == "learn"]
    publishers = {event.name: session.places.publisher(event, by_name) for event in learnt}
    waiting = waiting_messages(events, homes, session.world().messages)
    return Scene(events, homes, session.places.lanes(homes), session.said(), publishers, waiting)


def waiting_messages(events, homes, messages):
    """The messages that wait at a vat or are on their way to one, as events that are still to come; of each vat the first ones,
    and of the others how many there are. Their vats are noted."""
    movers, makers = {}, {event.name for event in events}
    for event in events:
        if event.is_live and event.kind in ("arrive", "forward"):
            movers[event.message] = event.name
    found, vats = defaultdict(list), set(homes.values())
    for name, (place, vat) in messages.items():
        source = movers.get(name, maker_of(name))
        if place != "done" and source in makers and vat in vats:
            kind, where = ("waits", f"at {vat}") if place == "at" else ("flies", f"to {vat}")
            found[vat].append(Event(name, True, kind, (where,), (source,), name))
    shown = [message for waiting in found.values() for message in first_of(waiting)]
    homes.update((message.name, vat) for vat, waiting in found.items() for message in waiting)
    return shown


def first_of(waiting):
    """The first messages that wait in a lane, of which the last one says how many more there are."""
    more = len(waiting) - MOST_WAITING
    if more <= 0:
        return waiting
    *first, last = waiting[:MOST_WAITING]
    return [*first, replace(last, arguments=(f"and {more} more",))]


def caption_of(event, texts):
    """What stands under an event's name: what it says where that is known, else what the journal has of it."""
    text = visible(" ".join(texts.get(event.name, "").split()))
    return shortened(text or " ".join(event.arguments), LONGEST_CAPTION)


def box_of(event, scene):
    caption = caption_of(event, scene.texts)
    widths = CHARACTER * len(caption), HEADING_CHARACTER * len(f"{event.name} {event.kind}")
    row = ABOVE if event.kind in IN_UPPER_ROW else BELOW
    inset = PADDING + (ROUND if event.kind in WAITING else 0)
    return Box(event, scene.homes[event.name], row, caption, max(LEAST_BOX_WIDTH, *widths) + 2 * inset)


def hosts_of(scene, is_folded):
    """The event in whose box each event is: itself, or the turn into which it is folded. What moved a message is folded into
    the turn that took it, or into the message where it is not done, what a vat learns into the turn that published it; no live
    event is folded into an undone one."""
    lives = {event.name: event.is_live for event in scene.events}
    turns = {}
    for event in scene.events:
        if event.kind == "turn" and not (event.message in turns and lives[turns[event.message]]):
            turns[event.message] = event.name
    waiting, hosts = {message.name for message in scene.waiting}, {}
    for event in scene.events:
        host = scene.publishers.get(event.name) if event.kind == "learn" else turns.get(event.message)
        if event.is_live and event.message in waiting:
            host = event.message
        is_within = is_folded and event.kind in FOLDED and host and (lives.get(host, True) or not event.is_live)
        hosts[event.name] = host if is_within else event.name
    return hosts


def crossed_rows(source, target, order):
    """The rows that a message runs through on its way from its box to the channel from which it arrives."""
    begin, end = (2 * order[box.vat] + box.row for box in (source, target))
    if begin < end:
        return range(begin + 1, end)
    return range(end + 1, begin) if begin > end else ()


def place_boxes(boxes, arrows, lanes):
    """Gives the boxes their left edges, in the journal's order."""
    order = {vat: place for place, vat in enumerate(lanes)}
    ends, left = defaultdict(float), -STEP
    targets = defaultdict(list)
    for arrow in arrows:
        targets[arrow.source].append(boxes[arrow.target])
    for box in boxes.values():
        rows = {row for target in targets[box.event.name] for row in crossed_rows(box, target, order)}
        own = 2 * order[box.vat] + box.row
        free = [ends[own] + GAP if own in ends else 0, *(ends[row] + GAP / 2 - LEAVING["message"] for row in rows)]
        box.left = left = max(left + STEP, *free)
        ends[own] = box.right


def way_of(arrow, boxes, order):
    source, target = boxes[arrow.source], boxes[arrow.target]
    from_row, to_row = (order[source.vat], source.row), (order[target.vat], target.row)
    if from_row == to_row:
        is_below = target.row == BELOW
        return Way(arrow, source, target, (target.vat, target.row + is_below), is_below, is_below)
    is_upward = from_row > to_row
    return Way(arrow, source, target, (target.vat, target.row + is_upward), not is_upward, is_upward)


def spans(ways):
    """Of each channel, its rails with where each begins and ends."""
    found = defaultdict(dict)
    for way in ways:
        start, end = found[way.channel].get(way.rail, (way.start, way.end))
        found[way.channel][way.rail] = min(start, way.start), max(end, way.end)
    return found


def is_free(track, start, end):
    """Whether nothing on a track, which is in order, meets what begins and ends here."""
    place = bisect_left(track, (start, end))
    return (place == len(track) or end < track[place][0]) and (place == 0 or track[place - 1][1] < start)


def tracks(rails):
    """A track for each rail of a channel, as a number from 0, the short rails first. Rails meet on the last track alone."""
    numbers, taken = {}, []
    for rail, (start, end) in sorted(rails.items(), key=lambda it: (it[1][1] - it[1][0], it[1])):
        number = next((number for number, track in enumerate(taken) if is_free(track, start, end)), len(taken))
        if number == len(taken) < MOST_TRACKS:
            taken.append([])
        numbers[rail] = min(number, MOST_TRACKS - 1)
        insort(taken[numbers[rail]], (start, end))
    return numbers


def channel_height(numbers, is_between):
    if numbers:
        return 2 * TRACK_MARGIN + TRACK * max(numbers.values())
    return LEAST_BETWEEN if is_between else LEAST_OUTSIDE


def place_lane(vat, top, boxes, ways):
    """Gives the lane's boxes and ways their heights, and tells its lower edge. The first track is next to the row at which
    arrows arrive."""
    rails = spans(ways)
    for number in range(3):
        channel, upper = (vat, number), top
        numbers = tracks(rails.get(channel, {}))
        top += channel_height(numbers, number == 1)
        for way in ways:
            if way.channel == channel:
                step = TRACK_MARGIN + TRACK * numbers[way.rail]
                way.track = upper + step if number == 2 else top - step
        if number < 2:
            for box in boxes:
                if box.row == number:
                    box.top = top
            top += BOX_HEIGHT
    return top


def place_lanes(lanes, boxes, ways):
    """Gives everything its height, lane by lane."""
    in_lane, ways_in_lane, placed, top = defaultdict(list), defaultdict(list), [], 0
    for box in boxes.values():
        in_lane[box.vat].append(box)
    for way in ways:
        ways_in_lane[way.channel[0]].append(way)
    for vat in lanes:
        bottom = place_lane(vat, top, in_lane[vat], ways_in_lane[vat])
        placed.append(Lane(vat, top, bottom))
        top = bottom + LANE_GAP
    return placed


def layout(scene, is_folded=True, has_causes=False):
    """The picture of a scene: with arrivals, forwardings and what vats learn folded, or not; with arrows of causes, or not."""
    hosts = hosts_of(scene, is_folded)
    shown = [event for event in scene.events if hosts[event.name] == event.name] + scene.waiting
    boxes = {event.name: box_of(event, scene) for event in shown}
    for name, host in hosts.items():
        if name != host:
            boxes[host].folded.append(name)
    messages = message_arrows(scene.events, boxes) + arrows_to_waiting(scene.waiting, scene.events, boxes)
    place_boxes(boxes, messages, scene.lanes)
    order = {vat: place for place, vat in enumerate(scene.lanes)}
    causes = cause_arrows(scene.events, boxes) if has_causes else []
    ways = [way_of(arrow, boxes, order) for arrow in causes + messages]
    lanes = place_lanes(scene.lanes, boxes, ways)
    width = max((box.right for box in boxes.values()), default=0)
    return Layout(list(boxes.values()), ways, lanes, hosts, width, lanes[-1].bottom if lanes else 0)
