"""The picture as the page gets it: places and paths, as lists without names, since there may be many."""
from picture.layout import WAITING
from picture.paths import dots, head, shaft
from picture.svg import told_of


def event_row(box, lanes):
    event = box.event
    # What is still to come has no place in the journal.
    position = None if event.kind in WAITING else event.position
    return [event.name, position, event.is_live, event.kind, lanes[box.vat], round(box.left, 1), round(box.top, 1),
            round(box.width, 1), box.caption, box.folded]


def arrow_row(way):
    arrow, points = way.arrow, way.points
    across = [x for x, _ in points]
    return [arrow.kind, arrow.source, arrow.target, arrow.is_live, round(min(across), 1), round(max(across), 1), shaft(points),
            head(points[-1], points[-2]), dots(points, len(arrow.folded)), told_of(way)]


def drawn(plan):
    """The lanes, events and arrows of a picture."""
    lanes = {lane.vat: place for place, lane in enumerate(plan.lanes)}
    return {
        "width": round(plan.width, 1), "height": round(plan.height, 1),
        "lanes": [[lane.vat, round(lane.top, 1), round(lane.bottom, 1)] for lane in plan.lanes],
        "events": [event_row(box, lanes) for box in plan.boxes], "arrows": [arrow_row(way) for way in plan.ways],
        "hosts": {name: host for name, host in plan.hosts.items() if name != host},
    }
