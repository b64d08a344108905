"""Lines along points, with round corners, as SVG writes them."""

CORNER = 7
HEAD = 8


def number(value):
    return f"{value:.1f}".removesuffix(".0")


def toward(here, there, distance):
    """The point at this distance from here on the way there, which is level or upright."""
    x, y = there[0] - here[0], there[1] - here[1]
    length = abs(x) + abs(y)
    part = min(1, distance / length) if length else 0
    return here[0] + x * part, here[1] + y * part


def rounded(points):
    """A path along these points, with round corners."""
    steps = ["M {} {}".format(*map(number, points[0]))]
    for before, corner, after in zip(points, points[1:], points[2:]):
        # Two corners share the part between them.
        radius = min(CORNER, *(sum(abs(a - b) for a, b in zip(corner, end)) / 2 for end in (before, after)))
        begin, end = toward(corner, before, radius), toward(corner, after, radius)
        steps.append("L {} {} Q {} {} {} {}".format(*map(number, (*begin, *corner, *end))))
    return " ".join([*steps, "L {} {}".format(*map(number, points[-1]))])


def shaft(points):
    """The line of an arrow along these points, which ends within its head."""
    return rounded([*points[:-1], toward(points[-1], points[-2], HEAD - 2)])


def head(tip, tail):
    """The corners of an arrow's head at its tip."""
    base = toward(tip, tail, HEAD)
    # A quarter turn of the way from the base to the tip.
    across, along = (tip[1] - base[1]) * 0.45, (tip[0] - base[0]) * 0.45
    corners = [tip, (base[0] + across, base[1] - along), (base[0] - across, base[1] + along)]
    return " ".join(",".join(map(number, corner)) for corner in corners)


def dots(points, count):
    """Where so many dots stand on an arrow, one behind another from its head."""
    (left, top), (right, _) = points[1], points[2]
    return [(max(left, right - CORNER - 2 - 8 * place), top) for place in range(count)]
