"""The colours of the picture, on a light ground and on a dark one. The page has the same in its style sheet."""
from dataclasses import dataclass


@dataclass(frozen=True)
class Look:
    """The line and the fill of a box by its kind, the colours of arrows, and all the rest."""

    ground: str
    lane: str
    label: str
    border: str
    ink: str
    faint: str
    cone: str
    cone_fill: str
    message: str
    cause: str
    boxes: dict

    def box(self, kind):
        if kind in ("waits", "flies"):
            return self.message, self.lane
        return self.boxes.get(kind, self.boxes["move"])


LIGHT = Look(
    ground="#f5f6f8", lane="#ffffff", label="#eceff3", border="#dbe0e6", ink="#1f252d", faint="#5b6572",
    cone="#b85c00", cone_fill="#ffe6c7", message="#2f6db5", cause="#8b94a1",
    boxes={
        "birth": ("#4a7d3c", "#e6f2e0"), "ask": ("#2f6db5", "#e3eefa"), "turn": ("#6a559f", "#edeaf8"),
        "move": ("#2c7676", "#dff0ef"),
    },
)
DARK = Look(
    ground="#14171c", lane="#1b1f26", label="#232831", border="#2f3641", ink="#e7eaef", faint="#9aa4b2",
    cone="#f0a04b", cone_fill="#4a3313", message="#6ba7ea", cause="#76808e",
    boxes={
        "birth": ("#7fb56d", "#22321d"), "ask": ("#6ba7ea", "#1c2f45"), "turn": ("#a594de", "#2b2642"),
        "move": ("#64b5b3", "#173130"),
    },
)
LOOKS = {"light": LIGHT, "dark": DARK}
