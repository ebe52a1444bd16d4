"""Whether frames came of which no capture says so, as far as later frames of the receiver show it."""
from __future__ import annotations

from typing import Dict, Iterable

from .asked import Selection
from .pairing import Sent
from .story import Story


def shown(sent: Iterable[Sent]) -> Dict[int, bool]:
    """What later messages show of those of which no capture says whether they came, by their places: that each came, or that it did not
    come or a state of it was not kept. What is not shown is left out."""
    story = Story(Selection(), keeps_all=False, hears=lambda node: True)
    frames = [story.take(it)[0] for it in sent]
    return {place: it.shown for place, it in enumerate(frames) if it.arrived is None and it.shown is not None}
