"""What is left of each share, and for how long: of the places of an owner, and of what a node's clients may do."""
from collections import deque
from dataclasses import dataclass, replace
from statistics import median_low
from typing import Optional

import tundelca
from ctl.terminal import lasting

LAST = 600.0  # seconds, by whose rate is told when a share ends
FIRST = 60.0  # seconds of looks before that is told
STEP = 5.0  # seconds between two looks that are kept for it


@dataclass(frozen=True)
class Share:
    """How much there is and how much of it is used; `owner` is whose, or where it is None the clients' of a `node`.

    It `ends` in so many seconds at the last ten minutes' rate; None where nothing was used, or looks are too few.
    """

    used: int
    share: int
    owner: Optional[int] = None
    node: str = ""
    ends: Optional[float] = None

    def left(self):
        return max(0, self.share - self.used)

    def lasts(self):
        """How much is left, and for how long where that is known."""
        return f"{self.left():,}" + ("" if self.ends is None else f", {lasting(self.ends)}")

    def told(self):
        """In words that nine tenths are used, or more than there is; else None."""
        if self.owner is None:
            said = tundelca.told_of_share(self.used, self.share, "their", f"clients of {self.node} have", "acts")
        else:
            said = tundelca.told_of_share(self.used, self.share, "its", f"node {self.owner} has")
        if said is None or self.ends is None or self.left() == 0:
            return said
        return f"{said}, for {lasting(self.ends)} at the last ten minutes' rate"


def shares_of(seen, most):
    """The shares that nodes tell: by its owner that of each that has any places, and by its door each node's clients'.

    `most` is how far each owner's stream is. A share is what most of them say, since few of them lie.
    """
    told = [one for one in seen if one.standing is not None and one.standing.shares is not None]
    rows = {one.node.door: Share(one.standing.acts, one.standing.acts_share, node=str(one)) for one in told}
    for owner, reach in enumerate(most):
        said = [one.standing.shares[owner] for one in told if owner < len(one.standing.shares)]
        used = max([reach, *(one.standing.published for one in told if one.me() == owner)])
        if said and (used or median_low(said)):
            rows[owner] = Share(used, median_low(said), owner)
    return rows


class Rates:
    """How fast shares are used, by looks of the last ten minutes."""

    def __init__(self):
        self.kept = deque()  # times, each with how much was used of each share

    def with_ends(self, rows, now):
        """These shares, which are seen at this time in seconds, each with when it ends."""
        if not self.kept or now - self.kept[-1][0] >= STEP:
            self.kept.append((now, {name: row.used for name, row in rows.items()}))
        while len(self.kept) > 1 and now - self.kept[1][0] >= LAST:
            self.kept.popleft()
        return {name: replace(row, ends=self.ends(name, row, now)) for name, row in rows.items()}

    def ends(self, name, row, now):
        """In how many seconds a share ends. What was used before a node in memory began again counts for nothing."""
        for time, used in self.kept:
            if used.get(name, row.used + 1) <= row.used:
                grown, seconds = row.used - used[name], now - time
                return row.left() * seconds / grown if grown and seconds >= FIRST else None
        return None
