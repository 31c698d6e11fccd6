"""The oracle's `calls`, asked one call at a time while calls are being made."""

import subprocess

from lent_calls import WRITTEN
from listing import RELEASE

AMPLE = {"records": 600, "side": 2100, "tops": 600, "range": 300, "terms": 300}
LITTLE = {"records": 6, "side": 6, "tops": 4, "range": 4, "terms": 1}


class Asker:
    def __init__(self):
        self.run = subprocess.Popen([RELEASE / "calls"], stdin=subprocess.PIPE, stdout=subprocess.PIPE, text=True)

    def answer(self, made):
        self.run.stdin.write(made.line() + "\n")
        self.run.stdin.flush()
        return self.run.stdout.readline().rstrip("\n")

    def close(self):
        self.run.stdin.close()
        self.run.wait()

    def growth(self, made):
        """How many entries the call adds to each list, room being no matter; None if it is refused."""
        roomy = made.copy().lend(AMPLE)
        answer = self.answer(roomy)
        if not answer.startswith("0 "):
            return None
        after = roomy.after(answer)
        return {count: getattr(after, count) - getattr(made, count) for count in WRITTEN.values()}

    def fitted(self, made, **more):
        """The call with just the room that it needs, and so many entries more or fewer in the lists that are named. A
        call that is refused gets a little room, so that what comes before the cause has some."""
        growth = self.growth(made) or LITTLE
        rooms = {count: growth[count] + more.get(count, 0) for count in growth}
        return made.copy().lend({count: max(room, -getattr(made, count)) for count, room in rooms.items()})
