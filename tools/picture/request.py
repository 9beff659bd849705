"""One submission of a request, as far as it has come, and what is told of it."""

from collections import deque
from dataclasses import dataclass, field

COMMIT_ENDS = ("committed", "conflict")


@dataclass(frozen=True)
class Said:
    at: float       # the event, or a moment before it
    kind: str       # several of one kind may be told in one
    text: str
    event: int = 0  # of what is told of a loss; 0: none


@dataclass
class Request:
    client: int
    place: int          # in the client's script
    again: int          # how often it was submitted before
    script: dict
    report: dict
    first: int          # the event of its first step
    phase: object
    held: int = 0       # the event from which on it holds a slot of the pool, or tells that it got none
    last: int = 0       # the event that ended it
    connection: object = None
    shown: int = 0      # calls
    outcomes: int = 0   # taken
    begun: bool = False         # whether a Begin was sent
    asked: tuple = ()           # the identifier whose outcome is to be asked
    replaying: deque = field(default_factory=deque)     # the calls that are still to be replayed
    tries: int = 0              # to connect, that failed in a row
    calls: dict = field(default_factory=dict)           # a span for each submitted call
    failed: bool = False
    losses: int = 0
    said: list = field(default_factory=list)            # for its sentence

    def tell(self, at, kind, text, event=0):
        self.said.append(Said(at, kind, text, event))

    def fails(self, *kinds):
        return bool(self.report["failed"]) and self.report["failed"][0] in kinds

    def call(self, place):
        return self.script["calls"][place]

    def is_shown(self):
        return self.shown == len(self.script["calls"])

    def kept_from(self):
        """The first call that a replay runs: the one after the last commit or conflict that was shown."""
        shown = self.report["calls"][:self.shown]
        return max((place for place, call in enumerate(shown, 1) if call[0][-1] in COMMIT_ENDS), default=0)
