"""One client's steps, by the notes of its `go` events and the replies that they take.

Which frame a step sends follows from what it took; that it sent any, and how many, the note tells. Answers are those
of the report, and so are errors: what a driver decides is not decided here again.
"""

from collections import deque

from . import words
from .files import need
from .request import Request

BY_OUTCOME = ("disabled", "incomplete", "replays", "replaytimeout")
SHORT = {"committed": "commit", "conflict": "confl."}
QUIET = {"none": "finds nothing to take yet", "early": "may not try to connect again yet (delay)",
         "wait": "waits for a place in the pool"}


def shown_labels(place, answers):
    brief = words.brief_answers(answers)
    short = "refused" if "refused" in brief else SHORT.get(brief, brief)
    return f"{place}: {brief}", f"{place}: {short}", str(place)


class Client:
    def __init__(self, run, number, requests, submissions, reports, keeps_settings):
        self.run, self.number, self.lane = run, number, ("client", number)
        self.requests, self.coming = requests, deque(zip(submissions, reports))
        self.keeps_settings, self.request = keeps_settings, None

    def go(self, word, *rest):
        if word == "idle":
            need(not self.request and not self.coming, f"client {self.number} is idle before its requests have ended")
            return f"client {self.number} has nothing left to do"
        prefix = "" if self.request else self.begin()
        if word in QUIET and not (word == "wait" and self.waits_no_longer()):
            text = QUIET[word]
        else:
            self.request.held = self.request.held or self.run.number
            text = getattr(self, "go_" + word)(*rest)
        return f"client {self.number}{prefix} {text}"

    def begin(self):
        need(self.coming, f"client {self.number} goes on at event {self.run.number}, its requests have ended")
        (place, again), report = self.coming.popleft()
        phase = self.run.span("waiting", self.lane)
        self.request = Request(self.number, place, again, self.requests[place], report, self.run.number, phase)
        self.run.begin(self.request)
        return f", request {place + 1}{' again' if again else ''}:"

    def phase(self, kind):
        phase = self.request.phase
        if phase.first == self.run.number:
            phase.kind = kind
        elif phase.kind != kind:
            phase.last = self.run.number
            self.request.phase = self.run.span(kind, self.lane)

    # Steps without a connection.

    def waits_no_longer(self):
        return self.request.fails("poolwait") and self.request.report["failed"][2] <= self.run.tick

    def go_wait(self):
        return self.fail("waits no longer")

    def go_down(self):
        request, text = self.request, "cannot connect, the server is down"
        request.tries += 1
        if request.tries == 1:
            request.tell(self.run.number, "down", "found the server down at {}", self.run.number)
        if request.fails("retries") and request.report["failed"][1] == request.tries:
            return self.fail(text)
        self.run.mark(self.lane, "cross", ("server down", "down"), "bad")
        return text

    def go_open(self, number, _):
        connection = self.run.open(self.number)
        need(number == connection.number, f"event {self.run.number} opens connection {number} out of turn")
        self.request.connection, self.request.tries = connection, 0
        self.run.mark(self.lane, "ring", (f"opens conn {number}", f"conn {number}"))
        self.run.send_up(connection, self.number, "connect")
        return f"opens connection {number}"

    def go_lent(self, number, _):
        connection = self.run.connections[number - 1]
        need(connection.open and not connection.held, f"event {self.run.number} lends connection {number}, which is "
             "not idle")
        self.request.connection, connection.held, connection.client = connection, True, self.number
        self.run.whose(self.number, connection)
        self.run.mark(self.lane, "ring", (f"lent conn {number}", f"conn {number}"))
        return f"is lent connection {number} by the pool; {self.send(['begin', 'call'])}"

    # Steps with one.

    def go_lost(self, number):
        connection = self.request.connection
        need(connection.number == number and not connection.open and not connection.down,
             f"event {self.run.number} loses connection {number}, which was not lost")
        self.run.mark(self.lane, "cross", (f"conn {number} lost", "lost"), "bad")
        return f"finds connection {number} lost{self.lose()}"

    def lose(self):
        request, connection = self.request, self.request.connection
        event, how = connection.end
        if request.begun and not request.asked:
            request.asked = connection.told
        request.connection, request.losses = None, request.losses + 1
        request.tell(event - 0.5, "lost", f"lost connection {connection.number} at {{}} ({how})", event)
        self.phase("recovering")
        return f" ({how} at event {event})"

    def go_took(self, number, sent):
        request, connection = self.request, self.request.connection
        need(connection.number == number and connection.down,
             f"event {self.run.number} takes a frame of connection {number}, where none is")
        frame = self.run.take(connection.down)
        self.run.whose(self.number, connection)
        text = getattr(self, "took_" + frame.name)(request, frame.content)
        if request.failed:
            return self.fail(text)
        frames = self.frames_after(frame.name, sent) if connection.open else []
        need(len(frames) == sent, f"event {self.run.number} notes {sent} frames sent after {frame.words}")
        sends = self.send(frames)
        text += f"; {sends}" if sends else ""
        if request.is_shown():
            return text + self.finish()
        if not connection.open:
            text += f"; then finds connection {number} lost{self.lose()}"
        return text

    def frames_after(self, name, sent):
        if self.request.is_shown():
            return ["end", "close"][:sent]
        if name == "hello" and self.request.asked:
            return ["outcome"]
        return ["call"] if name == "reply" else ["begin", "call"]

    def took_hello(self, request, item):
        connection, session = request.connection, words.session(item[2])
        connection.told = (*item[2], 0)
        if request.asked and connection.open:
            asked = words.identifier(request.asked)
            self.run.mark(self.lane, "hexagon", (f"asks {asked}", "asks"), "ask")
        else:
            self.run.mark(self.lane, "ring", (f"session {session}", session))
        return f"has session {session}"

    def took_outcomeis(self, request, item):
        asked, committed, completed = words.identifier(item[3]), item[4] == "committed", item[5:] == [True]
        request.outcomes, request.asked = request.outcomes + 1, ()
        place = request.shown
        if completed:
            self.show(["committed"], [])
        request.failed = request.fails(*BY_OUTCOME) and request.outcomes == len(request.report["outcomes"])
        need(request.failed or completed or not committed, f"no error follows the outcome of event {self.run.number}")
        text = f"learns: {asked} is {'committed' if committed else 'not committed'}"
        request.tell(self.run.number, "outcome", f"the outcome of {asked} said " + (
            "not committed" if not committed else f"committed, so call {place} was shown as committed"
            if completed else "committed, in the middle of a call"))
        if completed:
            text += f"; call {place} is shown as committed"
        if not request.failed:
            text += self.go_on(request, committed, place)
        return text

    def go_on(self, request, committed, place):
        if committed:
            self.run.mark(self.lane, "check", shown_labels(place, ["committed"]), "ok")
            return ""
        request.replaying = deque(range(request.kept_from(), place))
        self.phase("replaying")
        self.run.mark(self.lane, "hexagon", ("not committed", "no"), "ask")
        return ", so a replay is safe"

    def took_outcomerefused(self, request, item):
        request.failed = True
        return f"asks for {words.identifier(item[3])}, whose outcome is no longer kept"

    def took_reply(self, request, item):
        _, _, _, mark, _, answers, draws = item
        if mark:
            return self.compare(request, answers)
        place, last = request.shown, answers[-1]
        refused = isinstance(last, dict) and "refused" in last
        self.run.mark(self.lane, "check", shown_labels(place, answers), "warn" if refused else "ok")
        self.show(answers, draws)
        request.connection.told = tuple(request.report["calls"][place][2])
        return f"is shown call {place}: {words.answers(answers)}"

    def compare(self, request, answers):
        place = request.replaying.popleft()
        if answers != request.report["calls"][place][0]:
            request.failed = True
            return f"gets another answer to call {place} ({words.answers(answers)})"
        self.run.mark(self.lane, "diamond", (f"{place}: same", str(place)), "replay")
        if not request.replaying:
            first = request.kept_from()
            which = f"call {place} was" if first == place else f"calls {first} to {place} were"
            request.tell(self.run.number, "replayed", f"{which} replayed with the same answer{'s' * (first != place)}")
        return f"finds the same answer to the replayed call {place}"

    def took_blocked(self, request, item):
        self.run.mark(self.lane, "stop", (item[0],), "bad")
        return f"is told that its call was {item[0]}"

    took_refused = took_blocked

    def show(self, answers, draws):
        request, place = self.request, self.request.shown
        shown = request.report["calls"][place:place + 1]
        need(shown and shown[0][:2] == [answers, draws], f"call {place} of client {self.number}, shown at event "
             f"{self.run.number}, is another in its report")
        request.shown += 1
        request.calls[place].last = self.run.number

    # What is sent.

    def send(self, names):
        said = [getattr(self, "send_" + name)(self.request.connection) for name in names]
        return ", ".join(filter(None, said))

    def send_begin(self, connection):
        request, settings = self.request, dict(self.request.script.get("settings", []))
        if self.keeps_settings:
            before = request.script["calls"][:request.kept_from()]
            settings.update(call[0][1:] for call in before if call[0][0] == "set")
        request.begun = True
        self.run.send_up(connection, self.number, "begin", settings=settings.items())
        return ""

    def send_call(self, connection):
        request = self.request
        replay = bool(request.replaying)
        place = request.replaying[0] if replay else self.submit()
        call = request.call(place)
        self.run.send_up(connection, self.number, "call", f"call {place}", call, call=place,
                         kept=request.report["calls"][place][1] if replay else None)
        return f"{'replays' if replay else 'sends'} call {place} ({words.brief_call(call)})"

    def submit(self):
        """The current call, which goes out without the mark of a replay."""
        request, place = self.request, self.request.shown
        self.phase("live")
        if place in request.calls:
            request.tell(self.run.number, "again", f"call {place} was sent again")
        else:
            request.calls[place] = self.run.span("call", self.lane, str(place))
        return place

    def send_outcome(self, connection):
        asked = self.request.asked
        self.run.send_up(connection, self.number, "outcome", f"outcome of {words.identifier(asked)}?", list(asked))
        return f"asks: was {words.identifier(asked)} committed?"

    def send_end(self, connection):
        connection.held = False
        self.run.send_up(connection, self.number, "end")
        return ""

    def send_close(self, connection):
        self.run.send_up(connection, self.number, "close")
        self.run.end(connection, "closed")
        return "closes the connection, which drains"

    # The end of a request.

    def finish(self):
        request, failed = self.request, self.request.report["failed"]
        need(bool(failed) == request.failed and len(request.report["calls"]) == request.shown
             and len(request.report["outcomes"]) == request.outcomes,
             f"request {request.place + 1} of client {self.number} ended at event {self.run.number} otherwise than "
             "its report says")
        for span in (request.phase, *request.calls.values()):
            span.last = span.last or self.run.number
        request.last, self.request = self.run.number, None
        return f"; request {request.place + 1} is done"

    def fail(self, text):
        request, failed, connection = self.request, self.request.report["failed"], self.request.connection
        need(failed, f"client {self.number} fails at event {self.run.number}, and not in its report")
        request.failed = True
        self.run.mark(self.lane, "fail", ("ERROR " + failed[0], "ERROR"), "bad", words.failure(failed))
        if connection and connection.open:
            self.send_close(connection)
        self.finish()
        return self.run.bad(f"{text}. ERROR shown, {failed[0]}: {words.failure(failed)}")
