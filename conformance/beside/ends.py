"""The end of a leader that is asked to stop, cut off, or deaf: when it acts no more, and when the store has its release."""
from .documents import LEADS, document
from .tally import EXACT, NEAR, differs, left, unnamed
from .upstream_rules import NO_RELEASES

BACK_MILLIS = 13_000  # after so long the requests of one that was cut off come through again
AFTER_MILLIS = 25_000
CALL_TIMEOUT = 5_000
TAKEN = left("another's write of the election Lease, which the script leaves alone")
ACTS_ON = differs("releasing", "it acts there until its release has ended")
LATER_FREE = differs("release", "released after a Get there")
REFUSED = differs("release", "refused here, where the stop meets a renewal under way, and accepted there")
FREE_AT_END = differs("releasing", "its release at its deadline comes through there")
AT_A_MESSAGE = left("a cut that comes with the sending of a request: the beat next to it decides whether that is lost")
RELEASE_BEATS = 2  # a release is sent at the beat after the deadline, and its call expires at the beat after its timeout


class End:
    """The document of a recorded end. What happens stands at the beat next to its instant, counted from the lead on. `releases` are the keys
    that say how a leader releases its Lease at the end of a term, where its document has any."""

    def __init__(self, case, more, releases=None, later=0):
        self.case, self.beat = case, case["one_way_ms"]
        self.at = LEADS + round(case["at_ms"] / self.beat) + later
        self.is_releasing = bool(releases) and case["release_on_cancel"]
        keys = {} if releases is None else releases if self.is_releasing else NO_RELEASES
        self.settings = {"beatMillis": self.beat, "callTimeoutMillis": CALL_TIMEOUT, "restartMillis": 86_400_000,
                         "endBeat": self.at + AFTER_MILLIS // self.beat, **more, **keys}

    def events(self):
        mode = self.case["mode"]
        yield {"beat": LEADS, "type": "start", "process": "b"}
        if mode == "cancel":
            yield {"beat": self.at, "type": "stop" if self.case["release_on_cancel"] else "crash", "process": "a"}
        else:
            yield {"beat": self.at, "type": "loss", "process": "a", "requests": mode != "deaf", "replies": mode == "deaf"}
        if mode == "cut_back":
            yield {"beat": self.at + BACK_MILLIS // self.beat, "type": "loss", "process": "a", "requests": False, "replies": False}

    def foretold(self, program):
        """In ms after what happened: the end of the acting, and the release; -1 where there is none."""
        made = document(self.settings, (), list(self.events()), [{"name": "a"}, {"name": "b", "up": False}])
        own = [(beat, deed) for beat, actor, deed in program.replay(made) if actor == "a_1" and beat >= self.at]
        stop = next((beat for beat, deed in own if deed[0] in ("end", "stop", "crash")), None)
        return self.millis(stop), self.millis(self.freed(own, stop))

    def freed(self, own, stop):
        """The beat at which the Lease is emptied: by the first update that is accepted after a stop, or, at a deadline, after the cut."""
        after = stop if self.case["mode"] == "cancel" else self.at if self.is_releasing else None
        return next((beat for beat, deed in own if after is not None and beat > after and is_accepted_renewal(deed)), None)

    def millis(self, beat):
        return -1 if beat is None else (beat - self.at) * self.beat


def is_accepted_renewal(deed):
    return deed[:2] == ["update", "election"] and deed[2].startswith("v=")


def is_near(here, there, beat):
    return (here < 0) == (there < 0) and abs(here - there) <= beat


def ending(case, program, more, releases=None):
    end = End(case, more, releases)
    stop, free = end.foretold(program)
    there = case["work_ms"] if case["mode"] == "cancel" else case["stop_ms"]
    if end.is_releasing and not is_near(stop, there, case["one_way_ms"] * RELEASE_BEATS) and is_at_message(case, program, more, releases, there):
        return [AT_A_MESSAGE] * 2
    return [stop_verdict(case, stop, there, RELEASE_BEATS if end.is_releasing else 1), free_verdict(case, free)]


def is_at_message(case, program, more, releases, there):
    """Whether the end comes out where the cut stands a beat sooner or later."""
    around = (End(case, more, releases, later).foretold(program)[0] for later in (-1, 1))
    return any(is_near(it, there, case["one_way_ms"] * (RELEASE_BEATS + 1)) for it in around)


def stop_verdict(case, here, there, beats):
    if here == there:
        return EXACT
    if is_near(here, there, case["one_way_ms"] * beats):
        return NEAR
    return ACTS_ON if case["release_on_cancel"] and there > here else unnamed("another end of a term")


def free_verdict(case, here):
    there = case["free_ms"]
    if is_near(here, there, case["one_way_ms"]):
        return EXACT if here == there else NEAR
    if case["mode"] == "cancel":
        return LATER_FREE if 0 <= here < there else REFUSED if here < 0 else unnamed("no release there")
    return FREE_AT_END if case["release_on_cancel"] else unnamed("another release")


def election_ends(cases, program, more=(), releases=None):
    def judged(case):
        return [TAKEN] * 2 if case["mode"] == "taken" else ending(case, program, dict(more), releases)
    return [it for verdicts in program.each(judged, cases) for it in verdicts]
