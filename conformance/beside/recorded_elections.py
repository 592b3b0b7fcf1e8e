"""The attempts of each process as a log has them, said by a document: when a candidate asks, by its waits, and how long a leader's renewals take, by delays.

A candidate's waits are drawn at random there, so they can't be foretold; who leads and from when on follows from them. Each start of a process is a
controller of its own, since its waits are its own ones."""
import re
from collections import namedtuple

RETRY_MILLIS = 2000
LEAST, GREATEST = 1000, 2200
MOST_DELAY = 6000
GET, RENEWAL = 2, 4  # beats of a Get, and of a Get and an Update
SLOW_BEATS = 50  # a Get of a candidate that takes longer is a delay of the document
# An attempt's begin and end in seconds, and whether it took or renewed the Lease.
Attempt = namedtuple("Attempt", "began ended is_good")


def attempts(entries, is_leading):
    """Each begins with a Get, or with an Update of one who renews without it."""
    groups = []
    for it in entries:
        is_first = it.verb == "get" or not groups or is_leading and groups[-1][-1].verb == "update"
        if is_first:
            groups.append([])
        groups[-1].append(it)
    return [Attempt(it[0].received, it[-1].ended, it[-1].verb in ("create", "update") and it[-1].is_ok()) for it in groups]


class Start:
    """One start of a process: the controller that stands for it, and the beats from and up to which it runs."""

    def __init__(self, scenario, user, number, begins, ends):
        self.name = user if number == 1 else f"{user}-{number}"
        self.scenario, self.user, self.begins, self.ends = scenario, user, begins, ends
        self.waits, self.delays, self.is_slow = [], [], False
        self.millis = scenario.settings["beatMillis"]
        self.retry = {**scenario.settings, **scenario.own.get(user, {})}.get("retryPeriodMillis", RETRY_MILLIS)
        self.expires = scenario.settings["callTimeoutMillis"] // self.millis + 1
        self.fast = scenario.is_elector()
        self.say(attempts([it for it in scenario.elections if it.user == user and begins <= self.beat(it.received) < ends], self.fast))

    def beat(self, second):
        return max(0, round((second - self.scenario.base) * 1000 / self.millis))

    def say(self, all_attempts):
        """`now` is the beat at which the document's next attempt begins."""
        now, is_leader = self.begins, False
        until = self.quiet_from()
        for one, following in zip(all_attempts, all_attempts[1:]):
            if one.began >= until:
                break
            if is_leader:
                now = self.renewed(now, self.beat(following.began))
            elif one.is_good:
                now, is_leader = now + RENEWAL, True
            else:
                now = self.waited(now, max(GET, self.beat(one.ended) - self.beat(one.began)), self.beat(following.began))
            if now is None:
                break

    def quiet_from(self):
        """Where the scenario holds calls, what is after that is said by other means."""
        held = [it["at"] for it in self.scenario.of("proxy") if f"kcm-{it['leader']}" == self.user]
        return self.scenario.base + min([*held, float("inf")])

    def waited(self, now, takes, following):
        takes = min(self.delayed(now, takes, GET), self.expires) if takes > SLOW_BEATS or self.is_slow else GET
        length = (following - now - takes) * self.millis * LEAST
        wait = min(GREATEST, max(LEAST, round(length / self.retry)))
        self.waits.append(wait)
        return now + takes + -(-self.retry * wait // (LEAST * self.millis))

    def renewed(self, now, following):
        messages = GET if self.fast else RENEWAL
        between = -(-self.retry // self.millis)
        takes = following - now - between
        if takes > MOST_DELAY // 2:  # a renewal that fails, or one that a pause interrupts
            return None
        return now + self.delayed(now, max(messages, takes), messages) + between

    def delayed(self, now, takes, messages):
        """From that beat on so many messages take so long together, as near as equal delays come; how long they take then."""
        pairs = messages // 2
        request = min(MOST_DELAY, max(1, round(takes / pairs) - 1))
        if request > 1 or self.is_slow:
            self.delays.append({"beat": now, "type": "delay", "process": self.name, "requestBeats": request, "replyBeats": 1})
        self.is_slow = request > 1
        return pairs * (request + 1)


def starts_of(made, scenario):
    """By user, its starts."""
    found = {}
    for it in made["controllers"]:
        begins = [event["beat"] for event in made["events"] if event["type"] == "start" and event["process"] == it["name"]]
        until = [*begins[1:], made["settings"]["endBeat"] + 1]
        found[it["name"]] = [Start(scenario, it["name"], at + 1, *both) for at, both in enumerate(zip(begins, until))]
    return found


def with_elections(made, scenario):
    """The document with these attempts."""
    found = starts_of(made, scenario)
    controllers = [dict(it, name=start.name, **({"waits": start.waits} if start.waits else {}))
                   for it in made["controllers"] for start in found[it["name"]]]
    events = [dict(it, process=at_beat(found[it["process"]], it["beat"])) if it.get("process") in found else it for it in made["events"]]
    delays = [it for starts in found.values() for start in starts for it in start.delays if it["beat"] <= made["settings"]["endBeat"]]
    return dict(made, controllers=controllers, events=sorted([*delays, *events], key=lambda it: it["beat"]))


def at_beat(starts, beat):
    """The name of the process that runs then."""
    return next((it.name for it in reversed(starts) if it.begins <= beat), starts[0].name)


def user_of(identity):
    """The user of a trace's identity."""
    return re.sub(r"(-\d+)?_\d+$", "", identity)
