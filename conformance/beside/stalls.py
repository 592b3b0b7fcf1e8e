"""What a leader did that was stopped and went on: by the driver's notes and the audit log alone, and what its document foretells."""
from collections import namedtuple

MOST_SECONDS = 0.2  # by so much what is foretold of the old leader may differ where the rival's takeover is fitted

# Seconds; None where it didn't happen. `writes` are accepted writes of nodes and pods while both acted.
Stall = namedtuple("Stall", "lease seconds rival woke first_write exit both writes")
# The same times as a trace has them.
Foretold = namedtuple("Foretold", "rival first_write exit both")


def is_write(entry):
    return entry.verb in ("create", "update", "patch", "delete")


def stall_of(scenario):
    stop, go = scenario.signals("SIGSTOP")[0], scenario.signals("SIGCONT")[0]
    user, base = f"kcm-{stop['who']}", scenario.base
    rival = next((it.ended - base for it in scenario.renewals() if it.user != user), None)
    wrote = [it for it in scenario.log.entries if it.user == user and is_write(it) and it.received - base > go["at"]]
    exits = [it["at"] for it in scenario.of("kcm-exit") if it["who"] == stop["who"]]
    left = exits[0] if exits else None
    both = left - go["at"] if rival is not None and left is not None else None
    writes = [it for it in wrote if it.resource in ("nodes", "pods") and it.is_ok()] if both is not None else []
    lease = scenario.settings.get("leaseDurationSeconds", 15)
    return Stall(lease, go["at"] - stop["at"], rival, go["at"], wrote[0].ended - base - go["at"], left, both, len(writes))


def foretold_of(scenario, trace):
    """`trace` has seconds, actors and words. The old leader's first line from its waking on tells when it acts again."""
    go, millis = scenario.signals("SIGCONT")[0], scenario.settings["beatMillis"]
    woke = round(go["at"] * 1000 / millis) * millis / 1000
    user = f"kcm-{scenario.signals('SIGSTOP')[0]['who']}"
    own = [(second, deed[0]) for second, actor, deed in trace if actor.startswith(user) and second >= woke]
    rival = next((second for second, actor, deed in trace if deed[0] == "lead" and not actor.startswith(user)), None)
    left = next((second for second, deed in own if deed == "end"), None)
    both = left - max(woke, rival) if rival is not None and left is not None else None
    first_write = None if scenario.is_elector() else own[0][0] - woke  # what an elector writes is in no document
    return Foretold(rival, first_write, left, both)


def faults(name, there, here):
    """Times of a fitted scenario that are foretold otherwise than they were seen."""
    for word in Foretold._fields:
        seen, told = getattr(there, word), getattr(here, word)
        if word == "first_write" and told is None:
            continue
        if seen is None or told is None or abs(seen - told) > MOST_SECONDS:
            yield f"scenario {name}: {word.replace('_', ' ')} of the stopped leader was seen at {seen} and is foretold at {told}"
