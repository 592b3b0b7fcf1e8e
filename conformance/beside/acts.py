"""What electors did while they led: each writes an annotation of a node twice a second, and looks at no Lease before that."""
from collections import defaultdict, namedtuple

ANNOTATION = "elector/act"
OF_IDENTITY = 6  # an act names its identity by so many last letters

# Seconds. `holder` is whose Lease was emptied and until when it acted, `following` who led next; `both` acts of the first stand beside it.
Emptied = namedtuple("Emptied", "at by holder following leads until both")


def acts_of(scenario):
    """The seconds of accepted acts, by identity."""
    found = defaultdict(list)
    for it in scenario.log.entries:
        word = ((it.request.get("metadata") or {}).get("annotations") or {}).get(ANNOTATION)
        if it.resource == "nodes" and it.verb == "patch" and it.is_ok() and word:
            found[word.split()[0]].append(it.ended - scenario.base)
    return found


def of_identity(acts, raw):
    return acts[raw[-OF_IDENTITY:]]


def emptied(scenario):
    """Each release by one that wasn't the holder any more."""
    acts, writes, found = acts_of(scenario), scenario.renewals(), []
    for before, write in zip(writes, writes[1:]):
        holder = before.spec().get("holderIdentity")
        if write.spec().get("holderIdentity") or not holder or before.user == write.user:
            continue
        following = next((it for it in writes if it.ended > write.ended and it.spec().get("holderIdentity")), None)
        found.append(emptied_of(scenario, acts, before, write, following))
    return found


def emptied_of(scenario, acts, before, write, following):
    holder, base = before.spec()["holderIdentity"], scenario.base
    at, leads = write.ended - base, None if following is None else following.ended - base
    if following is None or following.spec()["holderIdentity"] == holder:
        return Emptied(at, write.user, before.user, before.user, leads, None, [])
    both = [it for it in of_identity(acts, holder) if it >= leads]
    return Emptied(at, write.user, before.user, following.user, leads, both[-1] if both else None, both)


def last_act(scenario, user):
    """When an elector that ran once acted for the last time, None where it never did."""
    raw = next((it.spec()["holderIdentity"] for it in scenario.renewals() if it.user == user and it.spec().get("holderIdentity")), None)
    found = of_identity(acts_of(scenario), raw) if raw else []
    return found[-1] if found else None


def acts_beside(scenario, user, second):
    """Accepted acts of the first leader from that second on."""
    raw = next(it.spec()["holderIdentity"] for it in scenario.renewals() if it.user == user)
    return [it for it in of_identity(acts_of(scenario), raw) if it >= second]
