"""What tells one controller from another: the user, the address or the user agent that its requests come by."""
from collections import defaultdict

SHARED = 3      # so many foreign Gets between a leader's own renewals are more than lost renewals make
OWN_SECONDS = 1  # a leader's own Get comes just before its renewal


def program_of(agent):
    """A user agent without its last part, which each part of a process has for itself."""
    return agent.rpartition("/")[0] or agent


WAYS = {"user": lambda entry: entry.user, "address": lambda entry: entry.address, "agent": lambda entry: program_of(entry.agent)}
PLURALS = {"user": "users", "address": "addresses"}


def host_of(identity):
    """An identity is a host's name, `_` and a random part."""
    return identity.rsplit("_", 1)[0]


def choose(log, roles):
    """The first way by which all controllers can be told apart, what speaks against those before it, and nothing. Else no way's doubts are
    better than another's: the first way, nothing, and all of them."""
    against = []
    for way in WAYS:
        found = list(doubts(way, log, roles))
        if not found:
            return way, against, []
        against += found
    return next(iter(WAYS)), [], against


def doubts(way, log, roles):
    """Where two controllers can't be told apart: what one of them writes is then taken for the other's."""
    client_of = WAYS[way]
    elections = defaultdict(list)
    for entry in log.entries:
        if roles.is_election(entry) and roles.is_controller(entry):
            elections[client_of(entry)].append(entry)
    for client, asked in elections.items():
        yield from shared(way, client, asked, roles)
    actors = {client_of(it) for it in log.entries if roles.is_act(it) and roles.is_node_controller(it)}
    for client in sorted(actors - {client for client, asked in elections.items() if any(roles.holder_of(it) for it in asked)}):
        yield f"{way} {client} taints or evicts and never writes the Lease, so whose acts these are isn't known"


def shared(way, client, elections, roles):
    for other in PLURALS:
        found = sorted({WAYS[other](it) for it in elections})
        if other != way and len(found) > 1:
            yield f"{way} {client} comes from {len(found)} {PLURALS[other]}: {', '.join(found)}"
    hosts = sorted({host_of(roles.holder_of(it)) for it in elections if roles.holder_of(it)})
    if len(hosts) > 1:
        yield f"{way} {client} writes the Lease for {len(hosts)} hosts: {', '.join(hosts)}"
    if foreign_gets(elections, roles) >= SHARED:
        yield f"{way} {client} asks for the Lease while it leads: two controllers share it"


def foreign_gets(elections, roles):
    """Between two renewals a leader asks once, just before the second, or not at all; whoever else asks is another process."""
    renewer, gets, found = None, [], 0
    for entry in elections:
        holder = roles.holder_of(entry)
        if entry.verb == "get":
            gets.append(entry.ended)
        elif holder and entry.is_ok():
            is_own = bool(gets) and entry.received - gets[-1] < OWN_SECONDS
            found += holder == renewer and len(gets) > is_own
            renewer, gets = holder, []
    return found
