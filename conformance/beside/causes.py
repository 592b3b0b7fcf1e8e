"""Why a real control plane did something at another second than foretold: rules of docs/profile.md, by rules tried in order."""
import re
from collections import namedtuple

# `when`: "there" or "here" where the event is on that side alone, "sooner" or "later" there, "any". `after`: seconds from which on it is so.
Rule = namedtuple("Rule", "scenarios what when rows after", defaults=(0,))
OVER_SECONDS = 0.5
PASS_SECONDS = 5.5  # more than a pass and what its phase makes
RULES = [
    Rule("b b2 c g eb ed eg egz en6 ax", "lead", "any", ["jitter"]),
    # A leader releases the Lease of another, which is taken anew at once; who leads then moves all that follows.
    Rule("egz4", "lead", "any", ["emptied lease", "jitter"]),
    Rule("er18_3", "lead", "there", ["emptied lease"]),
    Rule("er18_1 er18_3 er18b_2 er18l_1 er23_1", "end", "later", ["releasing"]),
    # The API server took its time with the first write.
    Rule("er23_1", "lead", "later", ["store"]),
    Rule("n5", "lead", "later", ["store", "jitter"]),
    # The writes of pods that aren't ready hold up the pass, and with it all that follows from it.
    Rule("n1 n3", "taint", "later", ["request limit", "one pass later"]),
    Rule("n1", "evict", "later", ["request limit"]),
    Rule("n3", "evict n1-m.*", "later", ["due time", "request limit"]),
    Rule("n3", "evict n1-(none|slow)", "later", ["request limit"]),
    Rule("n3", "untaint", "there", ["new leader's taints"]),
    Rule("n3", "taint", "there", ["new leader's taints"]),
    Rule("n7", "taint", "sooner", ["passes slide", "one pass later"]),
    Rule("n7", "evict n1-s10", "later", ["due time"]),
    # Both leaders delete the same pods within some ms.
    Rule("c2 c3 c6", "evict .*-(none|s0)", "there", ["delete by versions"]),
    # Held were the election's calls alone, which no document can say, so what the old leader did to nodes isn't foretold.
    Rule("h", ".*", "any", ["messages"]),
    Rule("d2", "evict n2-(none|s0|slow)", "later", ["store"], 60),
    Rule("d2 f f2 h2", "(untaint|taint)", "there", ["new leader's taints"]),
    Rule("*", "evict .*-slow", "there", ["terminating"]),
    Rule("d2 d3", "evict .*-late30", "any", ["late pod"]),
    Rule("d3", "evict n1-s120", "any", ["first eviction time"]),
    Rule("e e2", "(taint|evict).*", "any", ["order of names", "queued once"], 360),
    Rule("e", "(taint|untaint|evict).*", "here", ["one pass later"]),
    Rule("*", "taint", "there", ["queued once"]),
    Rule("f f2 h2 d2", "evict n1-s(30|60|120)", "later", ["due time"]),
    Rule("d2 d3", "(taint|evict) n[12](-none|-s0|-slow)?$", "later", ["next pass"], -60),
    Rule("*", "untaint", "later", ["next pass"]),
    Rule("d4", "unknown", "any", ["first pass"]),
    Rule("*", "unknown", "sooner", ["passes slide"]),
    Rule("*", "unknown", "later", ["first pass"]),
    Rule("f", "(taint|evict).*", "sooner", ["first pass"]),
    Rule("*", "taint", "later", ["one pass later"]),
    Rule("*", "evict .*-(none|s0|slow)", "later", ["one pass later"]),
    Rule("*", "evict .*-s(30|60|120|300)", "later", ["due time"]),
]


def side_of(pair):
    if pair.foretold is None:
        return "there"
    if pair.observed is None:
        return "here"
    return "later" if pair.observed > pair.foretold else "sooner"


def is_over(pair):
    return None in (pair.observed, pair.foretold) or abs(pair.observed - pair.foretold) > OVER_SECONDS


def fits(rule, scenario, pair):
    second = pair.foretold if pair.observed is None else pair.observed
    in_time = second >= rule.after if rule.after >= 0 else second <= -rule.after
    return ((rule.scenarios == "*" or scenario in rule.scenarios.split()) and bool(re.match(rule.what, pair.what))
            and rule.when in ("any", side_of(pair)) and in_time)


def rows_of(scenario, pair):
    """The names of rows, none where no rule fits."""
    rows = next((rule.rows for rule in RULES if fits(rule, scenario, pair)), [])
    if rows == ["passes slide"] and pair.foretold - pair.observed > PASS_SECONDS:
        return rows + ["first pass"]
    return rows
