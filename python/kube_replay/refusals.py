"""What the codes of refusals mean, as docs/document.md#refusals, docs/pods.md and docs/trace.md#checking-a-trace have them."""
from __future__ import annotations

REFUSALS: dict[int, str] = {
    1: 'not JSON, not UTF-8, ends early, or nests deeper than 127',
    2: 'not an object; or another version',
    3: 'an unknown key',
    4: 'a required key is missing',
    5: 'the wrong JSON type, or no whole number',
    6: 'out of its range, or no such word',
    7: 'a rule between timings, between the two rates, between two pauses of a process, or between two stalls',
    8: 'an event names no process of the document, or one of the wrong sort',
    9: 'an event is before an earlier one, or after `endBeat`',
    10: 'in a manifest: the wrong JSON type',
    11: 'not a `v1` `List`; an item without texts `apiVersion` and `kind`; a `put` of another kind',
    12: 'a bad name',
    13: 'a bad time',
    14: 'a bad number',
    15: 'a bad effect',
    16: 'a bad operator',
    17: "a toleration's own rule",
    18: 'a bad status of Ready',
    19: 'two taints of one key and effect',
    20: 'a bad region or zone',
    21: 'a taint without a key',
    30: 'an event on the election Lease',
    31: 'the same name, or the same object, twice',
    32: 'too many',
    33: 'more than 16,777,216 bytes',
    34: "of `state` alone: a beat after the document's end",
    40: 'a line that is of no form, goes back in time or lies after the last beat, or whose line feed is missing',
    41: 'two identities that lead at one beat: the line is the later `lead`',
    42: "an acting line of an identity that doesn't lead",
    43: 'a `taint` line too soon',
    99: 'a key of version 4 that is known and not built yet',
}


def meaning_of(code: int) -> str:
    """What a code means, in words."""
    return REFUSALS.get(code, 'a code that this version of the package does not know')
