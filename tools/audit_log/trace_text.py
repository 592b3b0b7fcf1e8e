"""The text of a trace from events with exact seconds."""
ENDS = ("crash", "end", "stop")
ACTING = ("unknown", "mode", "zone", "taint", "swap", "untaint", "evict", "lead")


def lines_of(events, begin, end, beat_millis):
    """A term goes to the beat before its end, so an end in the beat of its last act is told one beat later, but for one that leads anew in it."""
    def beat(second):
        return max(0, int((second - begin) * 1000 / beat_millis))

    acted, lines = {}, []
    leads = {(it.actor, beat(it.second)): it.second for it in events if it.text.startswith("lead ")}
    for event in sorted(events, key=lambda it: it.second):
        word, at = event.text.split()[0], beat(event.second)
        if word in ACTING:
            acted[event.actor] = at
        is_late = event.text in ENDS and acted.get(event.actor) == at and leads.get((event.actor, at), 0) <= event.second
        lines.append((at + is_late, f"{event.actor} {event.text}"))
    yield f"trace 1 beat={beat_millis} end={beat(end) + 2} premise=no"
    yield from (f"{at} {text}" for at, text in sorted(lines, key=lambda it: it[0]))
