"""The Get with which a leader's release begins at its deadline, where a proxy held it: it comes through when the log has it."""


def with_look(made, scenario, program):
    """Nothing changes where no Get of the leader came through any more."""
    user, millis = f"kcm-{scenario.of('proxy')[0]['leader']}", made["settings"]["beatMillis"]
    sent, opened = deadline_of(made, user, program), [it["at"] for it in scenario.of("proxy-open")]
    arrived = next((it.received - scenario.base for it in scenario.elections
                    if opened and it.user == user and it.verb == "get" and it.ended - scenario.base > opened[0]), None)
    if sent is None or arrived is None:
        return made
    beats = max(1, round(arrived * 1000 / millis) - sent)
    freed = {"type": "loss", "process": user, "requests": False, "replies": False}
    events = [{"beat": sent, **freed}, {"beat": sent, **delay(user, beats)}, {"beat": sent + 1, **delay(user, 1)}]
    return dict(made, events=sorted([*made["events"], *events], key=lambda it: it["beat"]))


def delay(user, beats):
    return {"type": "delay", "process": user, "requestBeats": beats, "replyBeats": 1}


def deadline_of(made, user, program):
    """The beat at which its term ends by its deadline, which is printed where it doesn't act in its release."""
    trace = program.replay(dict(made, settings={**made["settings"], "inRelease": "still"}))
    return next((beat for beat, actor, deed in trace if actor.startswith(f"{user}_") and deed[0] == "end"), None)
