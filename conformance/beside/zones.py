"""The state of a zone by its counts, and the rate of a zone by its state and size."""
from .documents import CALM, LEADS, WELL, crowd, document
from .tally import EXACT, left, unnamed


def zone_lines(program, made):
    """State and rate of each zone, by its name."""
    lines = (deed for _, _, deed in program.replay(made) if deed[0] == "zone")
    return {deed[1]: (deed[2], int(deed[3].split("=")[1])) for deed in lines}


def zones(cases, program):
    return list(program.each(lambda case: state_verdict(case, program), cases))


def state_verdict(case, program):
    if case["ready"] + case["not_ready"] == 0:
        return left("a zone without a node")
    settings = dict(CALM, endBeat=LEADS, unhealthyPercent=case["percent"])
    made = document(settings, crowd("z", case["ready"], case["not_ready"]))
    return EXACT if zone_lines(program, made)["r/z"][0] == case["state"] else unnamed("another state of a zone")


def rates(cases, program):
    return [it for verdicts in program.each(lambda case: rate_verdicts(case, program), cases) for it in verdicts]


def rate_verdicts(case, program):
    """A zone of that size in partial disruption, another in full, and one that is well."""
    size = case["size"]
    if size <= 0:
        return [left("a zone without a node")] * 2
    bad = max(3, -(-55 * size // 100))
    primary, secondary = round(case["primary"] * 1000), round(case["secondary"] * 1000)
    settings = dict(CALM, endBeat=LEADS, largeZone=case["threshold"], primaryRate=primary, secondaryRate=secondary)
    objects = [WELL] + crowd("full", 0, size, "f")
    wanted = {"r/full": ("FullDisruption", round(case["full"] * 1000))}
    verdicts = []
    if size > bad:
        objects += crowd("part", size - bad, bad, "p")
        wanted["r/part"] = ("PartialDisruption", round(case["partial"] * 1000))
    else:
        verdicts.append(left("too small for a partial disruption that isn't full"))
    here = zone_lines(program, document(settings, objects))
    return verdicts + [EXACT if here[zone] == it else unnamed("another rate of a zone") for zone, it in wanted.items()]
