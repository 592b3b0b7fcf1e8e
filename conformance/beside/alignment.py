"""Two rows of instants, set beside each other."""

ALONE_SECONDS = 50  # what it costs to leave an event without its like


def aligned(there, here):
    """Both rows of instants in order, each paired with one of the other or left alone, at the least cost in seconds."""
    best = {(0, 0): (0, [])}
    for at in range(len(there) + 1):
        for to in range(len(here) + 1):
            ways = []
            if at and to:
                cost, found = best[at - 1, to - 1]
                ways.append((cost + abs(there[at - 1] - here[to - 1]), found + [(there[at - 1], here[to - 1])]))
            if at:
                cost, found = best[at - 1, to]
                ways.append((cost + ALONE_SECONDS, found + [(there[at - 1], None)]))
            if to:
                cost, found = best[at, to - 1]
                ways.append((cost + ALONE_SECONDS, found + [(None, here[to - 1])]))
            if ways:
                best[at, to] = min(ways, key=lambda it: it[0])
    return best[len(there), len(here)][1]
