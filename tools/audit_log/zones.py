"""Zones and mode as a leader finds them. No log has these lines, but the audit of taints wants them: they are made from Ready as it was written."""


class Zones:
    def __init__(self, cluster, telling):
        self.cluster, self.telling = cluster, telling
        self.told_zones, self.told_mode = {}, {}

    def tell(self, entry, leader):
        all_down, zones = self.cluster.zones()
        if all_down != self.told_mode.get(leader, False):
            self.told_mode[leader] = all_down
            self.telling.tell(entry, leader, f"mode {'on' if all_down else 'off'}")
        for zone, (state, rate) in sorted(zones.items()):
            if self.told_zones.get((leader, zone)) != (state, rate):
                self.told_zones[leader, zone] = state, rate
                self.telling.tell(entry, leader, f"zone {zone} {state} rate={rate}")
