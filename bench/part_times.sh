#!/bin/sh
# Measures parts of a tick, and whole ticks, in one process: a pass over 1,000 known nodes, a sync of 1,000 changed Leases beside few and
# beside many pods, the lists of 1,000 nodes' pods; then a leader's first tick, its passes with nothing to write, its ticks after 100
# changed Leases, and its ticks at which nothing changed.
#
#     bench/part_times.sh
#
# The program stands in bench/part_times. It is put beside a copy of the crates that it needs, proved there, built and run. That takes some
# minutes where earlier checks are kept on the machine.
. "$(dirname "$0")/room.sh"
room_of part_times kube_base kube_objects leader_elector object_store watch_cache node_health zone_state term_state controller_core
rt run
