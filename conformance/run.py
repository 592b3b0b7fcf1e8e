#!/usr/bin/env python3
"""Compares the program with recorded answers of Kubernetes 1.20.2 and of client-go 0.36.4, and with what real control planes did.

    conformance/run.py [--exe COMMAND] [--lens COMMAND] [--rules-exe COMMAND] [SET ..]

COMMAND is the program without its command word; else it is the built one, crates/kube_replay/out/kube_replay, and behind --lens
crates/kube_lens/out/kube_lens, which tells how long nobody leads after a crash. All sets and scenarios are compared by upstream's rules too,
in documents of version 4, by another program behind --rules-exe if there is one; where it has not built these keys, that is left out
and told. --rules alone compares by these rules and nothing else. Ends with 1 where a count isn't that of counts.json,
where a rule of docs/profile.md doesn't say how it is known, where a kind of difference has no rule there that names its set or
scenario, where a recorded crash lies out of the bounds, or where a table of docs/upstream.md isn't the one that is printed here;
else with 0. With sets it looks at these alone. --write writes counts.json and the tables in place of comparing them.
"""
import argparse
import functools
import json
import os
import sys
import time

from beside import bounds, by_rules, grid, page, plane, plane_tables, release_tables, releases_by_rules, scenarios_by_rules, tables, wave_tables
from beside.fast_elections import SETTINGS
from beside.profile import Profile
from beside.program import NoAnswer, Program
from beside.recorded import NEW, SETS, TOP, tally_of
from beside.tally import row_of

ROOT = os.path.dirname(TOP)
BUILT = os.path.join(ROOT, "crates/kube_replay/out/kube_replay")
BUILT_LENS = os.path.join(ROOT, "crates/kube_lens/out/kube_lens")
PAGE = os.path.join(ROOT, "docs/upstream.md")


def told(name, counts):
    parts = [f"{counts['exact']} exact", f"{counts['near']} near", f"{sum(counts['differ'].values())} differ"]
    return f"{name}: {counts['cases']} cases, {sum(counts['not expressed'].values())} not expressed, {', '.join(parts)}"


def faults_of(name, counts, wanted, profile):
    """What is wrong with the counts of a set, as sentences."""
    if counts != wanted:
        yield f"{name}: other counts than in counts.json: {json.dumps(counts)}"
    yield from unnamed(name, counts, profile)


def unnamed(name, counts, profile):
    for kind in counts["differ"]:
        if not profile.names_set(row_of(kind), name):
            yield f"{name}: no rule of docs/profile.md is named '{row_of(kind)}' and known by `{name}`, for: {kind}"


def of_sets(names, program, profile, is_written):
    wanted = known_counts()
    counts, faults = {}, []
    for name in names:
        counts[name] = tally_of(name, program).as_json()
        print(told(name, counts[name]), flush=True)
        faults += faults_of(name, counts[name], counts[name] if is_written else wanted.get(name), profile)
    if is_written:
        with open(f"{TOP}/counts.json", "w", encoding="utf-8") as file:
            json.dump({**wanted, **counts}, file, indent=1)
            file.write("\n")
    return counts, faults


def of_rules(own, program, profile, is_written):
    """How many cases there are by upstream's rules, the tables of both, and what is wrong; nothing where the program has no such rules yet."""
    if not by_rules.are_built(program):
        print("by upstream's rules: left out, since this program has no keys for them yet", flush=True)
        return 0, {}, []
    path = f"{TOP}/counts_by_rules.json"
    with open(path, encoding="utf-8") as file:
        wanted = json.load(file)
    counts = {}
    for name in SETS:
        counts[name] = by_rules.tally(name, program)
        print(f"by upstream's rules, {told(name, counts[name])}", flush=True)
    if is_written:
        with open(path, "w", encoding="utf-8") as file:
            json.dump(counts, file, indent=1)
            file.write("\n")
    faults = [f"{name}, by upstream's rules: other counts than in counts_by_rules.json: {json.dumps(it)}" for name, it in counts.items()
              if it != wanted.get(name) and not is_written]
    for name, it in counts.items():
        faults += unnamed(name, it, profile)
    scenario_of = functools.lru_cache(None)(plane.Scenario)
    found = scenarios_by_rules.compared(scenario_of, program)
    print(f"by upstream's rules, {len(found)} scenarios: {scenarios_by_rules.told(found)}", flush=True)
    made = {"by rules": by_rules.both(own, counts), "differences by rules": by_rules.differences(counts), "evictions": by_rules.evictions(program),
            **scenarios_by_rules.tables(found), **releases_by_rules.tables(scenario_of, plane.NEW_NAMES, program)}
    return sum(it["cases"] for it in counts.values()), made, [*faults, *scenarios_by_rules.faults(found, profile)]


def of_crashes(lens, found, scenario_of):
    """The table of the crashes beside their bounds, and those out of them."""
    crashes = bounds.Crashes(lens, found, scenario_of)
    if not crashes.are_told:
        print("kube_lens bounds tells nothing of a crash, so the table of bounds isn't compared", flush=True)
        return {}, []
    return {"bounds": crashes.table()}, crashes.faults()


def of_planes(program, lens, profile):
    """The tables of the scenarios, and what no row names."""
    scenario_of = functools.lru_cache(None)(plane.Scenario)
    names = (*plane.NAMES, *plane.NEW_NAMES)
    found = plane_tables.compared(scenario_of, names, program)
    stalled = plane_tables.stalled(scenario_of, names, program)
    over = sum(plane_tables.is_over(it) for pairs in found.values() for it in pairs or [])
    print(f"real control plane: {len(found)} scenarios, {sum(len(it or []) for it in found.values())} events, {over} over 0.5 s", flush=True)
    made = {"waves": wave_tables.waves(found, scenario_of), "server stalls": wave_tables.server_stalls(found, plane.foretold_ends("n5", program)),
            "emptied leases": release_tables.emptied_leases(scenario_of, plane.NEW_NAMES, program),
            "releasing": release_tables.releasing(of_names(found, plane.NEW_NAMES), scenario_of, program)}
    for version, some in (("", plane.NAMES), (" 0.36", plane.NEW_NAMES)):
        tables_of = of_plane(of_names(found, some), of_names(stalled, some), scenario_of, program)
        made.update({name + version: lines for name, lines in tables_of.items()})
    bounded, out_of_them = of_crashes(lens, found, scenario_of)
    return {**made, **bounded}, [*plane_tables.faults(found, profile), *plane_tables.stall_faults(stalled), *out_of_them]


def of_names(found, names):
    return {name: it for name, it in found.items() if name in names}


def of_plane(found, stalled, scenario_of, program):
    """The tables that each version has."""
    return {
        "scenarios": plane_tables.scenarios(found),
        "renewals": plane_tables.renewals(scenario_of, [it for it in ("a", "a2", "ea2") if it in found], program),
        "kills": plane_tables.kills(found, scenario_of), "late reply": plane_tables.late_reply(found, scenario_of, program),
        "plane differences": plane_tables.differences(found),
        "stalls": plane_tables.stalls(stalled), "verdicts": plane_tables.verdicts(scenario_of, list(found), program),
    }


def of_answers(counts, program):
    """The tables of the recorded answers."""
    made = {"releases": release_tables.two_leaders(program), "grid": grid.attempts(),
            "emptied rounds": release_tables.emptied_rounds(program)}
    for version, folder, more in (("", "", {}), (" 0.36", NEW, SETTINGS)):
        some = tables.of_version(counts, bool(folder))
        made.update({f"answers{version}": tables.answers(some), f"differences{version}": tables.differences(some),
                     f"not said{version}": tables.not_said(some),
                     f"two leaders{version}": tables.two_leaders(f"{folder}election_two_leaders", program, more),
                     f"failovers{version}": tables.failovers(f"{folder}election_failover", program, more)})
    return made


def of_page(made, is_written):
    with open(PAGE, encoding="utf-8") as file:
        text = file.read()
    wanted = page.filled(text, made)
    if is_written:
        with open(PAGE, "w", encoding="utf-8") as file:
            file.write(wanted)
    if text == wanted or is_written:
        return []
    lines = next((pair for pair in zip(text.splitlines(), wanted.splitlines()) if pair[0] != pair[1]), ("", "more lines"))
    return [f"docs/upstream.md has the line {lines[0]!r}, and what is printed here is {lines[1]!r}; --write writes the tables anew"]


def main():
    parser = argparse.ArgumentParser(description=__doc__, formatter_class=argparse.RawDescriptionHelpFormatter)
    parser.add_argument("--exe", default=BUILT)
    parser.add_argument("--lens", default=BUILT_LENS)
    parser.add_argument("--rules-exe", metavar="COMMAND", help="the program that runs upstream's rules; else that of --exe")
    parser.add_argument("--rules", action="store_true", help="compares by upstream's rules and nothing else")
    parser.add_argument("--write", action="store_true")
    parser.add_argument("sets", nargs="*", metavar="SET", help=", ".join(SETS))
    given = parser.parse_args()
    if given.exe == BUILT and not os.path.exists(BUILT) and not (given.rules and given.rules_exe):
        sys.exit("conformance: the program isn't built; README.md tells how, or name one by --exe")
    if not given.sets and not given.rules and given.lens == BUILT_LENS and not os.path.exists(BUILT_LENS):
        sys.exit("conformance: kube_lens isn't built; README.md tells how, or name one by --lens")
    begin = time.monotonic()
    cases, runs, faults = compared(given)
    for fault in faults:
        print(f"FAULT: {fault}")
    print(f"conformance: {cases} cases, {runs} runs of the program, {time.monotonic() - begin:.0f} s, {len(faults)} faults")
    return 1 if faults else 0


def compared(given):
    """How many cases were compared, how often the program was run, and what is wrong."""
    program, profile = Program(given.exe), Profile(os.path.join(ROOT, "docs/profile.md"))
    ruled = Program(given.rules_exe) if given.rules_exe else program
    counts, faults = of_sets(() if given.rules else given.sets or SETS, program, profile, given.write)
    faults += profile.faults()
    cases, made = sum(it["cases"] for it in counts.values()), {}
    if not given.sets and not given.rules:
        made, unnamed = of_planes(program, bounds.Lens(given.lens), profile)
        made.update(of_answers(counts, program))
        faults += [*unnamed, *grid.faults()]
    if not given.sets:
        more, both, wrong = of_rules(counts or known_counts(), ruled, profile, given.write)
        cases += more
        faults += [*wrong, *of_page({**made, **both}, given.write)]
    return cases, program.runs() + (ruled.runs() if ruled is not program else 0), faults


def known_counts():
    with open(f"{TOP}/counts.json", encoding="utf-8") as file:
        return json.load(file)


if __name__ == "__main__":
    try:
        sys.exit(main())
    except (OSError, ValueError, NoAnswer) as error:
        sys.exit(f"conformance: {error}")
