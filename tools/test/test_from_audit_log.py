#!/usr/bin/env python3
"""Tries tools/from-audit-log on small logs written here, and on recorded ones of conformance/logs: python3 tools/test/test_from_audit_log.py

What is wanted is written out by hand: of a recorded log it is what was done and seen there, by its driver's notes and by the acts that its
electors number. `verdict` below is the meaning of 41 and 42 in docs/trace.md, written anew; conformance/run.py has `audit` itself judge.
"""
import gzip
import json
import os
import subprocess
import sys
import tempfile
import unittest

from places import TOP

TOOL = os.path.join(TOP, "tools/from-audit-log")
AGENT = "kube-controller-manager/v1.20.2 (linux/amd64) kubernetes/x/leader-election"
EVICTS = AGENT.replace("leader-election", "node-controller")
NODE_LABELS = {"topology.kubernetes.io/region": "r1", "topology.kubernetes.io/zone": "za"}
UNREACHABLE = {"key": "node.kubernetes.io/unreachable", "effect": "NoExecute", "timeAdded": "2024-01-01T00:00:40Z"}


def stamp(second):
    return f"2024-01-01T00:{int(second) // 60:02}:{second % 60:09.6f}Z"


def event(second, verb, resource, name, user, code=200, request=None, response=None, **more):
    """An answered request; it was received 10 ms before."""
    made = {"kind": "Event", "apiVersion": "audit.k8s.io/v1", "auditID": f"{second}-{verb}-{name or resource}-{user}", "stage": "ResponseComplete",
            "verb": verb, "requestReceivedTimestamp": stamp(second - 0.01), "stageTimestamp": stamp(second), "user": {"username": user},
            "sourceIPs": [more.get("address", "10.0.0.1")], "userAgent": more.get("agent", AGENT),
            "objectRef": {"resource": resource, "name": name, "namespace": more.get("namespace")},
            "responseStatus": {"code": code}, "requestObject": request, "responseObject": response}
    if more.get("subresource"):
        made["objectRef"]["subresource"] = more["subresource"]
    return made


def election(second, verb, holder, version, user="kcm-a", code=200, transitions=0, **more):
    spec = {"holderIdentity": holder, "leaseDurationSeconds": 15, "leaseTransitions": transitions}
    made = {"metadata": {"name": "kube-controller-manager", "namespace": "kube-system"}, "spec": spec}
    stored = dict(made, metadata=dict(made["metadata"], resourceVersion=str(version))) if code in (200, 201) else {}
    return event(second, verb, "leases", "kube-controller-manager", user, code, None if verb == "get" else made, stored,
                 namespace="kube-system", **more)


def node(version, ready="True", taints=(), name="n1"):
    return {"kind": "Node", "metadata": {"name": name, "resourceVersion": str(version), "labels": NODE_LABELS}, "spec": {"taints": list(taints)},
            "status": {"conditions": [{"type": "Ready", "status": ready, "reason": "NodeStatusUnknown" if ready == "Unknown" else "KubeletReady"}]}}


def node_list(second, *nodes):
    return event(second, "list", "nodes", None, "kcm-a", 200, None, {"kind": "NodeList", "items": list(nodes)})


def empty_list(second, resource):
    """An entry that shows that the policy keeps this resource."""
    return event(second, "list", resource, None, "admin", 200, None, {"kind": "List", "items": []}, agent="kubectl/v1.31.0")


ENDS = ("end", "crash", "stop")
ACTING = ("unknown", "mode", "zone", "taint", "swap", "untaint", "evict")


def verdict(lines):
    """`ok`, or the code and the line's actor and word: 41 where two lead at one beat, else 42 where one acts outside its term."""
    last = int(lines[0].split()[3].split("=")[1])
    told = [(int(at), actor, word) for at, actor, word in (it.split()[:3] for it in lines[1:])]
    terms = []
    for number, (at, actor, word) in enumerate(told):
        if word == "lead":
            until = next((it[0] - 1 for it in told[number:] if it[1] == actor and it[2] in ENDS), last)
            if any(other != actor and begin <= until and at <= end for begin, end, other in terms):
                return f"41 {actor} lead"
            terms.append((at, until, actor))
    for at, actor, word in told:
        if word in ACTING and not any(other == actor and begin <= at <= end for begin, end, other in terms):
            return f"42 {actor} {word}"
    return "ok"


class Case(unittest.TestCase):
    def run_tool(self, events, *words, packed=False):
        with tempfile.TemporaryDirectory() as room:
            path = os.path.join(room, "audit.log" + (".gz" if packed else ""))
            with gzip.open(path, "wt") if packed else open(path, "w") as file:
                file.write("".join((it if isinstance(it, str) else json.dumps(it)) + "\n" for it in events))
            return subprocess.run([sys.executable, TOOL, *words, path], stdout=subprocess.PIPE, stderr=subprocess.PIPE, text=True)

    def trace(self, events, *words, status=0, **more):
        ran = self.run_tool(events, *words, **more)
        self.assertEqual(ran.returncode, status, ran.stderr)
        return ran.stdout.splitlines()

    def refused(self, status, events, *words):
        """Nothing is written, so that no pipeline can be green; what is told."""
        ran = self.run_tool(events, *words)
        self.assertEqual((ran.returncode, ran.stdout), (status, ""), ran.stderr)
        return ran.stderr


class Logs(Case):
    LED = [empty_list(1, "nodes"), empty_list(1, "pods"),
           election(1, "create", "host-a_x", 5, code=201), election(3, "update", "host-a_x", 6), election(5, "update", "host-a_x", 7)]

    def test_a_leader_renews(self):
        self.assertEqual(self.trace(self.LED), [
            "trace 1 beat=100 end=42 premise=no", "0 kcm-a_1 create election v=5 t=0", "0 kcm-a_1 lead v=5",
            "20 kcm-a_1 update election v=6 t=0", "40 kcm-a_1 update election v=7 t=0"])

    def test_gzip_and_order_of_lines_make_no_difference(self):
        self.assertEqual(self.trace(self.LED[::-1], packed=True), self.trace(self.LED))

    def test_an_entry_twice_counts_once(self):
        self.assertEqual(self.trace(self.LED + self.LED), self.trace(self.LED))

    def test_a_takeover_and_the_three_ways_of_an_end(self):
        """The last renewal is answered at 5, so the promise ends at 17; the process was last heard of at 6; it acts at 19."""
        act = event(19, "update", "nodes", "n1", "kcm-a", 200, node(8, "Unknown"), node(9, "Unknown"), subresource="status")
        get = election(6, "get", None, 7)
        rival = [election(18, "update", "host-b_y", 8, "kcm-b", transitions=1), election(30, "update", "host-b_y", 12, "kcm-b", transitions=1)]
        def ends(*words, events=(), status=0):
            return [it for it in self.trace([*self.LED, get, *rival, *events], *words, status=status) if it.split()[2] in ("end", "crash")]
        self.assertEqual(ends("--terms=promise"), ["50 kcm-a_1 crash"])
        self.assertEqual(ends("--terms=death", status=3), ["50 kcm-a_1 crash"])  # no watch tells when it died
        self.assertEqual(ends("--terms=evidence"), ["50 kcm-a_1 crash"])
        self.assertEqual(ends("--terms=promise", events=[act]), ["160 kcm-a_1 end"])
        # An end in the beat of an act is told a beat later, since a term goes to the beat before its end.
        self.assertEqual(ends("--terms=death", events=[act], status=3), ["181 kcm-a_1 end"])
        self.assertEqual(ends("--terms=evidence", events=[act]), ["181 kcm-a_1 end"])

    def test_refused_writes(self):
        lines = self.trace(self.LED + [election(6, "create", "host-b_y", 0, "kcm-b", 409), election(7, "update", "host-b_y", 0, "kcm-b", 409),
                                       election(8, "update", "host-b_y", 0, "kcm-b", 404)])
        self.assertEqual(lines[-3:], ["50 kcm-b_1 create election exists", "60 kcm-b_1 update election conflict v=7", "70 kcm-b_1 update election absent"])

    def test_a_release_is_the_holders(self):
        self.assertEqual(self.trace(self.LED + [election(6, "update", "", 8)])[-1], "50 kcm-a_1 update election v=8 t=0")

    def test_a_second_start_of_a_host_has_the_number_2(self):
        lines = self.trace(self.LED + [election(40, "update", "host-a_z", 9, transitions=1)])
        self.assertIn("390 kcm-a_2 lead v=9", lines)

    def test_nodes_and_pods(self):
        """A node goes Unknown, is tainted, and a pod that tolerates 30 s is deleted."""
        tolerations = [{"key": UNREACHABLE["key"], "operator": "Exists", "effect": "NoExecute", "tolerationSeconds": 30}]
        pod = {"kind": "Pod", "metadata": {"name": "web", "namespace": "default", "resourceVersion": "12"},
               "spec": {"nodeName": "n1", "tolerations": tolerations}}
        lines = self.trace([
            node_list(0.5, node(1)), *self.LED,
            event(35, "update", "nodes", "n1", "kcm-a", 200, node(1, "Unknown"), node(8, "Unknown"), subresource="status"),
            event(40, "patch", "nodes", "n1", "kcm-a", 200, {"spec": {"taints": [UNREACHABLE]}}, node(9, "Unknown", [UNREACHABLE])),
            event(70, "delete", "pods", "web", "kcm-a", 200, None, pod, namespace="default", agent=EVICTS),
            event(80, "patch", "nodes", "n1", "kcm-a", 200, {"spec": {"taints": []}}, node(13))])
        self.assertEqual(lines[2:4], ["5 kcm-a_1 lead v=5", "5 kcm-a_1 zone r1/za Normal rate=100"])
        self.assertEqual(lines[6:], [
            "345 kcm-a_1 unknown n1 NodeStatusUnknown v=8", "345 kcm-a_1 mode on", "345 kcm-a_1 zone r1/za FullDisruption rate=0",
            "395 kcm-a_1 taint n1 unreachable v=9", "695 kcm-a_1 evict default/web due=2024-01-01T00:01:10Z v=12",
            "795 kcm-a_1 untaint n1 v=13", "795 kcm-a_1 mode off", "795 kcm-a_1 zone r1/za Normal rate=100"])

    def test_two_controllers_of_one_user(self):
        """Between two renewals of the leader there is one Get of its own; further ones are a rival's."""
        events, version = list(self.LED), 8
        for second in range(7, 20, 2):
            events += [election(second - 1, "get", None, 7, address="10.0.0.2"), election(second - 0.1, "get", None, 7),
                       election(second, "update", "host-a_x", version)]
        self.assertIn("controllers can't be told apart: user kcm-a comes from 2 addresses: 10.0.0.1, 10.0.0.2", self.refused(4, events, "--by=user"))
        self.assertIn("told apart by address, since user kcm-a comes from 2 addresses", self.run_tool(events).stderr)
        self.assertEqual(verdict(self.trace(events)), "ok")
        one_address = [dict(it, sourceIPs=["10.0.0.1"]) for it in events]
        self.assertIn("user kcm-a asks for the Lease while it leads", self.refused(4, one_address))
        self.assertEqual(self.run_tool(one_address, "--anyway").stdout, self.run_tool(events, "--by=user", "--anyway").stdout)

    def test_a_rival_of_one_that_renews_without_a_get(self):
        """The Gets of a newer client-go are all a rival's, since a leader makes none."""
        events = list(self.LED)
        for second in range(7, 20, 2):
            events += [election(second - 1.5, "get", None, 7), election(second, "update", "host-a_x", second)]
        self.assertIn("user kcm-a asks for the Lease while it leads", self.refused(4, events))

    def test_controllers_of_two_versions(self):
        """One user and one address: the versions in the user agents are left to tell them apart."""
        other = AGENT.replace("v1.20.2", "v1.21.0")
        events = list(self.LED)
        for second in range(7, 20, 2):
            events += [election(second - 1.5, "get", None, 7, agent=other), election(second, "update", "host-a_x", second)]
        ran = self.run_tool(events)
        self.assertEqual(ran.returncode, 0)
        self.assertIn("told apart by agent, since user kcm-a asks for the Lease while it leads", ran.stderr)

    def test_other_deletes_and_actors_without_a_lease(self):
        pod = {"kind": "Pod", "metadata": {"name": "web", "namespace": "default", "resourceVersion": "12"}, "spec": {}}
        delete = event(7, "delete", "pods", "web", "kcm-a", 200, None, pod, namespace="default", agent=AGENT.replace("leader-election", "replicaset-controller"))
        self.assertEqual(self.trace([*self.LED, delete])[-1], "60 script remove pod/default/web v=12")
        self.assertIn("are no evictions: kube-controller-manager/v1.20.2 (linux/amd64) kubernetes/x/replicaset-controller (1)",
                      self.run_tool([*self.LED, delete]).stderr)
        other = event(7, "delete", "pods", "web", "system:serviceaccount:kube-system:node-controller", 200, None, pod, namespace="default", agent=EVICTS)
        self.assertIn("node-controller taints or evicts and never writes the Lease", self.refused(4, [*self.LED, other], "--by=user"))
        self.assertIn("60 host-a_1 evict default/web due=2024-01-01T00:00:07Z v=12", self.trace([*self.LED, other]))

    def test_the_same_identity_leads_anew(self):
        """It gives the Lease up, another one leads for a while, and it leads again: two terms of one identity."""
        lines = self.trace([*self.LED, election(6, "update", "", 8), election(8, "update", "host-b_y", 9, "kcm-b", transitions=1),
                            election(9, "update", "", 10, "kcm-b"), election(11, "update", "host-a_x", 11, transitions=2)])
        self.assertEqual([it for it in lines if it.split()[2] in ("lead", "end", "crash")],
                         ["0 kcm-a_1 lead v=5", "50 kcm-a_1 end", "70 kcm-b_1 lead v=9", "80 kcm-b_1 end", "100 kcm-a_1 lead v=11"])
        self.assertEqual(verdict(lines), "ok")

    def test_who_else_writes_the_lease(self):
        """An administrator's note on the Lease is no renewal and no release, though the answer names the holder."""
        note = election(6, "patch", "host-a_x", 8, "admin", agent="kubectl/v1.31.0")
        note["requestObject"] = {"metadata": {"annotations": {"seen": "yes"}}}
        lines = self.trace([*self.LED, note, election(7, "update", "host-a_x", 9)])
        self.assertEqual(lines[-2:], ["50 script put lease/kube-system/kube-controller-manager v=8", "60 kcm-a_1 update election v=9 t=0"])
        self.assertEqual(sum(" lead " in it for it in lines), 1)
        rival = [election(20, "get", None, 8), election(40, "update", "host-b_y", 9, "kcm-b", transitions=1)]
        self.assertIn("160 kcm-a_1 end", self.trace([*self.LED, note, *rival], "--terms=promise"))  # 12 s after the renewal at 5

    def test_what_is_left_out_is_told(self):
        events = ["no JSON", *self.LED, event(7, "delete", "pods", "web", "kcm-a", 500, namespace="default")]
        told = self.run_tool(events).stderr
        self.assertIn("left out: 1 x line that is no audit event", told)
        self.assertIn("left out: 1 x delete of a pod answered 500", told)

    def test_another_election(self):
        events = [json.dumps(it).replace("kube-controller-manager", "kube-scheduler") for it in self.LED]
        self.assertEqual(self.trace(events, "--lease=kube-system/kube-scheduler", "--controllers=^kube-scheduler/"), self.trace(self.LED))
        self.assertIn("nobody leads in this log: no accepted write of the Lease kube-system/kube-controller-manager names a holder; "
                      "Leases that are written in it: kube-system/kube-scheduler (3)", self.refused(5, events))

    def test_a_lease_that_is_deleted(self):
        """The leader makes it anew and goes on leading."""
        delete = event(6, "delete", "leases", "kube-controller-manager", "admin", namespace="kube-system", agent="kubectl/v1.31.0")
        lines = self.trace([*self.LED, delete, election(7, "create", "host-a_x", 9, code=201)])
        self.assertEqual(lines[-2:], ["50 script remove lease/kube-system/kube-controller-manager v=8", "60 kcm-a_1 create election v=9 t=0"])

    def test_the_spacing_of_taints_is_told(self):
        taint = event(40, "patch", "nodes", "n1", "kcm-a", 200, {}, node(9, "Unknown", [UNREACHABLE]))
        self.assertIn("refuses the trace with 43", self.run_tool([node_list(0.5, node(1, "Unknown")), *self.LED, taint]).stderr)
        self.assertNotIn("refuses the trace with 43", self.run_tool(self.LED).stderr)

    def test_nothing_to_read(self):
        ran = self.run_tool(["{}", "[]", '"x"', "7"])
        self.assertEqual((ran.returncode, ran.stdout), (1, ""))

    def test_what_cannot_be_read(self):
        ran = self.run_tool(self.LED, "--controllers=(")
        self.assertEqual((ran.returncode, ran.stdout), (2, ""))
        self.assertIn("( is no pattern", ran.stderr)
        with tempfile.TemporaryDirectory() as room:
            path = os.path.join(room, "cut.gz")
            with open(path, "wb") as file:
                file.write(gzip.compress(json.dumps(self.LED[0]).encode())[:-9])
            ran = subprocess.run([sys.executable, TOOL, path], stdout=subprocess.PIPE, stderr=subprocess.PIPE, text=True)
        self.assertEqual((ran.returncode, ran.stdout), (1, ""))
        self.assertTrue(ran.stderr.startswith("from-audit-log: Compressed file ended"), ran.stderr)

    def test_a_part_of_the_time_and_events(self):
        begin = 1704067200
        lines = self.trace(self.LED, f"--from={begin + 2}", f"--to={begin + 4}", "--beat=1000", status=3)
        self.assertEqual(lines, ["trace 1 beat=1000 end=4 premise=no", "1 kcm-a_1 update election v=6 t=0", "1 kcm-a_1 lead v=6"])
        first = json.loads(self.trace(self.LED, "--events")[0])
        self.assertEqual(first, {"second": begin + 1, "actor": "kcm-a_1", "text": "create election v=5 t=0"})


def recorded(scenario, keep=lambda it: True, change=lambda it: it):
    """The entries of a recorded log, cut and changed."""
    with gzip.open(os.path.join(TOP, "conformance/logs", scenario, "audit.jsonl.gz"), "rt", encoding="utf-8") as lines:
        return [change(it) for it in map(json.loads, lines) if keep(it)]


def resource_of(entry):
    return entry["objectRef"].get("resource")


def is_of_election(entry):
    return resource_of(entry) == "leases" and entry["objectRef"].get("name") == "kube-controller-manager"


def bare(entry):
    """As the audit level Metadata has it."""
    return {key: value for key, value in entry.items() if key not in ("requestObject", "responseObject")}


def is_manager(entry):
    return entry["user"]["username"].startswith("kcm-")


def as_kubeadm(entry):
    """One user, and an address for each host, as kubeadm's control planes have them."""
    if is_manager(entry):
        address = {"kcm-a": "10.0.0.1", "kcm-b": "10.0.0.2"}[entry["user"]["username"]]
        entry = dict(entry, user={"username": "system:kube-controller-manager"}, sourceIPs=[address])
    return entry


def as_service_account(entry):
    """And --use-service-account-credentials, with which kubeadm starts it: each of its controllers has an account of its own."""
    entry, part = as_kubeadm(entry), entry.get("userAgent", "").rpartition("/")[2]
    if entry["user"]["username"] == "system:kube-controller-manager" and part == "node-controller":
        account = f"system:serviceaccount:kube-system:{part}"
        entry = dict(entry, user={"username": account}, userAgent=entry["userAgent"].replace(part, account))
    return entry


ELECTORS = "--controllers=^elector(-[a-z]+)?/"


class RecordedElections(Case):
    """Electors of client-go 0.36.4, whose leaders write on a node twice a second."""

    def test_where_two_acted_and_where_none_did(self):
        two_acted = "ec4 ec6r eh10 er18_3 er18l_1 egz egz4"
        one_acted = "ea2 eb ed eg eh en6 er18_1 er18b_2 er23_1"
        for scenario in (two_acted + " " + one_acted).split():
            lease = ["--renew-deadline=10", "--retry-period=2"]
            found = verdict(self.trace(recorded(scenario), ELECTORS, *lease)).split()[0]
            self.assertEqual(found, "41" if scenario in two_acted.split() else "ok", scenario)

    def test_a_restart_with_release_is_one_leader_at_a_time(self):
        """SIGTERM at 11.53, 23.15 and 37.58 s: an empty Lease some ms later, and the next leader within two seconds."""
        for way in ("evidence", "promise", "death"):
            lines = self.trace(recorded("eg"), ELECTORS, f"--terms={way}")
            self.assertEqual(verdict(lines), "ok")
            self.assertEqual([it.split()[1] for it in lines if it.endswith(" end")], ["kcm-a_1", "kcm-b_1", "kcm-a_2"])

    def test_a_restart_with_release_by_the_leases_alone(self):
        """A kill, a release, and then a leader that was stopped and acts on, which the Leases don't tell."""
        for way in ("evidence", "promise"):
            self.assertEqual(verdict(self.trace(recorded("ax", is_of_election), ELECTORS, f"--terms={way}", status=3)), "ok")
        whole = self.run_tool(recorded("ax"), ELECTORS)
        self.assertEqual(verdict(whole.stdout.splitlines()), "41 kcm-b_2 lead")
        self.assertIn("the log has no entry of pods", whole.stderr)

    def test_a_release_that_empties_anothers_lease(self):
        """kcm-a gives up a Lease that kcm-c has; kcm-b takes it, and kcm-c, which doesn't know, acts for 10.5 s more."""
        lines = self.trace(recorded("er18_3"), ELECTORS)
        self.assertEqual([it.split()[1] for it in lines if " lead " in it], ["kcm-a_1", "kcm-c_1", "kcm-b_1"])
        self.assertEqual(verdict(lines), "41 kcm-b_1 lead")
        end = {it.split()[1]: int(it.split()[0]) for it in lines if it.split()[2] in ENDS}
        lead = {it.split()[1]: int(it.split()[0]) for it in lines if it.split()[2] == "lead"}
        self.assertAlmostEqual((end["kcm-c_1"] - lead["kcm-b_1"]) / 10, 10.5, delta=0.2)

    def test_user_agents_that_do_not_match_are_told(self):
        told = self.refused(4, recorded("eg"))
        self.assertIn("don't match --controllers '^kube-controller-manager/': elector/v0.0.0 (linux/amd64) kubernetes/$Format/leader-election (29)", told)
        self.assertIn(" lead ", self.run_tool(recorded("eg"), "--anyway").stdout)


class RecordedManagers(Case):
    """kube-controller-manager 1.20.2: in c4 and c6 a stopped leader went on and acted beside its successor, in b and b2 leaders were killed."""
    TIMINGS = {"b2": ("--renew-deadline=4", "--retry-period=1")}

    def verdict_of(self, scenario, *words, keep=lambda it: True, change=lambda it: it, status=0):
        return verdict(self.trace(recorded(scenario, keep, change), *self.TIMINGS.get(scenario, ()), *words, status=status))

    def test_the_leases_alone_do_not_tell_who_acts(self):
        for scenario in ("c4", "c6"):
            ran = self.run_tool(recorded(scenario, is_of_election))
            self.assertEqual((ran.returncode, verdict(ran.stdout.splitlines())), (3, "ok"))
            self.assertIn("NOT ANSWERED: whether somebody acts who doesn't lead: the log has no entry of nodes and pods", ran.stderr)

    def test_the_leases_alone_do_not_tell_who_died(self):
        for scenario in ("b", "b2"):
            ran = self.run_tool(recorded(scenario, is_of_election), "--terms=death", *self.TIMINGS.get(scenario, ()))
            self.assertEqual(ran.returncode, 3)
            self.assertRegex(ran.stderr, "NOT ANSWERED: when the processes of .*kcm-a_1.* ended: the log has no watch of theirs that closed")

    def test_without_watches_no_death(self):
        self.assertEqual(self.verdict_of("b", "--terms=death"), "ok")
        self.trace(recorded("b", lambda it: it["verb"] != "watch"), "--terms=death", status=3)
        self.assertEqual(self.verdict_of("b", keep=lambda it: it["verb"] != "watch"), "ok")

    def test_the_page_s_policies(self):
        """The Leases of kube-system, nodes and pods answer all; nodes and pods at the level Metadata are enough for who acted."""
        def keep(entry):
            return resource_of(entry) in ("nodes", "pods") or is_of_election(entry)

        def lean(entry):
            return entry if is_of_election(entry) else bare(entry)

        for scenario, wanted in (("c4", "41 kcm-b_1 lead"), ("c6", "41 kcm-b_1 lead"), ("b", "ok"), ("b2", "ok")):
            self.assertEqual(self.verdict_of(scenario, keep=keep), wanted)
            self.assertEqual(self.verdict_of(scenario, "--terms=death", keep=keep), wanted)
            self.assertEqual(self.verdict_of(scenario, keep=keep, change=lean), wanted)

    def test_promise_tells_of_acts_without_a_line(self):
        told = self.run_tool(recorded("c6", change=lambda it: it if is_of_election(it) else bare(it)), "--terms=promise")
        self.assertEqual(told.returncode, 0)  # its deletes of pods have lines
        self.assertTrue(verdict(told.stdout.splitlines()).startswith("42 kcm-a_1"))
        told = self.run_tool(recorded("ec4"), ELECTORS, "--terms=promise")
        self.assertEqual(told.returncode, 3)
        self.assertIn("whether kcm-a_1 acts outside its term: it does", told.stderr)

    def test_kubeadm_s_form(self):
        for change in (as_kubeadm, as_service_account):
            ran = self.run_tool(recorded("c6", change=change))
            self.assertEqual((ran.returncode, verdict(ran.stdout.splitlines()).split()[0]), (0, "41"), ran.stderr)
            self.assertIn("told apart by address, since user system:kube-controller-manager comes from 2 addresses: 10.0.0.1, 10.0.0.2", ran.stderr)
            self.assertIn("controllers can't be told apart: user system:kube-controller-manager", self.refused(4, recorded("c6", change=change), "--by=user"))

    def test_one_user_and_one_address(self):
        """As behind a load balancer: nothing tells the controllers apart."""
        told = self.refused(4, recorded("c6", change=lambda it: dict(as_kubeadm(it), sourceIPs=["10.0.0.9"])))
        for way in ("user system:kube-controller-manager", "address 10.0.0.9", "agent kube-controller-manager/v0.0.0 (linux/amd64) kubernetes/faecb19"):
            self.assertIn(f"NO VERDICT: controllers can't be told apart: {way} asks for the Lease while it leads", told)

    def test_the_level_metadata(self):
        told = self.refused(5, recorded("c6", is_of_election, bare))
        self.assertIn("53 of 53 writes of the Lease kube-system/kube-controller-manager can't be read: the audit level is Metadata", told)

    def test_the_level_request_of_the_lease(self):
        """Who holds it is in the request; the stored version is in the answer alone."""
        lines = self.trace(recorded("c6", change=lambda it: dict(it, responseObject=None) if is_of_election(it) else it))
        self.assertEqual([it.split(" ", 1)[1] for it in lines if " lead " in it], ["kcm-a_1 lead v=0", "kcm-b_1 lead v=0"])
        self.assertEqual(verdict(lines), "41 kcm-b_1 lead")

    def test_no_term(self):
        self.assertIn("nobody leads in this log", self.refused(5, recorded("c6", lambda it: not is_of_election(it))))
        self.assertIn("nobody leads in this log", self.refused(5, recorded("c6"), "--lease=default/mine"))

    def test_an_api_server_that_stood_still(self):
        """Twice for 12 s in n5. The managers' own logs say when they gave up; nobody led for 18.0 and for 25.3 s."""
        told = [(int(it.split()[0]) / 10, it.split()[2]) for it in self.trace(recorded("n5")) if it.split()[2] in ("lead", *ENDS)]
        self.assertEqual([word for _, word in told], ["lead", "end", "lead", "end", "lead"])
        for found, wanted in zip((told[2][0] - told[1][0], told[4][0] - told[3][0]), (18.0, 25.3)):
            self.assertAlmostEqual(found, wanted, delta=0.2)

    def test_taint_eviction_controller(self):
        """Evictions by a controller of its own, each with a write of the pod's status before it: the same lines."""
        for scenario, evictions in (("d", 11), ("c4", 17)):
            events = []
            for entry in recorded(scenario):
                if entry["verb"] == "delete" and resource_of(entry) == "pods" and is_manager(entry):
                    entry = dict(entry, userAgent=entry["userAgent"].replace("node-controller", "taint-eviction-controller"))
                    events.append(dict(entry, verb="patch", auditID=entry["auditID"] + "-status", objectRef=dict(entry["objectRef"], subresource="status")))
                events.append(entry)
            evicted = [it for it in self.trace(events) if " evict " in it]
            self.assertEqual(len(evicted), evictions)
            self.assertEqual(evicted, [it for it in self.trace(recorded(scenario)) if " evict " in it])


class RecordedWatchLists(Case):
    """Informers that watch with sendInitialEvents and never list. In f n1 of zone r1/za is silent, n2 to n4 of it and n5 and n6 of r1/zb aren't."""
    NORMAL = ["zone r1/za Normal rate=100", "zone r1/zb Normal rate=100"]

    def zones_of_second_leader(self, events):
        return [it.split(" ", 2)[2] for it in self.trace(events) if it.split()[1] == "kcm-b_1" and it.split()[2] in ("zone", "mode")]

    def cut(self, lists):
        """From the first leader's first pass on, when all nodes had come, and after what it wrote on each of them."""
        entries = recorded("f")
        begin = next(it["stageTimestamp"] for it in entries if is_of_election(it) and it["verb"] == "create")
        labels = [it["auditID"] for it in entries if it["verb"] == "patch" and resource_of(it) == "nodes" and is_manager(it)][:6]
        return [it for it in entries if it["stageTimestamp"] >= begin and it["auditID"] not in labels and (lists or it["verb"] != "list")]

    def test_nodes_that_are_shown_later(self):
        """The kubelets ask for their nodes some time after the failover: what they are shown tells the zones before."""
        shown = next(it for it in recorded("f") if it["verb"] == "list" and resource_of(it) == "nodes" and it["user"]["username"] == "kcm-b")
        gets = [dict(shown, verb="get", auditID=it["metadata"]["name"], userAgent="kubelet/v1.36.0", user={"username": f"system:node:{it['metadata']['name']}"},
                     stageTimestamp=shown["stageTimestamp"].replace("2026-11-28T11:05", "2026-11-28T11:06"),
                     objectRef=dict(shown["objectRef"], name=it["metadata"]["name"]), responseObject=dict(it, kind="Node"))
                for it in shown["responseObject"]["items"]]
        self.assertEqual(self.zones_of_second_leader(self.cut(lists=True)), self.NORMAL)
        self.assertEqual(self.zones_of_second_leader(self.cut(lists=False) + gets), self.NORMAL)

    def test_nodes_that_are_never_shown(self):
        """Their kubelets' Leases show that there are some, so not all zones are down."""
        ran = self.run_tool(self.cut(lists=False))
        self.assertIn("note: 5 nodes renew a Lease and the log never shows them, so zone lines leave them out: n2, n3, n4, n5, n6", ran.stderr)
        self.assertNotIn(" mode on", ran.stdout)
        self.assertEqual(ran.returncode, 0)


if __name__ == "__main__":
    unittest.main()
