// Records answers (this project's own code) for zone states, node health and
// whole runs of the node lifecycle controller. Placed by record.sh.
package nodelifecycle

import (
	"context"
	"encoding/json"
	"fmt"
	"math/rand"
	"os"
	"path/filepath"
	"sort"
	"sync"
	"testing"
	"time"

	coordv1 "k8s.io/api/coordination/v1"
	v1 "k8s.io/api/core/v1"
	metav1 "k8s.io/apimachinery/pkg/apis/meta/v1"
	"k8s.io/apimachinery/pkg/runtime"
	"k8s.io/apimachinery/pkg/watch"
	"k8s.io/client-go/informers"
	"k8s.io/client-go/kubernetes/fake"
	clienttesting "k8s.io/client-go/testing"
	"k8s.io/kubernetes/pkg/controller/testutil"
)

func recordOut(name string, v interface{}) {
	b, err := json.Marshal(v)
	if err != nil {
		panic(err)
	}
	if err := os.WriteFile(filepath.Join(os.Getenv("RECORD_OUT"), name), append(b, '\n'), 0o644); err != nil {
		panic(err)
	}
}

func TestRecordZones(t *testing.T) {
	type c struct {
		Ready     int    `json:"ready"`
		NotReady  int    `json:"not_ready"`
		Percent   int    `json:"percent"`
		State     string `json:"state"`
		Unhealthy int    `json:"unhealthy"`
	}
	cs := []c{}
	one := func(a, b, p int) {
		nc := &Controller{unhealthyZoneThreshold: float32(p) / 100}
		if p == 55 {
			nc.unhealthyZoneThreshold = 0.55
		}
		l := []*v1.NodeCondition{}
		for i := 0; i < a; i++ {
			l = append(l, &v1.NodeCondition{Type: v1.NodeReady, Status: v1.ConditionTrue})
		}
		for i := 0; i < b; i++ {
			switch i % 3 {
			case 0:
				l = append(l, &v1.NodeCondition{Type: v1.NodeReady, Status: v1.ConditionFalse})
			case 1:
				l = append(l, &v1.NodeCondition{Type: v1.NodeReady, Status: v1.ConditionUnknown})
			default:
				l = append(l, nil)
			}
		}
		n, s := nc.ComputeZoneState(l)
		cs = append(cs, c{a, b, p, string(s), n})
	}
	for a := 0; a <= 12; a++ {
		for b := 0; b <= 14; b++ {
			one(a, b, 55)
		}
	}
	r := rand.New(rand.NewSource(5))
	for i := 0; i < 300; i++ {
		p := r.Intn(101)
		n := 1 + r.Intn(1000)
		b := n*p/100 + r.Intn(3) - 1
		if b < 0 || b > n {
			continue
		}
		one(n-b, b, p)
	}
	recordOut("zones.json", cs)
	type q struct {
		Size      int     `json:"size"`
		Threshold int32   `json:"threshold"`
		Primary   float32 `json:"primary"`
		Secondary float32 `json:"secondary"`
		Partial   float32 `json:"partial"`
		Full      float32 `json:"full"`
	}
	qs := []q{}
	for i := 0; i < 300; i++ {
		x := q{Size: r.Intn(120), Threshold: int32(r.Intn(100)), Primary: 0.1, Secondary: 0.01}
		if i%4 == 0 {
			x.Size = int(x.Threshold) + r.Intn(3) - 1
		}
		nc := &Controller{evictionLimiterQPS: x.Primary, secondaryEvictionLimiterQPS: x.Secondary, largeClusterThreshold: x.Threshold}
		x.Partial, x.Full = nc.ReducedQPSFunc(x.Size), nc.HealthyQPSFunc(x.Size)
		qs = append(qs, x)
	}
	recordOut("rates.json", qs)
}

// ---- stepwise node health ----

type hOp struct {
	Op    string            `json:"op"` // advance, add, remove, ready, noready, lease, nolease, tick, taint
	Ms    int64             `json:"ms,omitempty"`
	Node  string            `json:"node,omitempty"`
	Zone  string            `json:"zone,omitempty"`
	Age   int64             `json:"age_s,omitempty"` // the node was created so long before it is added here
	Stat  string            `json:"status,omitempty"`
	Beat  *int64            `json:"heartbeat_s,omitempty"`
	Renew *int64            `json:"renew_us,omitempty"`
	AtUs  int64             `json:"at_us"`
	Nodes map[string]hNode  `json:"nodes,omitempty"`
	Zones map[string]string `json:"zones,omitempty"`
	Panic string            `json:"panic,omitempty"` // the upstream code panicked; the case ends here
}
type hNode struct {
	Ready      string   `json:"ready"` // empty: none
	Reason     string   `json:"reason"`
	Beat       *int64   `json:"heartbeat_s"`
	Transition *int64   `json:"transition_s"`
	ProbeUs    *int64   `json:"probe_us"`
	Taints     []string `json:"taints"` // key@added_s, NoExecute only, in order
}
type hCase struct {
	Grace   int64 `json:"grace_ms"`
	Startup int64 `json:"startup_ms"`
	Ops     []hOp `json:"ops"`
}

type world struct {
	nc   *nodeLifecycleController
	cl   *fake.Clientset
	base time.Time
	last map[string]string
}

func (w *world) sync() {
	ns, _ := w.cl.CoreV1().Nodes().List(context.TODO(), metav1.ListOptions{})
	l := []interface{}{}
	sort.Slice(ns.Items, func(i, j int) bool { return ns.Items[i].Name < ns.Items[j].Name })
	for i := range ns.Items {
		l = append(l, &ns.Items[i])
	}
	w.nc.nodeInformer.Informer().GetStore().Replace(l, "")
	ls, _ := w.cl.CoordinationV1().Leases(v1.NamespaceNodeLease).List(context.TODO(), metav1.ListOptions{})
	m := []interface{}{}
	for i := range ls.Items {
		m = append(m, &ls.Items[i])
	}
	w.nc.leaseInformer.Informer().GetStore().Replace(m, "")
}

func newWorld(grace, startup time.Duration) *world {
	cl := fake.NewSimpleClientset()
	nc, err := newNodeLifecycleControllerFromClient(cl, 5*time.Minute, 0.1, 0.01, 50, 0.55, grace, startup, 5*time.Second, true)
	if err != nil {
		panic(err)
	}
	nc.recorder = testutil.NewFakeRecorder()
	nc.getPodsAssignedToNode = func(string) ([]*v1.Pod, error) { return nil, nil }
	return &world{nc, cl, time.Now(), map[string]string{}}
}

// taint runs the tainting pass and answers the text of a panic in it.
func (w *world) taint() (text string) {
	defer func() {
		if e := recover(); e != nil {
			text = fmt.Sprint(e)
		}
	}()
	w.nc.doNoExecuteTaintingPass()
	return ""
}

func (w *world) sec(t metav1.Time) *int64 {
	if t.IsZero() {
		return nil
	}
	v := t.Unix() - w.base.Unix()
	return &v
}

func (w *world) seen() (map[string]hNode, map[string]string) {
	ns, _ := w.cl.CoreV1().Nodes().List(context.TODO(), metav1.ListOptions{})
	o := map[string]hNode{}
	for i := range ns.Items {
		n := &ns.Items[i]
		h := hNode{Taints: []string{}}
		for _, c := range n.Status.Conditions {
			if c.Type == v1.NodeReady {
				h.Ready, h.Reason, h.Beat, h.Transition = string(c.Status), c.Reason, w.sec(c.LastHeartbeatTime), w.sec(c.LastTransitionTime)
			}
		}
		if d := w.nc.nodeHealthMap.getDeepCopy(n.Name); d != nil {
			v := d.probeTimestamp.Time.Sub(w.base).Microseconds()
			h.ProbeUs = &v
		}
		for _, x := range n.Spec.Taints {
			if x.Effect == v1.TaintEffectNoExecute {
				a := int64(-1)
				if x.TimeAdded != nil {
					a = x.TimeAdded.Unix() - w.base.Unix()
				}
				h.Taints = append(h.Taints, fmt.Sprintf("%s@%d", x.Key, a))
			}
		}
		// only what changed since the last look is written
		if b, _ := json.Marshal(h); string(b) != w.last[n.Name] {
			w.last[n.Name] = string(b)
			o[n.Name] = h
		}
	}
	z := map[string]string{}
	for k, s := range w.nc.zoneStates {
		z[k[len(k)-1:]] = string(s)
	}
	return o, z
}

func (w *world) setReady(name, stat string, beat *int64) {
	n, err := w.cl.CoreV1().Nodes().Get(context.TODO(), name, metav1.GetOptions{})
	if err != nil {
		return
	}
	keep := []v1.NodeCondition{}
	var old *v1.NodeCondition
	for i := range n.Status.Conditions {
		if n.Status.Conditions[i].Type == v1.NodeReady {
			old = &n.Status.Conditions[i]
		}
	}
	if stat != "" {
		c := v1.NodeCondition{Type: v1.NodeReady, Status: v1.ConditionStatus(stat), Reason: "KubeletReady"}
		if stat == "False" {
			c.Reason = "KubeletNotReady"
		}
		if beat != nil {
			c.LastHeartbeatTime = metav1.NewTime(time.Unix(w.base.Unix()+*beat, 0))
		}
		c.LastTransitionTime = metav1.NewTime(time.Unix(time.Now().Unix(), 0))
		if old != nil && old.Status == c.Status {
			c.LastTransitionTime = old.LastTransitionTime
		}
		keep = append(keep, c)
	}
	n.Status.Conditions = keep
	w.cl.CoreV1().Nodes().UpdateStatus(context.TODO(), n, metav1.UpdateOptions{})
}

func (w *world) setLease(name string, renew *int64) {
	l := w.cl.CoordinationV1().Leases(v1.NamespaceNodeLease)
	x := &coordv1.Lease{ObjectMeta: metav1.ObjectMeta{Name: name, Namespace: v1.NamespaceNodeLease}}
	if renew != nil {
		x.Spec.RenewTime = &metav1.MicroTime{Time: w.base.Add(time.Duration(*renew) * time.Microsecond)}
	}
	if _, err := l.Update(context.TODO(), x, metav1.UpdateOptions{}); err != nil {
		l.Create(context.TODO(), x, metav1.CreateOptions{})
	}
}

func (w *world) addNode(name, zone string, age int64) {
	w.cl.CoreV1().Nodes().Create(context.TODO(), &v1.Node{ObjectMeta: metav1.ObjectMeta{Name: name,
		CreationTimestamp: metav1.NewTime(time.Unix(time.Now().Unix()-age, 0)),
		Labels:            map[string]string{v1.LabelTopologyRegion: "r", v1.LabelTopologyZone: zone}}}, metav1.CreateOptions{})
}

func TestRecordHealth(t *testing.T) {
	r := rand.New(rand.NewSource(6))
	cs := []*hCase{}
cases:
	for i := 0; i < 60; i++ {
		c := &hCase{Grace: 40000, Startup: 60000}
		cs = append(cs, c)
		time.Sleep(time.Second - time.Duration(time.Now().Nanosecond()))
		w := newWorld(40*time.Second, 60*time.Second)
		us := func() int64 { return time.Since(w.base).Microseconds() }
		names := []string{"a", "b", "c", "d", "e", "f"}[:1+r.Intn(6)]
		calm := i%2 == 0 // calm cases: what lawful kubelets do; wild ones: odd edits too
		alive := map[string]bool{}
		rec := func(o hOp) { o.AtUs = us(); c.Ops = append(c.Ops, o) }
		for _, n := range names {
			z := "xyz"[r.Intn(2):][:1]
			age := []int64{0, 0, 0, 30, 90}[r.Intn(5)]
			w.addNode(n, z, age)
			rec(hOp{Op: "add", Node: n, Zone: z, Age: age})
			alive[n] = true
			if r.Intn(5) > 0 {
				b := us() / 1000000
				w.setReady(n, "True", &b)
				rec(hOp{Op: "ready", Node: n, Stat: "True", Beat: &b})
			}
		}
		stat := map[string]string{}
		for k := 0; k < 40; k++ {
			for _, n := range names {
				if r.Intn(12) == 0 {
					alive[n] = !alive[n]
				}
				if alive[n] && k%2 == 0 {
					b := us()
					w.setLease(n, &b)
					rec(hOp{Op: "lease", Node: n, Renew: &b})
				}
				if alive[n] && r.Intn(8) == 0 {
					b := us() / 1000000
					s := "True"
					if r.Intn(3) == 0 {
						s = "False"
					}
					stat[n] = s
					w.setReady(n, s, &b)
					rec(hOp{Op: "ready", Node: n, Stat: s, Beat: &b})
				}
				if !calm && r.Intn(25) == 0 {
					switch r.Intn(6) {
					case 0:
						w.setReady(n, "", nil)
						rec(hOp{Op: "noready", Node: n})
					case 1:
						w.setReady(n, "True", nil)
						rec(hOp{Op: "ready", Node: n, Stat: "True"})
					case 2:
						w.cl.CoordinationV1().Leases(v1.NamespaceNodeLease).Delete(context.TODO(), n, metav1.DeleteOptions{})
						rec(hOp{Op: "nolease", Node: n})
					case 3:
						w.setLease(n, nil)
						rec(hOp{Op: "lease", Node: n})
					case 4:
						b := us() - 30000000
						w.setLease(n, &b)
						rec(hOp{Op: "lease", Node: n, Renew: &b})
					case 5:
						w.cl.CoreV1().Nodes().Delete(context.TODO(), n, metav1.DeleteOptions{})
						rec(hOp{Op: "remove", Node: n})
						if r.Intn(2) == 0 {
							w.sync()
							w.nc.monitorNodeHealth()
							w.sync()
							o := hOp{Op: "tick", Panic: w.taint()}
							o.Nodes, o.Zones = w.seen()
							rec(o)
							if o.Panic != "" {
								continue cases
							}
						}
						z := "xyz"[r.Intn(2):][:1]
						w.addNode(n, z, 0)
						rec(hOp{Op: "add", Node: n, Zone: z})
					}
				}
			}
			w.sync()
			if err := w.nc.monitorNodeHealth(); err != nil {
				t.Fatal(err)
			}
			w.sync()
			o := hOp{Op: "tick", Panic: w.taint()}
			o.Nodes, o.Zones = w.seen()
			rec(o)
			for j := 0; j < 4 && o.Panic == ""; j++ {
				time.Sleep(time.Second)
				w.sync()
				o = hOp{Op: "taint", Panic: w.taint()}
				if j == 3 || o.Panic != "" {
					o.Nodes, _ = w.seen()
					rec(o)
				}
			}
			if o.Panic != "" {
				continue cases
			}
			time.Sleep(time.Second)
		}
	}
	recordOut("health.json", cs)
}

// ---- whole runs with informers ----

type line struct {
	AtMs int64  `json:"at_ms"`
	What string `json:"what"`
}
type runSpec struct {
	Name     string
	Nodes    int
	Pods     int
	Tol      func(i int) int64
	Zones    int
	DiesMs   map[int]int64 // node -> last renewal at or before this
	BackMs   map[int]int64
	Terms    [][2]int64 // start, stop of leading, ms
	EndMs    int64
	Quiet    bool
	OnNodeOf func(i int) int
}

// termClient is a client on the same tracker that answers errors once killed,
// as the calls of a process that is gone reach nobody.
func termClient(cl *fake.Clientset, note func(string)) (*fake.Clientset, func()) {
	var mu sync.Mutex
	dead := false
	gone := func() bool { mu.Lock(); defer mu.Unlock(); return dead }
	t := fake.NewSimpleClientset()
	react := clienttesting.ObjectReaction(cl.Tracker())
	t.PrependReactor("*", "*", func(a clienttesting.Action) (bool, runtime.Object, error) {
		if gone() {
			return true, nil, fmt.Errorf("gone")
		}
		if d, ok := a.(clienttesting.DeleteAction); ok && a.GetResource().Resource == "pods" {
			note("evict " + d.GetName())
		}
		if c, ok := a.(clienttesting.CreateAction); ok && a.GetResource().Resource == "events" {
			return true, c.GetObject(), nil
		}
		return react(a)
	})
	t.PrependWatchReactor("*", func(a clienttesting.Action) (bool, watch.Interface, error) {
		w, err := cl.Tracker().Watch(a.GetResource(), a.GetNamespace())
		return true, w, err
	})
	return t, func() { mu.Lock(); dead = true; mu.Unlock() }
}

func runWorld(s runSpec) []line {
	time.Sleep(time.Second - time.Duration(time.Now().Nanosecond()))
	base := time.Now()
	ms := func() int64 { return time.Since(base).Milliseconds() }
	objs := []runtime.Object{}
	for i := 0; i < s.Nodes; i++ {
		n := &v1.Node{ObjectMeta: metav1.ObjectMeta{Name: fmt.Sprintf("n%d", i), CreationTimestamp: metav1.NewTime(base.Add(-time.Hour)),
			Labels: map[string]string{v1.LabelTopologyRegion: "r1", v1.LabelTopologyZone: fmt.Sprintf("z%d", i%s.Zones)}}}
		n.Status.Conditions = []v1.NodeCondition{{Type: v1.NodeReady, Status: v1.ConditionTrue, Reason: "KubeletReady",
			LastHeartbeatTime: metav1.NewTime(base), LastTransitionTime: metav1.NewTime(base)}}
		objs = append(objs, n)
	}
	for i := 0; i < s.Pods; i++ {
		x := s.Tol(i)
		objs = append(objs, &v1.Pod{ObjectMeta: metav1.ObjectMeta{Name: fmt.Sprintf("p%d", i), Namespace: "default"},
			Spec: v1.PodSpec{NodeName: fmt.Sprintf("n%d", s.OnNodeOf(i)), Tolerations: []v1.Toleration{
				{Key: v1.TaintNodeNotReady, Operator: v1.TolerationOpExists, Effect: v1.TaintEffectNoExecute, TolerationSeconds: &x},
				{Key: v1.TaintNodeUnreachable, Operator: v1.TolerationOpExists, Effect: v1.TaintEffectNoExecute, TolerationSeconds: &x}}}})
	}
	cl := fake.NewSimpleClientset(objs...)
	var mu sync.Mutex
	lines := []line{}
	last := map[string]string{}
	note := func(w string) { mu.Lock(); lines = append(lines, line{ms(), w}); mu.Unlock() }
	show := func(n *v1.Node) string {
		st, tt := "none", ""
		for _, c := range n.Status.Conditions {
			if c.Type == v1.NodeReady {
				st = string(c.Status) + "/" + c.Reason
			}
		}
		for _, x := range n.Spec.Taints {
			k := string(x.Effect) + ":" + x.Key[len("node.kubernetes.io/"):]
			if x.Effect == v1.TaintEffectNoExecute && x.TimeAdded != nil {
				k += fmt.Sprintf("@%d", x.TimeAdded.Unix()-base.Unix())
			}
			tt += " " + k
		}
		return st + tt
	}
	wch, _ := cl.CoreV1().Nodes().Watch(context.TODO(), metav1.ListOptions{})
	go func() {
		for e := range wch.ResultChan() {
			n := e.Object.(*v1.Node)
			if x := show(n); x != last[n.Name] {
				last[n.Name] = x
				note("node " + n.Name + " " + x)
			}
		}
	}()
	done := make(chan struct{})
	go func() { // the kubelets: a renewal each 10 s from 5 s on, in slices
		for k := int64(0); ; k++ {
			at := 5000 + k*10000
			if at >= s.EndMs {
				close(done)
				return
			}
			time.Sleep(time.Duration(at)*time.Millisecond - time.Since(base))
			for i := 0; i < s.Nodes; i++ {
				if d, ok := s.DiesMs[i]; ok && at > d {
					if b, ok := s.BackMs[i]; !ok || at < b {
						continue
					}
				}
				nm := fmt.Sprintf("n%d", i)
				now := metav1.NewMicroTime(time.Now())
				l := &coordv1.Lease{ObjectMeta: metav1.ObjectMeta{Name: nm, Namespace: v1.NamespaceNodeLease}, Spec: coordv1.LeaseSpec{RenewTime: &now}}
				if k == 0 {
					cl.CoordinationV1().Leases(v1.NamespaceNodeLease).Create(context.TODO(), l, metav1.CreateOptions{})
				} else {
					cl.CoordinationV1().Leases(v1.NamespaceNodeLease).Update(context.TODO(), l, metav1.UpdateOptions{})
				}
				if b, ok := s.BackMs[i]; ok && at >= b && at < b+10000 {
					n, _ := cl.CoreV1().Nodes().Get(context.TODO(), nm, metav1.GetOptions{})
					for j := range n.Status.Conditions {
						if n.Status.Conditions[j].Type == v1.NodeReady {
							n.Status.Conditions[j].Status, n.Status.Conditions[j].Reason = v1.ConditionTrue, "KubeletReady"
							n.Status.Conditions[j].LastHeartbeatTime = metav1.Now()
						}
					}
					cl.CoreV1().Nodes().UpdateStatus(context.TODO(), n, metav1.UpdateOptions{})
				}
				if i%20 == 19 {
					time.Sleep(time.Microsecond) // let the watchers drain
				}
			}
		}
	}()
	for _, term := range s.Terms {
		time.Sleep(time.Duration(term[0])*time.Millisecond - time.Since(base))
		note("lead")
		stop := make(chan struct{})
		tcl, kill := termClient(cl, note)
		f := informers.NewSharedInformerFactory(tcl, 0)
		nc, err := NewNodeLifecycleController(f.Coordination().V1().Leases(), f.Core().V1().Pods(), f.Core().V1().Nodes(),
			f.Apps().V1().DaemonSets(), tcl, 5*time.Second, 60*time.Second, 40*time.Second, 5*time.Minute, 0.1, 0.01, 50, 0.55, true)
		if err != nil {
			panic(err)
		}
		nc.recorder = testutil.NewFakeRecorder()
		go nc.Run(stop)
		f.Start(stop)
		time.Sleep(time.Duration(term[1])*time.Millisecond - time.Since(base))
		kill()
		close(stop)
		note("lost")
	}
	if d := time.Duration(s.EndMs)*time.Millisecond - time.Since(base); d > 0 {
		time.Sleep(d)
	}
	<-done
	wch.Stop()
	mu.Lock()
	defer mu.Unlock()
	return append([]line{}, lines...)
}

func TestRecordRuns(t *testing.T) {
	o := map[string][]line{}
	// three nodes, one dies after 15 s, leader gone 100..226 s
	o["dead_node_failover"] = runWorld(runSpec{Nodes: 3, Zones: 1, Pods: 3, Tol: func(int) int64 { return 300 }, OnNodeOf: func(i int) int { return i },
		DiesMs: map[int]int64{2: 16000}, Terms: [][2]int64{{4000, 100000}, {226000, 900000}}, EndMs: 900000})
	// the same without a change of leader
	o["one_leader"] = runWorld(runSpec{Nodes: 3, Zones: 1, Pods: 3, Tol: func(int) int64 { return 300 }, OnNodeOf: func(i int) int { return i },
		DiesMs: map[int]int64{2: 16000}, Terms: [][2]int64{{4000, 900000}}, EndMs: 900000})
	// five of twelve nodes die together, another one 60 s later: order and rate of tainting
	o["queue_of_five"] = runWorld(runSpec{Nodes: 12, Zones: 1, Pods: 12, Tol: func(int) int64 { return 100000 }, OnNodeOf: func(i int) int { return i },
		DiesMs: map[int]int64{0: 16000, 1: 16000, 2: 16000, 3: 16000, 4: 16000, 5: 46000}, Terms: [][2]int64{{4000, 400000}}, EndMs: 400000})
	// everything dies, then one node comes back
	o["all_full"] = runWorld(runSpec{Nodes: 4, Zones: 2, Pods: 4, Tol: func(int) int64 { return 300 }, OnNodeOf: func(i int) int { return i },
		DiesMs: map[int]int64{0: 16000, 1: 36000, 2: 16000, 3: 66000}, BackMs: map[int]int64{3: 200000}, Terms: [][2]int64{{4000, 700000}}, EndMs: 700000})
	recordOut("runs.json", o)
}

// The generated document's shape: a quarter of the nodes die at a random time.
func TestPerfReplay(t *testing.T) {
	if os.Getenv("RECORD_SPEED") == "" {
		t.Skip()
	}
	r := rand.New(rand.NewSource(7))
	s := runSpec{Nodes: 1000, Zones: 5, Pods: 30000, EndMs: 1200000, DiesMs: map[int]int64{}, Terms: [][2]int64{{4000, 600000}, {622000, 1200000}}, Quiet: true}
	for i := 0; i < s.Nodes; i++ {
		if r.Intn(4) == 0 {
			s.DiesMs[i] = int64(r.Intn(1200)) * 1000
		}
	}
	tol, on := make([]int64, s.Pods), make([]int, s.Pods)
	for i := range tol {
		on[i], tol[i] = r.Intn(s.Nodes), int64(r.Intn(600))
	}
	s.Tol, s.OnNodeOf = func(i int) int64 { return tol[i] }, func(i int) int { return on[i] }
	l := runWorld(s)
	n := map[string]int{}
	for _, x := range l {
		k := "node"
		if len(x.What) > 5 && x.What[:5] == "evict" {
			k = "evict"
		}
		n[k]++
	}
	recordOut("perf_counts.tmp", n)
}

// ---- costs (run without faketime) ----

func benchWorld(n int) *world {
	w := newWorld(40*time.Second, 60*time.Second)
	l, m := []interface{}{}, []interface{}{}
	for i := 0; i < n; i++ {
		now := metav1.Now()
		x := &v1.Node{ObjectMeta: metav1.ObjectMeta{Name: fmt.Sprintf("n%d", i),
			Labels: map[string]string{v1.LabelTopologyRegion: "r1", v1.LabelTopologyZone: fmt.Sprintf("z%d", i%5)}}}
		x.Status.Conditions = []v1.NodeCondition{{Type: v1.NodeReady, Status: v1.ConditionTrue, LastHeartbeatTime: now, LastTransitionTime: now}}
		l = append(l, x)
		rt := metav1.NowMicro()
		m = append(m, &coordv1.Lease{ObjectMeta: metav1.ObjectMeta{Name: x.Name, Namespace: v1.NamespaceNodeLease}, Spec: coordv1.LeaseSpec{RenewTime: &rt}})
	}
	w.nc.nodeInformer.Informer().GetStore().Replace(l, "")
	w.nc.leaseInformer.Informer().GetStore().Replace(m, "")
	return w
}

func benchPass(b *testing.B, n int) {
	w := benchWorld(n)
	b.ReportAllocs()
	b.ResetTimer()
	for i := 0; i < b.N; i++ {
		if err := w.nc.monitorNodeHealth(); err != nil {
			b.Fatal(err)
		}
	}
}
func BenchmarkRecordPass1000(b *testing.B) { benchPass(b, 1000) }
func BenchmarkRecordPass100(b *testing.B)  { benchPass(b, 100) }
