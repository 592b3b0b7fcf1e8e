// Records answers (this project's own code) for tolerations, the taint manager
// and the rate limited queue. Placed by record.sh; needs the faketime build tag.
package scheduler

import (
	"encoding/json"
	"math/rand"
	"os"
	"path/filepath"
	"sort"
	"sync"
	"testing"
	"time"

	v1 "k8s.io/api/core/v1"
	apierrors "k8s.io/apimachinery/pkg/api/errors"
	metav1 "k8s.io/apimachinery/pkg/apis/meta/v1"
	"k8s.io/apimachinery/pkg/runtime"
	"k8s.io/apimachinery/pkg/runtime/schema"
	"k8s.io/client-go/kubernetes/fake"
	clienttesting "k8s.io/client-go/testing"
	"k8s.io/client-go/util/flowcontrol"
	v1helper "k8s.io/kubernetes/pkg/apis/core/v1/helper"
)

func recordOut(name string, v interface{}) {
	b, err := json.Marshal(v)
	if err != nil {
		panic(err)
	}
	if err := os.WriteFile(filepath.Join(os.Getenv("RECORD_OUT"), name), append(b, '\n'), 0o644); err != nil {
		panic(err)
	}
}

type oTaint struct {
	Key    string `json:"key"`
	Value  string `json:"value"`
	Effect string `json:"effect"`
	Added  int64  `json:"added_s"`
}
type oTol struct {
	Key      string `json:"key"`
	Operator string `json:"operator"`
	Value    string `json:"value"`
	Effect   string `json:"effect"`
	Seconds  *int64 `json:"seconds"`
}

func (t oTaint) up(base time.Time) v1.Taint {
	at := metav1.NewTime(base.Add(time.Duration(t.Added) * time.Second))
	return v1.Taint{Key: t.Key, Value: t.Value, Effect: v1.TaintEffect(t.Effect), TimeAdded: &at}
}
func (t oTol) up() v1.Toleration {
	return v1.Toleration{Key: t.Key, Operator: v1.TolerationOperator(t.Operator), Value: t.Value,
		Effect: v1.TaintEffect(t.Effect), TolerationSeconds: t.Seconds}
}

var oKeys = []string{"node.kubernetes.io/not-ready", "node.kubernetes.io/unreachable", "k"}
var oEffects = []string{"NoSchedule", "PreferNoSchedule", "NoExecute"}

// lawful draws are those that 04 E can read; wild ones go past its own rule 17.
func oRandTol(r *rand.Rand, lawful bool) oTol {
	t := oTol{Operator: []string{"", "Equal", "Exists"}[r.Intn(3)]}
	if r.Intn(5) > 0 {
		t.Key = oKeys[r.Intn(3)]
	}
	t.Value = []string{"", "", "v", "w"}[r.Intn(4)]
	if r.Intn(2) == 0 {
		t.Effect = oEffects[r.Intn(3)]
	}
	if r.Intn(2) == 0 {
		s := []int64{-5, 0, 1, 10, 300, 600, int64(r.Intn(700))}[r.Intn(7)]
		t.Seconds = &s
	}
	if lawful {
		if t.Key == "" {
			t.Operator = "Exists"
		}
		if t.Operator == "Exists" {
			t.Value = ""
		}
		if t.Seconds != nil {
			t.Effect = "NoExecute"
		}
	}
	return t
}
func oRandTaint(r *rand.Rand) oTaint {
	return oTaint{Key: oKeys[r.Intn(3)], Value: []string{"", "v", "w"}[r.Intn(3)], Effect: oEffects[r.Intn(3)]}
}

func TestRecordTolerates(t *testing.T) {
	r := rand.New(rand.NewSource(1))
	type c struct {
		Lawful     bool   `json:"lawful"`
		Toleration oTol   `json:"toleration"`
		Taint      oTaint `json:"taint"`
		Tolerates  bool   `json:"tolerates"`
	}
	cs := []c{}
	for i := 0; i < 500; i++ {
		lawful := i%5 != 0
		x, y := oRandTol(r, lawful), oRandTaint(r)
		tol, ta := x.up(), y.up(time.Now())
		cs = append(cs, c{lawful, x, y, tol.ToleratesTaint(&ta)})
	}
	recordOut("tolerates.json", cs)
}

func TestRecordMatching(t *testing.T) {
	r := rand.New(rand.NewSource(2))
	type c struct {
		Taints      []oTaint `json:"taints"`
		Tolerations []oTol   `json:"tolerations"`
		All         bool     `json:"all_tolerated"`
		MinNanos    int64    `json:"min_nanos"` // -1 forever; only where all_tolerated
	}
	cs := []c{}
	big := []int64{9223372036, 9223372037, 9223372038, 18446744074, 27670116111, 9223372036854775806, 9223372036854775807}
	for i := 0; i < 500; i++ {
		var k c
		ts, ls := []v1.Taint{}, []v1.Toleration{}
		for j, n := 0, r.Intn(4); j < n; j++ {
			x := oRandTaint(r)
			if r.Intn(3) > 0 {
				x.Effect = "NoExecute"
			}
			dup := false
			for _, e := range k.Taints {
				dup = dup || e.Key == x.Key && e.Effect == x.Effect
			}
			if !dup {
				k.Taints = append(k.Taints, x)
				ts = append(ts, x.up(time.Now()))
			}
		}
		for j, n := 0, r.Intn(5); j < n; j++ {
			x := oRandTol(r, true)
			if i%10 == 9 && x.Seconds != nil {
				s := big[r.Intn(len(big))]
				x.Seconds = &s
			}
			k.Tolerations = append(k.Tolerations, x)
			ls = append(ls, x.up())
		}
		all, used := v1helper.GetMatchingTolerations(getNoExecuteTaints(ts), ls)
		k.All = all
		if all {
			if len(getNoExecuteTaints(ts)) == 0 {
				k.MinNanos = -1
			} else {
				k.MinNanos = int64(getMinTolerationTime(used))
			}
		}
		cs = append(cs, k)
	}
	recordOut("matching.json", cs)
}

// ---- the taint manager: when is each pod deleted? ----

type oEvent struct {
	AtMs   int64    `json:"at_ms"`
	Taints []oTaint `json:"taints"` // the node's whole list from now on
}
type oPod struct {
	Name        string `json:"name"`
	Tolerations []oTol `json:"tolerations"`
	DeletedMs   int64  `json:"deleted_ms"` // -1 not by the end
}
type oEvict struct {
	EndMs  int64    `json:"end_ms"`
	Pods   []oPod   `json:"pods"`
	Events []oEvent `json:"events"`
}

func TestRecordTaintManager(t *testing.T) {
	r := rand.New(rand.NewSource(3))
	cs := []oEvict{}
	for i := 0; i < 150; i++ {
		c := oEvict{EndMs: 1200000}
		for j, n := 0, 1+r.Intn(4); j < n; j++ {
			p := oPod{Name: string(rune('a' + j)), DeletedMs: -1}
			for _, k := range []int{0, 1} {
				if r.Intn(4) > 0 {
					x := oTol{Key: oKeys[k], Operator: "Exists", Effect: "NoExecute"}
					if r.Intn(6) > 0 {
						s := []int64{0, 10, 60, 300, 300, int64(r.Intn(400))}[r.Intn(6)]
						x.Seconds = &s
					}
					p.Tolerations = append(p.Tolerations, x)
				}
			}
			if r.Intn(5) == 0 {
				p.Tolerations = append(p.Tolerations, oTol{Operator: "Exists"})
			}
			c.Pods = append(c.Pods, p)
		}
		at := int64(1000)
		cur := []oTaint{}
		for j, n := 0, 1+r.Intn(4); j < n; j++ {
			s := at / 1000
			x := oTaint{Key: oKeys[r.Intn(2)], Effect: "NoExecute", Added: s}
			switch r.Intn(5) {
			case 0:
				cur = []oTaint{}
			case 1:
				cur = append(append([]oTaint{}, cur...), x)
				if len(cur) == 2 && cur[0].Key == cur[1].Key {
					cur = cur[:1]
				}
				if len(cur) > 2 {
					cur = cur[:2]
				}
			default:
				cur = []oTaint{x}
			}
			c.Events = append(c.Events, oEvent{at, append([]oTaint{}, cur...)})
			at += 1000 * int64(1+r.Intn(200))
		}
		runEvict(&c)
		cs = append(cs, c)
	}
	recordOut("taint_manager.json", cs)
}

func runEvict(c *oEvict) {
	base := time.Now()
	var mu sync.Mutex
	node := &v1.Node{ObjectMeta: metav1.ObjectMeta{Name: "n"}}
	pods := map[string]*v1.Pod{}
	idx := map[string]int{}
	for i, p := range c.Pods {
		x := &v1.Pod{ObjectMeta: metav1.ObjectMeta{Name: p.Name, Namespace: "default"}, Spec: v1.PodSpec{NodeName: "n"}}
		for _, l := range p.Tolerations {
			x.Spec.Tolerations = append(x.Spec.Tolerations, l.up())
		}
		pods[p.Name], idx[p.Name] = x, i
	}
	var tm *NoExecuteTaintManager
	cl := fake.NewSimpleClientset()
	cl.PrependReactor("delete", "pods", func(a clienttesting.Action) (bool, runtime.Object, error) {
		mu.Lock()
		defer mu.Unlock()
		n := a.(clienttesting.DeleteAction).GetName()
		p, ok := pods[n]
		if !ok {
			return true, nil, apierrors.NewNotFound(schema.GroupResource{Resource: "pods"}, n)
		}
		c.Pods[idx[n]].DeletedMs = time.Since(base).Milliseconds()
		delete(pods, n)
		go tm.PodUpdated(p, nil)
		return true, nil, nil
	})
	tm = NewNoExecuteTaintManager(cl,
		func(n, ns string) (*v1.Pod, error) {
			mu.Lock()
			defer mu.Unlock()
			if p, ok := pods[n]; ok {
				return p, nil
			}
			return nil, apierrors.NewNotFound(schema.GroupResource{Resource: "pods"}, n)
		},
		func(string) (*v1.Node, error) { mu.Lock(); defer mu.Unlock(); return node, nil },
		func(string) ([]*v1.Pod, error) {
			mu.Lock()
			defer mu.Unlock()
			o := []*v1.Pod{}
			for _, p := range pods {
				o = append(o, p)
			}
			sort.Slice(o, func(i, j int) bool { return o[i].Name < o[j].Name })
			return o, nil
		})
	stop := make(chan struct{})
	go tm.Run(stop)
	for _, e := range c.Events {
		time.Sleep(time.Duration(e.AtMs)*time.Millisecond - time.Since(base))
		old := node
		nn := old.DeepCopy()
		nn.Spec.Taints = nil
		for _, x := range e.Taints {
			nn.Spec.Taints = append(nn.Spec.Taints, x.up(base))
		}
		mu.Lock()
		node = nn
		mu.Unlock()
		tm.NodeUpdated(old, nn)
	}
	time.Sleep(time.Duration(c.EndMs)*time.Millisecond - time.Since(base))
	close(stop)
	tm.nodeUpdateQueue.ShutDown()
	tm.podUpdateQueue.ShutDown()
}

// ---- the rate limited queue ----

type oQop struct {
	AtMs int64   `json:"at_ms"`
	Op   string  `json:"op"` // add, remove, swap, end
	Node string  `json:"node,omitempty"`
	Rate float32 `json:"rate,omitempty"`
}
type oQcase struct {
	Rate float32 `json:"rate"`
	Ops  []oQop  `json:"ops"`
	Done []oQop  `json:"done"` // what Try took, tried each 100 ms
}

func TestRecordQueue(t *testing.T) {
	r := rand.New(rand.NewSource(4))
	cs := []oQcase{}
	for i := 0; i < 120; i++ {
		rates := []float32{0.1, 0.01, 0, 1, 0.25}
		c := oQcase{Rate: []float32{0.1, 0.1, 1, 0.25}[r.Intn(4)]}
		at := int64(50)
		for j := 0; j < 25; j++ {
			op := oQop{AtMs: at, Node: string(rune('a' + r.Intn(8)))}
			switch x := r.Intn(10); {
			case x < 6:
				op.Op = "add"
			case x < 8:
				op.Op = "remove"
			default:
				op.Op, op.Node, op.Rate = "swap", "", rates[r.Intn(5)]
				if i%3 == 0 {
					op.Rate = c.Rate
				}
			}
			c.Ops = append(c.Ops, op)
			at += []int64{0, 100, 1000, 5000, 12000}[r.Intn(5)]
		}
		end := at + 60000
		base := time.Now()
		q := NewRateLimitedTimedQueue(flowcontrol.NewTokenBucketRateLimiter(c.Rate, EvictionRateLimiterBurst))
		k := 0
		for ms := int64(0); ms <= end; ms += 50 {
			for k < len(c.Ops) && c.Ops[k].AtMs == ms {
				switch o := c.Ops[k]; o.Op {
				case "add":
					q.Add(o.Node, "u")
				case "remove":
					q.Remove(o.Node)
				case "swap":
					q.SwapLimiter(o.Rate)
				}
				k++
			}
			if ms%100 == 0 {
				q.Try(func(v TimedValue) (bool, time.Duration) {
					c.Done = append(c.Done, oQop{AtMs: ms, Op: "take", Node: v.Value})
					q.Remove(v.Value) // as when the node is seen tainted and later reachable
					return true, 0
				})
			}
			time.Sleep(50*time.Millisecond - time.Since(base)%(50*time.Millisecond))
		}
		c.Ops = append(c.Ops, oQop{AtMs: end, Op: "end"})
		cs = append(cs, c)
	}
	recordOut("queue.json", cs)
}

// ---- cost of one pod's answer (run without faketime) ----

func BenchmarkRecordDue(b *testing.B) {
	s := int64(300)
	l := []v1.Toleration{
		{Key: v1.TaintNodeNotReady, Operator: v1.TolerationOpExists, Effect: v1.TaintEffectNoExecute, TolerationSeconds: &s},
		{Key: v1.TaintNodeUnreachable, Operator: v1.TolerationOpExists, Effect: v1.TaintEffectNoExecute, TolerationSeconds: &s}}
	ts := []v1.Taint{{Key: v1.TaintNodeUnreachable, Effect: v1.TaintEffectNoExecute}}
	b.ReportAllocs()
	for i := 0; i < b.N; i++ {
		all, used := v1helper.GetMatchingTolerations(getNoExecuteTaints(ts), l)
		if !all || getMinTolerationTime(used) != 300*time.Second {
			b.Fatal("wrong")
		}
	}
}
