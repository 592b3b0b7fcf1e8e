// Further vectors of the real taint manager: pods that come to a node later, and nodes that are removed and return.
// Placed beside scheduler_test.go, whose types it uses; needs Go's faketime build tag.
package scheduler

import (
	"math/rand"
	"sort"
	"sync"
	"testing"
	"time"

	v1 "k8s.io/api/core/v1"
	apierrors "k8s.io/apimachinery/pkg/api/errors"
	metav1 "k8s.io/apimachinery/pkg/apis/meta/v1"
	"k8s.io/apimachinery/pkg/runtime"
	"k8s.io/apimachinery/pkg/runtime/schema"
	"k8s.io/client-go/kubernetes/fake"
	clienttesting "k8s.io/client-go/testing"
)

type mEvent struct {
	AtMs   int64    `json:"at_ms"`
	Pod    string   `json:"pod,omitempty"` // this pod is bound now
	Gone   bool     `json:"gone,omitempty"`
	Taints []oTaint `json:"taints"` // else the node's whole list from now on
}
type mCase struct {
	EndMs  int64    `json:"end_ms"`
	Pods   []oPod   `json:"pods"`
	Events []mEvent `json:"events"`
}

func TestRecordTaintMore(t *testing.T) {
	r := rand.New(rand.NewSource(79))
	cs := []mCase{}
	for i := 0; i < 150; i++ {
		c := mCase{EndMs: 1200000}
		for j, n := 0, 1+r.Intn(3); j < n; j++ {
			p := oPod{Name: string(rune('a' + j)), DeletedMs: -1}
			for _, k := range []int{0, 1} {
				x := oTol{Key: oKeys[k], Operator: "Exists", Effect: "NoExecute"}
				s := []int64{10, 60, 300, 300, int64(1 + r.Intn(400))}[r.Intn(5)]
				x.Seconds = &s
				p.Tolerations = append(p.Tolerations, x)
			}
			c.Pods = append(c.Pods, p)
		}
		at := int64(1000)
		waiting := len(c.Pods)
		there := true
		var cur []oTaint
		for j, n := 0, 3+r.Intn(4); j < n || waiting > 0; j++ {
			switch x := r.Intn(6); {
			case x < 2 && waiting > 0:
				waiting--
				c.Events = append(c.Events, mEvent{AtMs: at, Pod: c.Pods[waiting].Name})
			case x == 2 && there && i%2 == 1:
				there = false
				c.Events = append(c.Events, mEvent{AtMs: at, Gone: true})
			case x == 3 && len(cur) > 0:
				cur, there = []oTaint{}, true
				c.Events = append(c.Events, mEvent{AtMs: at, Taints: cur})
			case x > 3 && len(cur) == 0 || !there:
				cur, there = []oTaint{{Key: oKeys[r.Intn(2)], Effect: "NoExecute", Added: at / 1000}}, true
				c.Events = append(c.Events, mEvent{AtMs: at, Taints: cur})
			default:
				continue
			}
			at += 1000 * int64(1+r.Intn(120))
		}
		runMore(&c)
		cs = append(cs, c)
	}
	recordOut("taint_more.json", cs)
}

func runMore(c *mCase) {
	base := time.Now()
	var mu sync.Mutex
	node := &v1.Node{ObjectMeta: metav1.ObjectMeta{Name: "n"}}
	pods, all := map[string]*v1.Pod{}, map[string]*v1.Pod{}
	idx := map[string]int{}
	for i, p := range c.Pods {
		x := &v1.Pod{ObjectMeta: metav1.ObjectMeta{Name: p.Name, Namespace: "default"}, Spec: v1.PodSpec{NodeName: "n"}}
		for _, l := range p.Tolerations {
			x.Spec.Tolerations = append(x.Spec.Tolerations, l.up())
		}
		all[p.Name], idx[p.Name] = x, i
	}
	var tm *NoExecuteTaintManager
	cl := fake.NewSimpleClientset()
	cl.PrependReactor("delete", "pods", func(a clienttesting.Action) (bool, runtime.Object, error) {
		mu.Lock()
		defer mu.Unlock()
		n := a.(clienttesting.DeleteAction).GetName()
		p, ok := pods[n]
		if !ok {
			return true, nil, apierrors.NewNotFound(schema.GroupResource{Resource: "pods"}, n)
		}
		c.Pods[idx[n]].DeletedMs = time.Since(base).Milliseconds()
		delete(pods, n)
		go tm.PodUpdated(p, nil)
		return true, nil, nil
	})
	tm = NewNoExecuteTaintManager(cl,
		func(n, ns string) (*v1.Pod, error) {
			mu.Lock()
			defer mu.Unlock()
			if p, ok := pods[n]; ok {
				return p, nil
			}
			return nil, apierrors.NewNotFound(schema.GroupResource{Resource: "pods"}, n)
		},
		func(string) (*v1.Node, error) {
			mu.Lock()
			defer mu.Unlock()
			if node == nil {
				return nil, apierrors.NewNotFound(schema.GroupResource{Resource: "nodes"}, "n")
			}
			return node, nil
		},
		func(string) ([]*v1.Pod, error) {
			mu.Lock()
			defer mu.Unlock()
			o := []*v1.Pod{}
			for _, p := range pods {
				o = append(o, p)
			}
			sort.Slice(o, func(i, j int) bool { return o[i].Name < o[j].Name })
			return o, nil
		})
	stop := make(chan struct{})
	go tm.Run(stop)
	for _, e := range c.Events {
		time.Sleep(time.Duration(e.AtMs)*time.Millisecond - time.Since(base))
		if e.Pod != "" {
			mu.Lock()
			pods[e.Pod] = all[e.Pod]
			mu.Unlock()
			tm.PodUpdated(nil, all[e.Pod])
			continue
		}
		old := node
		var nn *v1.Node
		if !e.Gone {
			nn = &v1.Node{ObjectMeta: metav1.ObjectMeta{Name: "n"}}
			for _, x := range e.Taints {
				nn.Spec.Taints = append(nn.Spec.Taints, x.up(base))
			}
		}
		mu.Lock()
		node = nn
		mu.Unlock()
		tm.NodeUpdated(old, nn)
	}
	time.Sleep(time.Duration(c.EndMs)*time.Millisecond - time.Since(base))
	close(stop)
	tm.nodeUpdateQueue.ShutDown()
	tm.podUpdateQueue.ShutDown()
}
