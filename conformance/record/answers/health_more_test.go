// Small scenes of the real monitor of node health. Placed beside lifecycle_test.go; needs the faketime build tag.
package nodelifecycle

import (
	"context"
	"fmt"
	"os"
	"testing"
	"time"

	v1 "k8s.io/api/core/v1"
	metav1 "k8s.io/apimachinery/pkg/apis/meta/v1"
)

func TestRecordScenes(t *testing.T) {
	f, _ := os.Create(os.Getenv("RECORD_OUT") + "/scenes.txt")
	defer f.Close()
	begin := func(name string) *world {
		time.Sleep(time.Second - time.Duration(time.Now().Nanosecond()))
		fmt.Fprintln(f, "==", name)
		return newWorld(40*time.Second, 60*time.Second)
	}
	look := func(w *world) {
		w.sync()
		w.nc.monitorNodeHealth()
		w.sync()
		w.taint()
		n, z := w.seen()
		for k, x := range n {
			fmt.Fprintln(f, time.Since(w.base).Milliseconds(), k, x.Ready, x.Reason, x.Taints)
		}
		fmt.Fprintln(f, time.Since(w.base).Milliseconds(), z)
	}
	zero := int64(0)
	w := begin("three of four nodes are not ready and have the label exclude-disruption; then without it")
	for i := 0; i < 4; i++ {
		n := fmt.Sprintf("n%d", i)
		w.addNode(n, "x", 90)
		w.setReady(n, map[bool]string{true: "True", false: "False"}[i == 0], &zero)
		if i > 0 {
			x, _ := w.cl.CoreV1().Nodes().Get(context.TODO(), n, metav1.GetOptions{})
			x.Labels["node.kubernetes.io/exclude-disruption"] = ""
			w.cl.CoreV1().Nodes().Update(context.TODO(), x, metav1.UpdateOptions{})
		}
	}
	look(w)
	for i := 1; i < 4; i++ {
		x, _ := w.cl.CoreV1().Nodes().Get(context.TODO(), fmt.Sprintf("n%d", i), metav1.GetOptions{})
		delete(x.Labels, "node.kubernetes.io/exclude-disruption")
		w.cl.CoreV1().Nodes().Update(context.TODO(), x, metav1.UpdateOptions{})
	}
	time.Sleep(5 * time.Second)
	look(w)

	w = begin("old beta zone label against the stable one")
	w.addNode("n0", "x", 90)
	w.setReady("n0", "True", &zero)
	x, _ := w.cl.CoreV1().Nodes().Get(context.TODO(), "n0", metav1.GetOptions{})
	x.Labels[v1.LabelFailureDomainBetaZone] = "y"
	w.cl.CoreV1().Nodes().Update(context.TODO(), x, metav1.UpdateOptions{})
	look(w)

	w = begin("a Lease without a renew time comes 26 s after the node was first seen; passes each 5 s")
	w.addNode("n", "x", 90)
	w.setReady("n", "True", &zero)
	for k := 0; k < 20; k++ {
		if k == 5 {
			time.Sleep(time.Second)
			w.setLease("n", nil)
			time.Sleep(4 * time.Second)
		} else {
			time.Sleep(5 * time.Second)
		}
		look(w)
	}
	w = begin("a Lease without a renew time at first, then renewed each 5 s")
	w.addNode("n", "x", 90)
	w.setReady("n", "True", &zero)
	w.setLease("n", nil)
	for k := 0; k < 12; k++ {
		look(w)
		time.Sleep(5 * time.Second)
		b := time.Since(w.base).Microseconds()
		w.setLease("n", &b)
	}
	w = begin("a node is swapped in the very pass that enters the all-Full mode")
	w.addNode("a", "x", 90)
	w.addNode("b", "x", 90)
	w.setReady("a", "True", &zero)
	w.setReady("b", "Unknown", &zero)
	for k := 0; k < 16; k++ {
		if k == 13 {
			b := time.Since(w.base).Microseconds() / 1000000
			w.setReady("a", "False", &b)
			w.setReady("b", "False", &b)
		} else if k < 13 {
			b := time.Since(w.base).Microseconds()
			w.setLease("a", &b)
		}
		look(w)
		time.Sleep(5 * time.Second)
	}
}
