// Which toleration tolerates a taint, by k8s.io/api, and whether a pod tolerates all taints of a node, by component-helpers.
// The sets have the inputs of ../scheduler_test.go; lt_gt is on the operators Lt and Gt. Stands in a package of its own.
package tolerations

import (
	"encoding/json"
	"math/rand"
	"os"
	"path/filepath"
	"testing"
	"time"

	v1 "k8s.io/api/core/v1"
	metav1 "k8s.io/apimachinery/pkg/apis/meta/v1"
	corev1 "k8s.io/component-helpers/scheduling/corev1"
	"k8s.io/klog/v2"
)

type taint struct {
	Key    string `json:"key"`
	Value  string `json:"value"`
	Effect string `json:"effect"`
	Added  int64  `json:"added_s"`
}
type toleration struct {
	Key      string `json:"key"`
	Operator string `json:"operator"`
	Value    string `json:"value"`
	Effect   string `json:"effect"`
	Seconds  *int64 `json:"seconds"`
}

func (t taint) made() v1.Taint {
	at := metav1.NewTime(time.Unix(t.Added, 0))
	return v1.Taint{Key: t.Key, Value: t.Value, Effect: v1.TaintEffect(t.Effect), TimeAdded: &at}
}

func (t toleration) made() v1.Toleration {
	return v1.Toleration{Key: t.Key, Operator: v1.TolerationOperator(t.Operator), Value: t.Value, Effect: v1.TaintEffect(t.Effect), TolerationSeconds: t.Seconds}
}

func (t toleration) tolerates(it taint, hasComparisons bool) bool {
	a, b := t.made(), it.made()
	return a.ToleratesTaint(klog.Background(), &b, hasComparisons)
}

var (
	keys    = []string{"node.kubernetes.io/not-ready", "node.kubernetes.io/unreachable", "k"}
	effects = []string{"NoSchedule", "PreferNoSchedule", "NoExecute"}
	long    = []int64{9223372036, 9223372037, 9223372038, 18446744074, 27670116111, 9223372036854775806, 9223372036854775807}
	numbers = []string{"", "0", "5", "-5", "+5", "05", "-0", " 5", "5.0", "9223372036854775807", "9223372036854775808", "-9223372036854775808", "v"}
)

func keep(t *testing.T, name string, cases interface{}) {
	bytes, err := json.Marshal(cases)
	if err != nil {
		t.Fatal(err)
	}
	if err := os.WriteFile(filepath.Join(os.Getenv("RECORD_OUT"), name), append(bytes, '\n'), 0o644); err != nil {
		t.Fatal(err)
	}
}

func anyToleration(r *rand.Rand, isLawful bool) toleration {
	t := toleration{Operator: []string{"", "Equal", "Exists"}[r.Intn(3)]}
	if r.Intn(5) > 0 {
		t.Key = keys[r.Intn(3)]
	}
	t.Value = []string{"", "", "v", "w"}[r.Intn(4)]
	if r.Intn(2) == 0 {
		t.Effect = effects[r.Intn(3)]
	}
	if r.Intn(2) == 0 {
		s := []int64{-5, 0, 1, 10, 300, 600, int64(r.Intn(700))}[r.Intn(7)]
		t.Seconds = &s
	}
	if !isLawful {
		return t
	}
	if t.Key == "" {
		t.Operator = "Exists"
	}
	if t.Operator == "Exists" {
		t.Value = ""
	}
	if t.Seconds != nil {
		t.Effect = "NoExecute"
	}
	return t
}

func anyTaint(r *rand.Rand) taint {
	return taint{Key: keys[r.Intn(3)], Value: []string{"", "v", "w"}[r.Intn(3)], Effect: effects[r.Intn(3)]}
}

func TestRecordTolerates(t *testing.T) {
	type one struct {
		IsLawful   bool       `json:"lawful"`
		Toleration toleration `json:"toleration"`
		Taint      taint      `json:"taint"`
		Tolerates  bool       `json:"tolerates"`
	}
	r, cases := rand.New(rand.NewSource(1)), []one{}
	for i := 0; i < 500; i++ {
		a, b := anyToleration(r, i%5 != 0), anyTaint(r)
		if a.tolerates(b, true) != a.tolerates(b, false) {
			t.Fatal("the gate matters to an old operator")
		}
		cases = append(cases, one{i%5 != 0, a, b, a.tolerates(b, false)})
	}
	keep(t, "tolerates.json", cases)
}

func someTaints(r *rand.Rand) (found []taint) {
	for j, n := 0, r.Intn(4); j < n; j++ {
		it, isThere := anyTaint(r), false
		if r.Intn(3) > 0 {
			it.Effect = "NoExecute"
		}
		for _, other := range found {
			isThere = isThere || other.Key == it.Key && other.Effect == it.Effect
		}
		if !isThere {
			found = append(found, it)
		}
	}
	return
}

func TestRecordMatching(t *testing.T) {
	type one struct {
		Taints      []taint      `json:"taints"`
		Tolerations []toleration `json:"tolerations"`
		All         bool         `json:"all_tolerated"`
	}
	r, cases := rand.New(rand.NewSource(2)), []one{}
	for i := 0; i < 500; i++ {
		c, taints, tolerations := one{Taints: someTaints(r)}, []v1.Taint{}, []v1.Toleration{}
		for _, it := range c.Taints {
			taints = append(taints, it.made())
		}
		for j, n := 0, r.Intn(5); j < n; j++ {
			it := anyToleration(r, true)
			if i%10 == 9 && it.Seconds != nil {
				s := long[r.Intn(len(long))]
				it.Seconds = &s
			}
			c.Tolerations, tolerations = append(c.Tolerations, it), append(tolerations, it.made())
		}
		isNoExecute := func(it *v1.Taint) bool { return it.Effect == v1.TaintEffectNoExecute }
		_, isUntolerated := corev1.FindMatchingUntoleratedTaint(klog.Background(), taints, tolerations, isNoExecute, false)
		c.All = !isUntolerated
		cases = append(cases, c)
	}
	keep(t, "matching.json", cases)
}

func TestRecordLtGt(t *testing.T) {
	type one struct {
		Toleration toleration `json:"toleration"`
		Taint      taint      `json:"taint"`
		On         bool       `json:"with_gate"`
		Off        bool       `json:"without_gate"`
	}
	cases := []one{}
	add := func(operator, key, effect, value, other string) {
		a, b := toleration{Key: key, Operator: operator, Value: value, Effect: effect}, taint{Key: "k", Value: other, Effect: "NoExecute"}
		cases = append(cases, one{a, b, a.tolerates(b, true), a.tolerates(b, false)})
	}
	for _, operator := range []string{"Lt", "Gt", "lt", "Ge"} {
		for _, key := range []string{"k", "", "other"} {
			for _, effect := range []string{"NoExecute", ""} {
				for _, value := range numbers {
					for _, other := range numbers {
						isWhole := key == "k" && effect != "" && operator != "lt"
						if isWhole || value == "5" && (other == "0" || other == "9223372036854775807") {
							add(operator, key, effect, value, other)
						}
					}
				}
			}
		}
	}
	keep(t, "lt_gt.json", cases)
}
