// The controller that renews a kubelet's Lease: which calls it makes, when and with what, over planned answers. Placed into
// component-helpers/apimachinery/lease. It needs the build tag faketime.
package lease

import (
	"context"
	"encoding/json"
	"errors"
	"math/rand"
	"os"
	"path/filepath"
	"strconv"
	"testing"
	"time"

	coordv1 "k8s.io/api/coordination/v1"
	apierrors "k8s.io/apimachinery/pkg/api/errors"
	"k8s.io/apimachinery/pkg/runtime"
	"k8s.io/apimachinery/pkg/runtime/schema"
	"k8s.io/client-go/kubernetes/fake"
	clienttesting "k8s.io/client-go/testing"
	"k8s.io/utils/clock"
)

var leases = schema.GroupResource{Group: "coordination.k8s.io", Resource: "leases"}

type planned struct {
	Ms  int64  `json:"ms"`
	How string `json:"how"` // ok; error, nothing done; reply_lost, done; foreign, another wrote it first; delete, another removed it first
}

type made struct {
	What     string  `json:"what"` // get, create, update
	AtMs     int64   `json:"at_ms"`
	EndMs    int64   `json:"end_ms"`
	Reply    string  `json:"reply"` // found, absent, done, exists, conflict, error, reply_lost
	Holder   *string `json:"holder,omitempty"`
	Duration *int32  `json:"duration,omitempty"`
	RenewMs  int64   `json:"renew_ms,omitempty"`
}

type kubeletCase struct {
	Plans    []planned `json:"plans"`
	Calls    []made    `json:"calls"`
	FailedMs []int64   `json:"failed_ms"` // calls of onRepeatedHeartbeatFailure
}

// server plays the API server for one case.
type server struct {
	k       *kubeletCase
	base    time.Time
	stored  *coordv1.Lease
	version int
	next    int
	end     func()
}

func (s *server) now() int64 { return time.Since(s.base).Milliseconds() }

func (s *server) put(lease *coordv1.Lease) *coordv1.Lease {
	s.version++
	s.stored = lease.DeepCopy()
	s.stored.ResourceVersion = strconv.Itoa(s.version)
	return s.stored.DeepCopy()
}

// before does what another did before this call.
func (s *server) before(how string) {
	if how == "foreign" && s.stored != nil {
		holder, seconds, lease := "other", int32(7), s.stored.DeepCopy()
		lease.Spec.HolderIdentity, lease.Spec.LeaseDurationSeconds = &holder, &seconds
		s.put(lease)
	} else if how == "delete" {
		s.stored = nil
	}
}

func (s *server) serve(action clienttesting.Action) (bool, runtime.Object, error) {
	if s.next >= len(s.k.Plans) {
		s.next++
		if s.next == len(s.k.Plans)+1 {
			s.end()
		}
		return true, nil, errors.New("end of plans")
	}
	plan := s.k.Plans[s.next]
	s.next++
	call := made{What: action.GetVerb(), AtMs: s.now()}
	time.Sleep(time.Duration(plan.Ms) * time.Millisecond)
	call.EndMs = s.now()
	found, err := s.answer(plan, action, &call)
	s.k.Calls = append(s.k.Calls, call)
	if err != nil {
		return true, nil, err
	}
	return true, found, nil
}

func (s *server) answer(plan planned, action clienttesting.Action, call *made) (*coordv1.Lease, error) {
	if plan.How == "error" {
		call.Reply = "error"
		return nil, errors.New("planned")
	}
	s.before(plan.How)
	write, isWrite := action.(interface{ GetObject() runtime.Object })
	var found *coordv1.Lease
	var err error
	if isWrite {
		found, err = s.write(write.GetObject().(*coordv1.Lease), call)
	} else if s.stored == nil {
		call.Reply, err = "absent", apierrors.NewNotFound(leases, "n")
	} else {
		call.Reply, found = "found", s.stored.DeepCopy()
	}
	if plan.How == "reply_lost" && (err == nil || !isWrite) {
		call.Reply = "reply_lost"
		return nil, errors.New("planned")
	}
	return found, err
}

func (s *server) write(lease *coordv1.Lease, call *made) (*coordv1.Lease, error) {
	call.Holder, call.Duration = lease.Spec.HolderIdentity, lease.Spec.LeaseDurationSeconds
	if lease.Spec.RenewTime != nil {
		call.RenewMs = lease.Spec.RenewTime.Time.Sub(s.base).Milliseconds()
	}
	switch {
	case call.What == "create" && s.stored != nil:
		call.Reply = "exists"
		return nil, apierrors.NewAlreadyExists(leases, "n")
	case call.What == "update" && s.stored == nil:
		call.Reply = "absent"
		return nil, apierrors.NewNotFound(leases, "n")
	case call.What == "update" && lease.ResourceVersion != s.stored.ResourceVersion:
		call.Reply = "conflict"
		return nil, apierrors.NewConflict(leases, "n", errors.New("version"))
	}
	call.Reply = "done"
	return s.put(lease), nil
}

func plansOf(r *rand.Rand, isCalm bool) []planned {
	plans, bad := []planned{}, 0
	for i := 0; i < 30; i++ {
		p := planned{Ms: 2 + int64(r.Intn(40)), How: "ok"}
		if !isCalm && bad == 0 && r.Intn(6) == 0 {
			bad = 1 + r.Intn(8)
		}
		if bad > 0 {
			bad--
			p.How = []string{"error", "error", "reply_lost", "foreign", "delete"}[r.Intn(5)]
			if r.Intn(3) == 0 && p.How != "foreign" && p.How != "delete" {
				p.Ms = 10000
			}
		}
		plans = append(plans, p)
	}
	return plans
}

func TestRecordKubeletLease(t *testing.T) {
	r := rand.New(rand.NewSource(83))
	cases := []*kubeletCase{}
	for c := 0; c < 200; c++ {
		k := &kubeletCase{Plans: plansOf(r, c == 0), Calls: []made{}, FailedMs: []int64{}}
		ctx, cancel := context.WithCancel(context.Background())
		done := make(chan struct{})
		s := &server{k: k, base: time.Now(), end: func() { cancel(); close(done) }}
		client := fake.NewSimpleClientset()
		client.PrependReactor("*", "leases", s.serve)
		failed := func() { k.FailedMs = append(k.FailedMs, s.now()) }
		go NewController(clock.RealClock{}, client, "n", 40, failed, 10*time.Second, "n", "kube-node-lease", nil).Run(ctx)
		<-done
		time.Sleep(time.Second)
		cases = append(cases, k)
	}
	bytes, err := json.Marshal(cases)
	if err != nil {
		t.Fatal(err)
	}
	if err := os.WriteFile(filepath.Join(os.Getenv("RECORD_OUT"), "kubelet_lease.json"), append(bytes, '\n'), 0o644); err != nil {
		t.Fatal(err)
	}
}
