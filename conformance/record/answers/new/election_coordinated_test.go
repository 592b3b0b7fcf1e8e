// Coordinated election, which 1.20 doesn't have: the test plays kube-apiserver's part, which names the leader and, later,
// another one that it prefers. Placed beside election_ends_test.go, whose types it uses.
package leaderelection

import (
	"context"
	"math/rand"
	"sync"
	"testing"
	"time"

	coordv1 "k8s.io/api/coordination/v1"
)

type coordinatedCase struct {
	IsReleasing bool  `json:"release_on_cancel"`
	OneWayMs    int64 `json:"one_way_ms"`
	HasCreated  bool  `json:"created"`      // a Lease, before it was named
	LeadMs      int64 `json:"lead_ms"`      // from being named to the lead
	Renewals    int   `json:"renewals"`     // in its first 20 s
	Gets        int   `json:"gets"`         // in that time
	MarkMs      int64 `json:"mark_ms"`      // how old its last renewal was when another was preferred
	StopMs      int64 `json:"stop_ms"`      // from then on to OnStoppedLeading
	FreeMs      int64 `json:"free_ms"`      // to a Lease without a holder, -1 for none
	WritesAfter int   `json:"writes_after"` // accepted ones of its own
}

type coordinatedRun struct {
	o            *coordinatedCase
	s            *store
	a            *wire
	le           *LeaderElector
	led, stopped chan time.Time
}

func (e *coordinatedRun) name(holder string) {
	seconds, transitions, strategy, now := int32(15), int32(0), coordv1.OldestEmulationVersion, us(time.Now())
	spec := toSpec(bare{Holder: &holder, Duration: &seconds, Renewed: &now, Acquired: &now, Transitions: &transitions})
	spec.Strategy = &strategy
	e.s.put(spec)
}

func (e *coordinatedRun) count(from int, what, reply string) (found int) {
	for _, it := range e.a.calls[from:] {
		if it.What == what && (reply == "" || it.Reply == reply) {
			found++
		}
	}
	return
}

// prefer marks another one as preferred, and waits for the leader's end.
func (e *coordinatedRun) prefer() {
	at, from := time.Now(), 0
	e.a.locked(func() {
		e.o.MarkMs, from = at.Sub(e.le.observedTime).Milliseconds(), len(e.a.calls)
		preferred, spec := "b", e.s.spec()
		spec.PreferredHolder = &preferred
		e.s.put(spec)
	})
	for ms := 0; ms < 40000 && e.o.StopMs < 0; ms++ {
		select {
		case it := <-e.stopped:
			e.o.StopMs = it.Sub(at).Milliseconds()
		case <-time.After(time.Millisecond):
		}
		e.a.locked(func() {
			if spec := e.s.spec(); *spec.HolderIdentity == "" && e.o.FreeMs < 0 {
				e.o.FreeMs = time.Since(at).Milliseconds()
			}
		})
	}
	e.a.locked(func() { e.o.WritesAfter = e.count(from, "update", "done") })
}

func (e *coordinatedRun) play(r *rand.Rand) {
	time.Sleep(time.Duration(20000+r.Intn(5000)) * time.Millisecond)
	e.a.locked(func() {
		e.o.HasCreated = e.s.there
		e.name("a")
	})
	at := time.Now()
	e.o.LeadMs = (<-e.led).Sub(at).Milliseconds()
	from := len(e.a.calls)
	time.Sleep(20 * time.Second)
	e.a.locked(func() { e.o.Renewals, e.o.Gets = e.count(from, "update", ""), e.count(from, "get", "") })
	time.Sleep(time.Duration(r.Intn(2000)) * time.Millisecond)
	e.prefer()
}

func TestRecordCoordinated(t *testing.T) {
	r := rand.New(rand.NewSource(82))
	cases := []*coordinatedCase{}
	for c := 0; c < 100; c++ {
		o := &coordinatedCase{IsReleasing: c%2 == 0, OneWayMs: []int64{2, 50}[c/2%2], FreeMs: -1, StopMs: -1}
		e := &coordinatedRun{o: o, s: &store{}, led: make(chan time.Time, 1), stopped: make(chan time.Time, 1)}
		e.a = &wire{id: "a", mu: &sync.Mutex{}, s: e.s, oneWay: time.Duration(o.OneWayMs) * time.Millisecond, base: time.Now()}
		le, err := NewLeaderElector(LeaderElectionConfig{Lock: e.a, LeaseDuration: 15 * time.Second, RenewDeadline: 10 * time.Second,
			RetryPeriod: 2 * time.Second, ReleaseOnCancel: o.IsReleasing, Coordinated: true,
			Callbacks: LeaderCallbacks{OnStartedLeading: func(context.Context) { e.led <- time.Now() }, OnStoppedLeading: func() { e.stopped <- time.Now() }}})
		if err != nil {
			t.Fatal(err)
		}
		e.le = le
		ctx, cancel := context.WithCancel(context.Background())
		go le.Run(ctx)
		e.play(r)
		cancel()
		cases = append(cases, o)
	}
	out("election_coordinated.json", cases)
}
