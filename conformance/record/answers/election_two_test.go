// Two leaders at once, with the real LeaderElector: the leader's last good renewal is heard just before its client's
// timeout, and from then on its requests are lost. Placed beside election_test.go; needs the faketime build tag.
package leaderelection

import (
	"context"
	"encoding/json"
	"errors"
	"math/rand"
	"sync"
	"testing"
	"time"

	apierrors "k8s.io/apimachinery/pkg/api/errors"
	rl "k8s.io/client-go/tools/leaderelection/resourcelock"
)

type slowLock struct {
	id      string
	mu      *sync.Mutex
	s       *store
	cached  int
	oneWay  time.Duration
	timeout time.Duration
	slow    bool // the reply to the next Update comes just before the timeout, and nothing gets through from then on
	lost    bool
}

func (l *slowLock) nap(ctx context.Context, d time.Duration) error {
	t := time.NewTimer(d)
	defer t.Stop()
	select {
	case <-t.C:
		return nil
	case <-ctx.Done():
		return ctx.Err()
	}
}
func (l *slowLock) call(ctx context.Context, write bool, f func() error) error {
	if l.lost {
		if err := l.nap(ctx, l.timeout); err != nil {
			return err
		}
		return errors.New("timeout")
	}
	if err := l.nap(ctx, l.oneWay); err != nil {
		return err
	}
	l.mu.Lock()
	err := f()
	back := l.oneWay
	if write && l.slow {
		back, l.lost = l.timeout-l.oneWay-100*time.Millisecond, true
	}
	l.mu.Unlock()
	if err2 := l.nap(ctx, back); err2 != nil {
		return err2
	}
	return err
}
func (l *slowLock) Get(ctx context.Context) (rec *rl.LeaderElectionRecord, raw []byte, err error) {
	err = l.call(ctx, false, func() error {
		if !l.s.there {
			return apierrors.NewNotFound(leaseGR, "x")
		}
		sp := l.s.spec()
		l.cached = l.s.version
		rec = rl.LeaseSpecToLeaderElectionRecord(&sp)
		var err error
		raw, err = json.Marshal(*rec)
		return err
	})
	return
}
func (l *slowLock) put(ctx context.Context, ler rl.LeaderElectionRecord, refusal func() error) error {
	version := 0
	err := l.call(ctx, true, func() error {
		if err := refusal(); err != nil {
			return err
		}
		l.s.put(rl.LeaderElectionRecordToLeaseSpec(&ler))
		version = l.s.version
		return nil
	})
	if err == nil { // a reply that wasn't heard tells no version
		l.cached = version
	}
	return err
}
func (l *slowLock) Create(ctx context.Context, ler rl.LeaderElectionRecord) error {
	return l.put(ctx, ler, func() error {
		if l.s.there {
			return apierrors.NewAlreadyExists(leaseGR, "x")
		}
		return nil
	})
}
func (l *slowLock) Update(ctx context.Context, ler rl.LeaderElectionRecord) error {
	return l.put(ctx, ler, func() error {
		if l.cached != l.s.version {
			return apierrors.NewConflict(leaseGR, "x", errors.New("version"))
		}
		return nil
	})
}
func (l *slowLock) RecordEvent(string) {}
func (l *slowLock) Identity() string   { return l.id }
func (l *slowLock) Describe() string   { return "record" }

type twoCase struct {
	LeaseMs   int64 `json:"lease_ms"`
	TimeoutMs int64 `json:"timeout_ms"`
	OverlapMs int64 `json:"overlap_ms"` // for so long both lead; negative: nobody leads for so long
}

func TestRecordTwoLeaders(t *testing.T) {
	r := rand.New(rand.NewSource(80))
	cases := []twoCase{}
	for c := 0; c < 1200; c++ {
		o := twoCase{LeaseMs: []int64{15000, 15000, 15000, 18000, 23000, 23000}[c%6], TimeoutMs: []int64{2000, 5000, 10000, 5000, 10000, 10000}[c%6]}
		s, mu := &store{}, &sync.Mutex{}
		ctx, cancel := context.WithCancel(context.Background())
		mk := func(id string, lead, stop chan time.Time) *slowLock {
			l := &slowLock{id: id, mu: mu, s: s, oneWay: 5 * time.Millisecond, timeout: time.Duration(o.TimeoutMs) * time.Millisecond}
			le, err := NewLeaderElector(LeaderElectionConfig{Lock: l, LeaseDuration: time.Duration(o.LeaseMs) * time.Millisecond,
				RenewDeadline: 10 * time.Second, RetryPeriod: 2 * time.Second,
				Callbacks: LeaderCallbacks{OnStartedLeading: func(context.Context) { lead <- time.Now() }, OnStoppedLeading: func() { stop <- time.Now() }}})
			if err != nil {
				t.Fatal(err)
			}
			go le.Run(ctx)
			return l
		}
		la, sa, lb, sb := make(chan time.Time, 1), make(chan time.Time, 1), make(chan time.Time, 1), make(chan time.Time, 1)
		a := mk("a", la, sa)
		<-la
		mk("b", lb, sb)
		time.Sleep(time.Duration(10000+r.Intn(20000)) * time.Millisecond)
		mu.Lock()
		a.slow = true
		mu.Unlock()
		end, begin := <-sa, <-lb
		o.OverlapMs = end.Sub(begin).Milliseconds()
		cancel()
		<-sb
		cases = append(cases, o)
	}
	out("election_two_leaders.json", cases)
}
