// Two leaders with ReleaseOnCancel: the leader's last good renewal is heard just before its call times out, then its calls
// are lost, and at its deadline it tries to release before it tells its work to end. Placed beside election_two_test.go.
package leaderelection

import (
	"context"
	"math/rand"
	"sync"
	"testing"
	"time"

	rl "k8s.io/client-go/tools/leaderelection/resourcelock"
)

// fadingLock loses, once it is slow and has written, all calls, writes alone, or writes and lets Gets be answered just in time.
type fadingLock struct {
	slowLock
	last string // all, writes, half
}

func (l *fadingLock) Get(ctx context.Context) (*rl.LeaderElectionRecord, []byte, error) {
	if l.lost && l.last != "all" {
		if l.last == "half" {
			if err := l.nap(ctx, l.timeout-100*time.Millisecond); err != nil {
				return nil, nil, err
			}
		}
		l.lost = false
		defer func() { l.lost = true }()
	}
	return l.slowLock.Get(ctx)
}

type releaseCase struct {
	LeaseMs     int64  `json:"lease_ms"`
	TimeoutMs   int64  `json:"timeout_ms"`
	IsReleasing bool   `json:"release_on_cancel"`
	Last        string `json:"last"`
	OverlapMs   int64  `json:"overlap_ms"` // for so long both lead; negative: nobody leads for so long
}

// lead runs an elector, and gives the instants of its lead and its stop.
func (o *releaseCase) lead(t *testing.T, ctx context.Context, l *fadingLock, isReleasing bool) (chan time.Time, chan time.Time) {
	led, stopped := make(chan time.Time, 1), make(chan time.Time, 1)
	le, err := NewLeaderElector(LeaderElectionConfig{Lock: l, LeaseDuration: time.Duration(o.LeaseMs) * time.Millisecond,
		RenewDeadline: 10 * time.Second, RetryPeriod: 2 * time.Second, ReleaseOnCancel: isReleasing,
		Callbacks: LeaderCallbacks{OnStartedLeading: func(context.Context) { led <- time.Now() }, OnStoppedLeading: func() { stopped <- time.Now() }}})
	if err != nil {
		t.Fatal(err)
	}
	go le.Run(ctx)
	return led, stopped
}

func (o *releaseCase) play(t *testing.T, r *rand.Rand) {
	s, mu := &store{}, &sync.Mutex{}
	ctx, cancel := context.WithCancel(context.Background())
	lock := func(id string) *fadingLock {
		return &fadingLock{slowLock{id: id, mu: mu, s: s, oneWay: 5 * time.Millisecond, timeout: time.Duration(o.TimeoutMs) * time.Millisecond}, o.Last}
	}
	a := lock("a")
	led, stopped := o.lead(t, ctx, a, o.IsReleasing)
	<-led
	nextLed, nextStopped := o.lead(t, ctx, lock("b"), false)
	time.Sleep(time.Duration(10000+r.Intn(20000)) * time.Millisecond)
	mu.Lock()
	a.slow = true
	mu.Unlock()
	end, begin := <-stopped, <-nextLed
	o.OverlapMs = end.Sub(begin).Milliseconds()
	cancel()
	<-nextStopped
}

func TestRecordTwoRelease(t *testing.T) {
	r := rand.New(rand.NewSource(84))
	cases := []*releaseCase{}
	for c := 0; c < 1000; c++ {
		o := &releaseCase{LeaseMs: []int64{15000, 15000, 18000, 23000, 15000}[c%5], TimeoutMs: []int64{2000, 5000, 5000, 10000, 1000}[c%5],
			IsReleasing: c/5%4 != 3, Last: []string{"all", "writes"}[c/5%2]}
		o.play(t, r)
		cases = append(cases, o)
	}
	out("election_two_release.json", cases)
}

// Leases longer than call timeout, retry period, renew deadline and the release together, and others that are shorter.
func TestRecordTwoReleaseLong(t *testing.T) {
	r := rand.New(rand.NewSource(85))
	cases := []*releaseCase{}
	for c := 0; c < 1800; c++ {
		o := &releaseCase{LeaseMs: []int64{19000, 28000, 33000, 18000, 23000, 27000}[c%6], TimeoutMs: []int64{2000, 5000, 10000, 5000, 10000, 5000}[c%6],
			IsReleasing: true, Last: []string{"all", "writes", "half"}[c/6%3]}
		o.play(t, r)
		cases = append(cases, o)
	}
	out("election_two_release_long.json", cases)
}
