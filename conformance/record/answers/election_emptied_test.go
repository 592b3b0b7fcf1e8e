// The release of one leader and the Lease of the next: three electors with ReleaseOnCancel on one store. One reply to the leader's
// renewal is late, its later calls are stuck, and they come through when another one leads. Placed beside election_ends_test.go.
package leaderelection

import (
	"context"
	"errors"
	"math/rand"
	"sync"
	"testing"
	"time"
)

const (
	heldFor  = 4700 * time.Millisecond
	lookEach = 10 * time.Millisecond
)

// emptiedCase counts in ms from the lead of the second one; -1 for never.
type emptiedCase struct {
	LeaseMs   int64 `json:"lease_ms"`
	AtMs      int64 `json:"at_ms"`      // when the reply is late, from the first lead on
	EmptiedMs int64 `json:"emptied_ms"` // the Lease of the second one has no holder
	ThirdMs   int64 `json:"third_ms"`   // a third one leads
	StopMs    int64 `json:"stop_ms"`    // the second one stops
	BothMs    int64 `json:"both_ms"`    // for so long both lead, 0 where they don't
}

type emptiedRun struct {
	o             *emptiedCase
	s             *store
	mu            *sync.Mutex
	isLate, stuck bool
	leads, stops  map[string]chan time.Time
	ctx           context.Context
}

// gate holds the first leader's requests while they are stuck, for a call timeout at most.
func (e *emptiedRun) gate(ctx context.Context) error {
	for waited := time.Duration(0); waited < endTimeout; waited += lookEach {
		e.mu.Lock()
		isStuck := e.stuck
		e.mu.Unlock()
		if !isStuck {
			return nil
		}
		select {
		case <-time.After(lookEach):
		case <-ctx.Done():
			return ctx.Err()
		}
	}
	return errors.New("timeout")
}

func (e *emptiedRun) lateBy(what string) time.Duration {
	e.mu.Lock()
	defer e.mu.Unlock()
	if what == "get" || !e.isLate {
		return 0
	}
	e.isLate, e.stuck = false, true
	return heldFor
}

func (e *emptiedRun) start(t *testing.T, id string) {
	lock := &wire{id: id, mu: e.mu, s: e.s, oneWay: 2 * time.Millisecond, base: time.Now()}
	if id == "a" {
		lock.gate, lock.lateBy = e.gate, e.lateBy
	}
	leads, stops := make(chan time.Time, 9), make(chan time.Time, 9)
	e.leads[id], e.stops[id] = leads, stops
	le, err := NewLeaderElector(LeaderElectionConfig{Lock: lock, LeaseDuration: time.Duration(e.o.LeaseMs) * time.Millisecond,
		RenewDeadline: 10 * time.Second, RetryPeriod: 2 * time.Second, ReleaseOnCancel: true,
		Callbacks: LeaderCallbacks{OnStartedLeading: func(context.Context) { leads <- time.Now() }, OnStoppedLeading: func() { stops <- time.Now() }}})
	if err != nil {
		t.Fatal(err)
	}
	go le.Run(e.ctx)
}

// second waits for the next leader, and gives its name, the other's, and when.
func (e *emptiedRun) second() (string, string, time.Time) {
	select {
	case at := <-e.leads["b"]:
		return "b", "c", at
	case at := <-e.leads["c"]:
		return "c", "b", at
	}
}

func (e *emptiedRun) play(t *testing.T, r *rand.Rand) {
	for _, id := range []string{"a", "b", "c"} {
		e.start(t, id)
		if id == "a" {
			<-e.leads["a"]
		}
	}
	e.o.AtMs = 10000 + int64(r.Intn(20000))
	time.Sleep(time.Duration(e.o.AtMs) * time.Millisecond)
	e.mu.Lock()
	e.isLate = true
	e.mu.Unlock()
	second, third, at := e.second()
	e.mu.Lock()
	e.stuck = false
	e.mu.Unlock()
	e.watch(second, third, at)
}

func (e *emptiedRun) watch(second, third string, at time.Time) {
	o := e.o
	for time.Since(at) < 30*time.Second {
		select {
		case it := <-e.leads[third]:
			o.ThirdMs = it.Sub(at).Milliseconds()
		case it := <-e.stops[second]:
			o.StopMs = it.Sub(at).Milliseconds()
		case <-time.After(lookEach):
		}
		e.mu.Lock()
		if spec := e.s.spec(); *spec.HolderIdentity == "" && o.EmptiedMs < 0 {
			o.EmptiedMs = time.Since(at).Milliseconds()
		}
		e.mu.Unlock()
	}
	if o.ThirdMs >= 0 && (o.StopMs < 0 || o.StopMs > o.ThirdMs) {
		o.BothMs = o.StopMs - o.ThirdMs
	}
}

func TestRecordEmptied(t *testing.T) {
	r := rand.New(rand.NewSource(86))
	cases := []*emptiedCase{}
	for c := 0; c < 200; c++ {
		o := &emptiedCase{LeaseMs: []int64{18000, 23000}[c%2], EmptiedMs: -1, ThirdMs: -1, StopMs: -1}
		ctx, cancel := context.WithCancel(context.Background())
		e := &emptiedRun{o: o, s: &store{}, mu: &sync.Mutex{}, leads: map[string]chan time.Time{}, stops: map[string]chan time.Time{}, ctx: ctx}
		e.play(t, r)
		cancel()
		cases = append(cases, o)
	}
	out("election_emptied.json", cases)
}
