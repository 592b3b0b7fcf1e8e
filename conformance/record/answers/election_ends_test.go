// Ends of a leader: asked to stop, cut off, deaf, or overtaken, with ReleaseOnCancel and without. Each case has a leader a
// and a candidate b on one store. Placed beside election_test.go, whose types it uses; for 1.20 and newer versions.
package leaderelection

import (
	"context"
	"encoding/json"
	"errors"
	"math/rand"
	"sync"
	"testing"
	"time"

	apierrors "k8s.io/apimachinery/pkg/api/errors"
	rl "k8s.io/client-go/tools/leaderelection/resourcelock"
)

const (
	endTimeout = 5 * time.Second  // of a call
	comesBack  = 13 * time.Second // so long after the cut the requests come through again, in the mode cut_back
)

// wireCall is one call of one process, in ms.
type wireCall struct {
	Who   string `json:"who"`
	What  string `json:"what"` // get, create, update
	AtMs  int64  `json:"at_ms"`
	EndMs int64  `json:"end_ms"`
	Reply string `json:"reply"` // the store's word, or lost; with " unheard" and " cut"
}

// wire is the lock of one process, on a store that others use too. It loses requests or replies while it is told so.
type wire struct {
	id     string
	mu     *sync.Mutex
	s      *store
	cached int
	oneWay time.Duration
	isCut  bool                        // requests are lost
	isDeaf bool                        // replies are lost
	gate   func(context.Context) error // where there is one, each request has to come through it
	lateBy func(string) time.Duration  // and what it tells of a call is added to the way back
	base   time.Time
	calls  []wireCall
}

func (w *wire) nap(ctx context.Context, d time.Duration) error {
	t := time.NewTimer(d)
	defer t.Stop()
	select {
	case <-t.C:
		return nil
	case <-ctx.Done():
		return ctx.Err()
	}
}

func (w *wire) locked(f func()) {
	w.mu.Lock()
	defer w.mu.Unlock()
	f()
}

func (w *wire) sinceBase() int64 { return time.Since(w.base).Milliseconds() }

// call sends a request that the store answers by `serve`, which says it in a word too.
func (w *wire) call(ctx context.Context, what string, serve func() (string, error)) error {
	c := wireCall{Who: w.id, What: what, AtMs: w.sinceBase(), Reply: "lost"}
	defer func() {
		if ctx.Err() != nil {
			c.Reply += " cut"
		}
		c.EndMs = w.sinceBase()
		w.locked(func() { w.calls = append(w.calls, c) })
	}()
	var isLost bool
	w.locked(func() { isLost = w.isCut })
	if isLost {
		return w.expired(ctx, endTimeout)
	}
	if w.gate != nil {
		if err := w.gate(ctx); err != nil {
			return err
		}
	}
	if err := w.nap(ctx, w.oneWay); err != nil {
		return err
	}
	var answer error
	w.locked(func() {
		c.Reply, answer = serve()
		isLost = w.isDeaf
	})
	if isLost {
		c.Reply += " unheard"
		return w.expired(ctx, endTimeout-w.oneWay)
	}
	back := w.oneWay
	if w.lateBy != nil {
		back += w.lateBy(what)
	}
	if err := w.nap(ctx, back); err != nil {
		return err
	}
	return answer
}

func (w *wire) expired(ctx context.Context, after time.Duration) error {
	if err := w.nap(ctx, after); err != nil {
		return err
	}
	return errors.New("timeout")
}

func (w *wire) Get(ctx context.Context) (*rl.LeaderElectionRecord, []byte, error) {
	var record *rl.LeaderElectionRecord
	var raw []byte
	version := 0
	err := w.call(ctx, "get", func() (string, error) {
		if !w.s.there {
			return "absent", apierrors.NewNotFound(leaseGR, "x")
		}
		spec := w.s.spec()
		version, record = w.s.version, rl.LeaseSpecToLeaderElectionRecord(&spec)
		var err error
		raw, err = json.Marshal(*record)
		return "found", err
	})
	if err == nil {
		w.cached = version
	}
	return record, raw, err
}

func (w *wire) put(ctx context.Context, what string, record rl.LeaderElectionRecord) error {
	version := 0
	err := w.call(ctx, what, func() (string, error) {
		if what == "create" && w.s.there {
			return "exists", apierrors.NewAlreadyExists(leaseGR, "x")
		}
		if what == "update" && (!w.s.there || w.cached != w.s.version) {
			return "conflict", apierrors.NewConflict(leaseGR, "x", errors.New("version"))
		}
		w.s.put(rl.LeaderElectionRecordToLeaseSpec(&record))
		version = w.s.version
		return "done", nil
	})
	if err == nil {
		w.cached = version
	}
	return err
}

func (w *wire) Create(ctx context.Context, r rl.LeaderElectionRecord) error {
	return w.put(ctx, "create", r)
}
func (w *wire) Update(ctx context.Context, r rl.LeaderElectionRecord) error {
	return w.put(ctx, "update", r)
}
func (w *wire) RecordEvent(string) {}
func (w *wire) Identity() string   { return w.id }
func (w *wire) Describe() string   { return "record" }

// endCase is one end. Its times count in ms from what happened, -1 for never.
type endCase struct {
	Mode        string     `json:"mode"` // cancel, cut, cut_back, deaf, taken
	IsReleasing bool       `json:"release_on_cancel"`
	OneWayMs    int64      `json:"one_way_ms"`
	AtMs        int64      `json:"at_ms"`      // when it happens, from the lead on
	RenewedMs   int64      `json:"renewed_ms"` // the last renewal was heard so long before
	WorkMs      int64      `json:"work_ms"`    // the work is told to end
	StopMs      int64      `json:"stop_ms"`    // OnStoppedLeading
	FreeMs      int64      `json:"free_ms"`    // the store has a Lease without a holder
	NextMs      int64      `json:"next_ms"`    // b leads
	Holder      string     `json:"holder"`     // of the released Lease, with what follows
	Duration    int32      `json:"duration"`
	Transitions int32      `json:"transitions"`
	Calls       []wireCall `json:"calls"` // of a, from then on
}

// endRun is a case while it runs.
type endRun struct {
	o                         *endCase
	s                         *store
	mu                        *sync.Mutex
	a, b                      *wire
	led, next                 chan time.Time
	work, stopped, otherEnded chan time.Time
	at                        time.Time
}

func newEndRun(o *endCase) *endRun {
	e := &endRun{o: o, s: &store{}, mu: &sync.Mutex{}}
	for _, it := range []*chan time.Time{&e.led, &e.next, &e.work, &e.stopped, &e.otherEnded} {
		*it = make(chan time.Time, 1)
	}
	base, oneWay := time.Now(), time.Duration(o.OneWayMs)*time.Millisecond
	e.a = &wire{id: "a", mu: e.mu, s: e.s, oneWay: oneWay, base: base}
	e.b = &wire{id: "b", mu: e.mu, s: e.s, oneWay: oneWay, base: base}
	return e
}

func (e *endRun) elector(t *testing.T, lock *wire, isReleasing bool, callbacks LeaderCallbacks) *LeaderElector {
	le, err := NewLeaderElector(LeaderElectionConfig{Lock: lock, LeaseDuration: 15 * time.Second, RenewDeadline: 10 * time.Second,
		RetryPeriod: 2 * time.Second, ReleaseOnCancel: isReleasing, Callbacks: callbacks})
	if err != nil {
		t.Fatal(err)
	}
	return le
}

// happen does what the case is on.
func (e *endRun) happen(cancel context.CancelFunc) {
	switch e.o.Mode {
	case "cancel":
		cancel()
	case "cut", "cut_back":
		e.a.locked(func() { e.a.isCut = true })
	case "deaf":
		e.a.locked(func() { e.a.isDeaf = true })
	case "taken":
		holder, seconds, transitions, now := "z", int32(15), int32(7), us(time.Now())
		e.a.locked(func() {
			e.s.put(toSpec(bare{Holder: &holder, Duration: &seconds, Renewed: &now, Acquired: &now, Transitions: &transitions}))
		})
	}
}

func (e *endRun) sinceAt(it time.Time) int64 { return it.Sub(e.at).Milliseconds() }

// watch looks each ms until a has stopped and b leads, or a minute is over.
func (e *endRun) watch() {
	o := e.o
	o.WorkMs, o.StopMs, o.FreeMs, o.NextMs = -1, -1, -1, -1
	for ms := 0; ms < 60000 && (o.StopMs < 0 || o.NextMs < 0); ms++ {
		select {
		case it := <-e.work:
			o.WorkMs = e.sinceAt(it)
		case it := <-e.stopped:
			o.StopMs = e.sinceAt(it)
		case it := <-e.next:
			o.NextMs = e.sinceAt(it)
		case <-time.After(time.Millisecond):
		}
		e.a.locked(e.look)
	}
	if o.WorkMs < 0 {
		select {
		case it := <-e.work:
			o.WorkMs = e.sinceAt(it)
		case <-time.After(time.Second):
		}
	}
}

func (e *endRun) look() {
	if e.o.Mode == "cut_back" && (e.o.WorkMs >= 0 || time.Since(e.at) > comesBack) {
		e.a.isCut = false
	}
	if !e.s.there || e.o.FreeMs >= 0 {
		return
	}
	if spec := e.s.spec(); spec.HolderIdentity != nil && *spec.HolderIdentity == "" {
		e.o.FreeMs, e.o.Duration, e.o.Transitions = e.sinceAt(time.Now()), *spec.LeaseDurationSeconds, *spec.LeaseTransitions
	}
}

func (e *endRun) play(t *testing.T) {
	ctxA, cancelA := context.WithCancel(context.Background())
	ctxB, cancelB := context.WithCancel(context.Background())
	a := e.elector(t, e.a, e.o.IsReleasing, LeaderCallbacks{
		OnStartedLeading: func(ctx context.Context) { e.led <- time.Now(); <-ctx.Done(); e.work <- time.Now() },
		OnStoppedLeading: func() { e.stopped <- time.Now() }})
	go a.Run(ctxA)
	<-e.led
	b := e.elector(t, e.b, false, LeaderCallbacks{OnStartedLeading: func(context.Context) { e.next <- time.Now() },
		OnStoppedLeading: func() { e.otherEnded <- time.Now() }})
	go b.Run(ctxB)
	time.Sleep(time.Duration(e.o.AtMs) * time.Millisecond)
	e.at = time.Now()
	e.o.RenewedMs = e.at.Sub(a.observedTime).Milliseconds()
	from := len(e.a.calls)
	e.happen(cancelA)
	e.watch()
	happened := e.at.Sub(e.a.base).Milliseconds()
	e.a.locked(func() {
		for _, it := range e.a.calls[from:] {
			it.AtMs, it.EndMs = it.AtMs-happened, it.EndMs-happened
			e.o.Calls = append(e.o.Calls, it)
		}
	})
	cancelA()
	cancelB()
	<-e.otherEnded
}

func TestRecordEnds(t *testing.T) {
	r := rand.New(rand.NewSource(81))
	cases := []*endCase{}
	for c := 0; c < 500; c++ {
		o := &endCase{Mode: []string{"cancel", "cut", "cut_back", "deaf", "taken"}[c%5], IsReleasing: c/5%2 == 0, OneWayMs: []int64{2, 50}[c/10%2],
			AtMs: 10000 + int64(r.Intn(20000)), Calls: []wireCall{}}
		newEndRun(o).play(t)
		cases = append(cases, o)
	}
	out("election_ends.json", cases)
}
