// Further vectors of the real LeaderElector: plans that a document of kube_replay can say exactly (each call takes at
// least 2 ms, and a call that fails is one that expired), and failovers between candidates.
// Placed beside election_test.go, whose types it uses; needs Go's faketime build tag.
package leaderelection

import (
	"context"
	"encoding/json"
	"errors"
	"math/rand"
	"sync"
	"testing"
	"time"

	apierrors "k8s.io/apimachinery/pkg/api/errors"
	rl "k8s.io/client-go/tools/leaderelection/resourcelock"
)

type timeoutCase struct {
	TimeoutMs int64 `json:"timeout_ms"`
	runCase
}

func TestRecordTimeouts(t *testing.T) {
	r := rand.New(rand.NewSource(77))
	cases := []timeoutCase{}
	for c := 0; c < 300; c++ {
		tc := timeoutCase{TimeoutMs: []int64{500, 1000, 2000, 5000, 10000}[c%5]}
		tc.LeaseMs, tc.RenewMs, tc.RetryMs = 15000, 10000, 2000
		if c%4 == 3 {
			tc.RetryMs = 500 + int64(r.Intn(3000))
			tc.RenewMs = tc.RetryMs*2 + int64(r.Intn(5000))
			tc.LeaseMs = (tc.RenewMs/1000 + 2) * 1000
		}
		quick := func() int64 { return 2 + int64(r.Intn(300)) }
		bad := 0
		for k := 0; k < 25; k++ {
			p := plan{Get: "ok", Write: "ok", GetMs: 2, WriteMs: 2}
			if k > 0 {
				p.GetMs, p.WriteMs = quick(), quick()
				if r.Intn(10) == 0 { // slow, but heard
					p.GetMs = tc.TimeoutMs - int64(r.Intn(100))
				}
				if r.Intn(10) == 0 {
					p.WriteMs = tc.TimeoutMs - int64(r.Intn(100))
				}
				if bad == 0 && r.Intn(4) == 0 {
					bad = 1 + r.Intn(9)
				}
				if bad > 0 {
					bad--
					switch r.Intn(3) {
					case 0:
						p.Get, p.GetMs = "error", tc.TimeoutMs+1
					case 1:
						p.Write, p.WriteMs = "error", tc.TimeoutMs+1
					default:
						p.Write, p.WriteMs = "reply_lost", tc.TimeoutMs+1
					}
				}
			}
			tc.Plans = append(tc.Plans, p)
		}
		ctx, cancel := context.WithCancel(context.Background())
		l := &runLock{lock: lock{id: "me_1", s: &store{}, base: nowUs()}, c: &tc.runCase, cancel: cancel}
		led := make(chan struct{})
		le, err := NewLeaderElector(LeaderElectionConfig{Lock: l, LeaseDuration: time.Duration(tc.LeaseMs) * time.Millisecond,
			RenewDeadline: time.Duration(tc.RenewMs) * time.Millisecond, RetryPeriod: time.Duration(tc.RetryMs) * time.Millisecond,
			Callbacks: LeaderCallbacks{
				OnStartedLeading: func(context.Context) { tc.LeadUs = nowUs() - l.base; close(led) },
				OnStoppedLeading: func() { tc.StopUs = nowUs() - l.base }}})
		if err != nil {
			t.Fatal(err)
		}
		le.Run(ctx)
		if l.ended {
			tc.StopUs = -1
		}
		cancel()
		<-led
		cases = append(cases, tc)
	}
	out("election_timeouts.json", cases)
}

// sharedLock is one candidate's lock on a store that others use too.
type sharedLock struct {
	id     string
	mu     *sync.Mutex
	s      *store
	cached int
	oneWay time.Duration
	dead   bool
}

func (l *sharedLock) call(f func() error) error {
	time.Sleep(l.oneWay)
	l.mu.Lock()
	if l.dead {
		l.mu.Unlock()
		time.Sleep(time.Hour * 100)
		return errors.New("dead")
	}
	err := f()
	l.mu.Unlock()
	time.Sleep(l.oneWay)
	return err
}
func (l *sharedLock) Get(ctx context.Context) (*rl.LeaderElectionRecord, []byte, error) {
	var rec *rl.LeaderElectionRecord
	var raw []byte
	err := l.call(func() error {
		if !l.s.there {
			return apierrors.NewNotFound(leaseGR, "x")
		}
		sp := l.s.spec()
		l.cached = l.s.version
		rec = rl.LeaseSpecToLeaderElectionRecord(&sp)
		var err error
		raw, err = json.Marshal(*rec) // as LeaseLock does: times in whole seconds
		return err
	})
	return rec, raw, err
}
func (l *sharedLock) Create(ctx context.Context, ler rl.LeaderElectionRecord) error {
	return l.call(func() error {
		if l.s.there {
			return apierrors.NewAlreadyExists(leaseGR, "x")
		}
		l.s.put(rl.LeaderElectionRecordToLeaseSpec(&ler))
		l.cached = l.s.version
		return nil
	})
}
func (l *sharedLock) Update(ctx context.Context, ler rl.LeaderElectionRecord) error {
	return l.call(func() error {
		if l.cached != l.s.version {
			return apierrors.NewConflict(leaseGR, "x", errors.New("version"))
		}
		l.s.put(rl.LeaderElectionRecordToLeaseSpec(&ler))
		l.cached = l.s.version
		return nil
	})
}
func (l *sharedLock) RecordEvent(string) {}
func (l *sharedLock) Identity() string   { return l.id }
func (l *sharedLock) Describe() string   { return "record" }

type failover struct {
	Candidates int   `json:"candidates"` // besides the leader
	OneWayMs   int64 `json:"one_way_ms"`
	LeaseMs    int64 `json:"lease_ms"`
	CrashMs    int64 `json:"crash_ms"` // since the leader leads
	GapMs      int64 `json:"gap_ms"`   // from the crash to the next lead
}

func TestRecordFailover(t *testing.T) {
	r := rand.New(rand.NewSource(78))
	cases := []failover{}
	for c := 0; c < 2400; c++ {
		f := failover{Candidates: 1 + c%2, OneWayMs: []int64{2, 100}[c/2%2], LeaseMs: []int64{15000, 20000}[c/4%2], CrashMs: 30000 + int64(r.Intn(30000))}
		s, mu := &store{}, &sync.Mutex{}
		lead := make(chan int, 10)
		ctx, cancel := context.WithCancel(context.Background())
		locks := []*sharedLock{}
		for k := 0; k <= f.Candidates; k++ {
			k := k
			l := &sharedLock{id: string(rune('a' + k)), mu: mu, s: s, oneWay: time.Duration(f.OneWayMs) * time.Millisecond}
			locks = append(locks, l)
			le, err := NewLeaderElector(LeaderElectionConfig{Lock: l, LeaseDuration: time.Duration(f.LeaseMs) * time.Millisecond,
				RenewDeadline: 10 * time.Second, RetryPeriod: 2 * time.Second,
				Callbacks: LeaderCallbacks{OnStartedLeading: func(context.Context) { lead <- k }, OnStoppedLeading: func() {}}})
			if err != nil {
				t.Fatal(err)
			}
			go le.Run(ctx)
			if k == 0 {
				<-lead
			}
		}
		time.Sleep(time.Duration(f.CrashMs) * time.Millisecond)
		mu.Lock()
		locks[0].dead = true
		mu.Unlock()
		at := time.Now()
		<-lead
		f.GapMs = time.Since(at).Milliseconds()
		mu.Lock()
		for _, l := range locks {
			l.dead = true
		}
		mu.Unlock()
		cancel()
		cases = append(cases, f)
	}
	out("election_failover.json", cases)
}
