// Records answers (this project's own code). record.sh and record_new.sh place this file into the
// leaderelection package of upstream, of 1.20 or of 0.32 and newer. It needs Go's faketime build
// tag, so that time moves only when every goroutine sleeps.
//
// A newer leader begins an attempt with an Update, and asks only where that fails. So an attempt
// begins at a Get, or at an Update that no Get came before; what a plan says of the write holds for
// each Update of the attempt. A lock knows the version of the last reply that it heard.
package leaderelection

import (
	"context"
	"encoding/json"
	"errors"
	"math/rand"
	"os"
	"path/filepath"
	"testing"
	"time"

	coordv1 "k8s.io/api/coordination/v1"
	apierrors "k8s.io/apimachinery/pkg/api/errors"
	metav1 "k8s.io/apimachinery/pkg/apis/meta/v1"
	"k8s.io/apimachinery/pkg/runtime/schema"
	rl "k8s.io/client-go/tools/leaderelection/resourcelock"
)

var leaseGR = schema.GroupResource{Group: "coordination.k8s.io", Resource: "leases"}
var epoch = time.Now()

func us(t time.Time) int64 { return t.Sub(epoch).Microseconds() }
func nowUs() int64         { return us(time.Now()) }

// bare is a lease as the store keeps it. Times are microseconds since epoch.
type bare struct {
	Holder      *string `json:"holder"`
	Duration    *int32  `json:"duration"`
	Acquired    *int64  `json:"acquired_us"`
	Renewed     *int64  `json:"renewed_us"`
	Transitions *int32  `json:"transitions"`
}

func toSpec(b bare) coordv1.LeaseSpec {
	var s coordv1.LeaseSpec
	s.HolderIdentity, s.LeaseDurationSeconds, s.LeaseTransitions = b.Holder, b.Duration, b.Transitions
	if b.Acquired != nil {
		s.AcquireTime = &metav1.MicroTime{Time: epoch.Add(time.Duration(*b.Acquired) * time.Microsecond)}
	}
	if b.Renewed != nil {
		s.RenewTime = &metav1.MicroTime{Time: epoch.Add(time.Duration(*b.Renewed) * time.Microsecond)}
	}
	return s
}

func fromSpec(s coordv1.LeaseSpec) bare {
	b := bare{Holder: s.HolderIdentity, Duration: s.LeaseDurationSeconds, Transitions: s.LeaseTransitions}
	if s.AcquireTime != nil {
		v := us(s.AcquireTime.Time)
		b.Acquired = &v
	}
	if s.RenewTime != nil {
		v := us(s.RenewTime.Time)
		b.Renewed = &v
	}
	return b
}

// store is one lease, kept as API JSON, with a count of writes as version.
type store struct {
	bytes   []byte
	version int
	there   bool
}

func (s *store) put(spec coordv1.LeaseSpec) {
	s.bytes, _ = json.Marshal(spec)
	s.version++
	s.there = true
}

func (s *store) spec() coordv1.LeaseSpec {
	var sp coordv1.LeaseSpec
	if err := json.Unmarshal(s.bytes, &sp); err != nil {
		panic(err)
	}
	return sp
}

type plan struct {
	GetMs    int64  `json:"get_ms"`
	Get      string `json:"get"` // ok, error
	Mid      *bare  `json:"mid"` // another's write: after the Get's reply, or before an Update without a Get
	WriteMs  int64  `json:"write_ms"`
	Write    string `json:"write"` // ok, error, reply_lost
	sent     string
	got      int64
	sentAt   int64
	answered string
	wrote    *bare
	made     []madeCall
	midDone  bool
}

// madeCall is one call of an attempt, as it went.
type madeCall struct {
	What  string `json:"what"` // get, create, update, and fast for an update without a get
	AtUs  int64  `json:"at_us"`
	EndUs int64  `json:"end_us"`
	Reply string `json:"reply"` // found, absent, done, exists, conflict, reply_lost, error, cut
}

// lock is an rl.Interface over store, one planned attempt at a time.
type lock struct {
	id     string
	s      *store
	p      *plan
	cached int
	base   int64
	asked  bool // the last call was a Get that was answered
}

// note keeps one call of the plan under way.
func (l *lock) note(what string, at int64, reply string) {
	l.p.made = append(l.p.made, madeCall{what, at - l.base, nowUs() - l.base, reply})
}

func (l *lock) nap(ctx context.Context, ms int64) error {
	if ms == 0 {
		return ctx.Err()
	}
	t := time.NewTimer(time.Duration(ms) * time.Millisecond)
	defer t.Stop()
	select {
	case <-t.C:
		return nil
	case <-ctx.Done():
		return ctx.Err()
	}
}

func (l *lock) mid() {
	if l.p.Mid != nil && !l.p.midDone {
		l.p.midDone = true
		l.s.put(toSpec(*l.p.Mid))
	}
}

func (l *lock) Get(ctx context.Context) (*rl.LeaderElectionRecord, []byte, error) {
	at, reply := nowUs(), "found"
	defer func() { l.note("get", at, reply) }()
	l.asked = false
	if err := l.nap(ctx, l.p.GetMs); err != nil {
		reply = "cut"
		return nil, nil, err
	}
	l.p.got = nowUs()
	if l.p.Get != "ok" {
		reply = "error"
		return nil, nil, errors.New("planned")
	}
	l.asked = true
	defer l.mid()
	if !l.s.there {
		reply = "absent"
		return nil, nil, apierrors.NewNotFound(leaseGR, "x")
	}
	sp := l.s.spec()
	l.cached = l.s.version
	rec := rl.LeaseSpecToLeaderElectionRecord(&sp)
	raw, err := json.Marshal(*rec)
	return rec, raw, err
}

// refusal is what the store says to a write that it doesn't take, with the word for it.
func (l *lock) refusal(sent string) (string, error) {
	switch {
	case sent == "create" && l.s.there:
		return "exists", apierrors.NewAlreadyExists(leaseGR, "x")
	case sent == "update" && !l.s.there:
		return "absent", apierrors.NewNotFound(leaseGR, "x")
	case sent == "update" && l.cached != l.s.version:
		return "conflict", apierrors.NewConflict(leaseGR, "x", errors.New("version"))
	}
	return "done", nil
}

func (l *lock) write(ctx context.Context, sent string, ler rl.LeaderElectionRecord) error {
	at, what, reply := nowUs(), sent, "done"
	if sent == "update" && !l.asked {
		what = "fast"
		l.mid()
	}
	l.asked = false
	defer func() { l.note(what, at, reply) }()
	l.p.sent, l.p.sentAt = what, at
	if err := l.nap(ctx, l.p.WriteMs); err != nil {
		reply = "cut"
		return err
	}
	if l.p.Write == "error" {
		l.p.answered, reply = "lost", "error"
		return errors.New("planned")
	}
	word, err := l.refusal(sent)
	l.p.answered, reply = word, word
	if err != nil {
		return err
	}
	l.s.put(rl.LeaderElectionRecordToLeaseSpec(&ler))
	b := fromSpec(l.s.spec())
	l.p.wrote = &b
	if l.p.Write == "reply_lost" {
		reply = "reply_lost"
		return errors.New("planned")
	}
	l.cached = l.s.version
	return nil
}

func (l *lock) Create(ctx context.Context, r rl.LeaderElectionRecord) error {
	return l.write(ctx, "create", r)
}
func (l *lock) Update(ctx context.Context, r rl.LeaderElectionRecord) error {
	return l.write(ctx, "update", r)
}
func (l *lock) RecordEvent(string) {}
func (l *lock) Identity() string   { return l.id }
func (l *lock) Describe() string   { return "record" }

type step struct {
	Op     string `json:"op"` // attempt, advance, foreign, delete
	Ms     int64  `json:"ms,omitempty"`
	Lease  *bare  `json:"lease,omitempty"`
	Plan   *plan  `json:"plan,omitempty"`
	Result *res   `json:"result,omitempty"`
}
type res struct {
	StartUs  int64      `json:"start_us"`
	GotUs    int64      `json:"got_us"`
	SentUs   int64      `json:"sent_us"`
	EndUs    int64      `json:"end_us"`
	Ok       bool       `json:"ok"`
	Sent     string     `json:"sent"`
	Answered string     `json:"answered"`
	Wrote    *bare      `json:"wrote"`
	Version  int        `json:"version"`
	Made     []madeCall `json:"made"`
}
type stepCase struct {
	LeaseSeconds int64  `json:"lease_seconds"`
	Steps        []step `json:"steps"`
}

func out(name string, v interface{}) {
	dir := os.Getenv("RECORD_OUT")
	b, err := json.Marshal(v)
	if err != nil {
		panic(err)
	}
	if err := os.WriteFile(filepath.Join(dir, name), append(b, '\n'), 0o644); err != nil {
		panic(err)
	}
}

func i32(v int32) *int32 { return &v }

func foreign(r *rand.Rand) *bare {
	names := []string{"other_1", "other_2", "me_1", ""}
	n := names[r.Intn(4)]
	if r.Intn(3) > 0 {
		n = names[r.Intn(2)]
	}
	b := &bare{Holder: &n}
	if r.Intn(8) > 0 {
		b.Duration = i32([]int32{15, 15, 15, 1, 5, 40}[r.Intn(6)])
	}
	if r.Intn(6) > 0 {
		b.Transitions = i32([]int32{0, 1, 7, 2147483646, 2147483647}[r.Intn(5)])
	}
	if r.Intn(6) > 0 {
		v := nowUs()
		b.Renewed = &v
		w := v - int64(r.Intn(50))*1000003
		b.Acquired = &w
	}
	return b
}

func TestRecordElectionSteps(t *testing.T) {
	r := rand.New(rand.NewSource(20240101))
	cases := []stepCase{}
	for c := 0; c < 150; c++ {
		ld := []int64{15, 15, 5, 2}[r.Intn(4)]
		cs := stepCase{LeaseSeconds: ld}
		s := &store{}
		l := &lock{id: "me_1", s: s}
		le, err := NewLeaderElector(LeaderElectionConfig{Lock: l, LeaseDuration: time.Duration(ld) * time.Second,
			RenewDeadline: time.Duration(ld)*time.Second - time.Second/2, RetryPeriod: time.Second / 2,
			Callbacks: LeaderCallbacks{OnStartedLeading: func(context.Context) {}, OnStoppedLeading: func() {}}})
		if err != nil {
			t.Fatal(err)
		}
		n := 8 + r.Intn(18)
		var last *bare // another holder's lease that it renews, often within one second
		for k := 0; k < n; k++ {
			switch x := r.Intn(12); {
			case x < 3:
				ms := []int64{1, 200, 2000, ld*1000 - 1, ld * 1000, ld*1000 + 1, int64(r.Intn(20000))}[r.Intn(7)]
				time.Sleep(time.Duration(ms) * time.Millisecond)
				cs.Steps = append(cs.Steps, step{Op: "advance", Ms: ms})
			case x < 5:
				b := foreign(r)
				if last != nil && last.Renewed != nil && c%3 == 0 && r.Intn(3) > 0 {
					v := nowUs() + int64(r.Intn(3))*200000
					d := *last
					d.Renewed = &v
					b = &d
				}
				last = b
				s.put(toSpec(*b))
				cs.Steps = append(cs.Steps, step{Op: "foreign", Lease: b})
			case x == 5 && r.Intn(3) == 0:
				if s.there {
					s.there = false
					s.version++
				}
				cs.Steps = append(cs.Steps, step{Op: "delete"})
			default:
				p := &plan{Get: "ok", Write: "ok"}
				if r.Intn(3) == 0 {
					p.GetMs = []int64{1, 40, 700, 1999}[r.Intn(4)]
				}
				if r.Intn(3) == 0 {
					p.WriteMs = []int64{1, 40, 700, 1999}[r.Intn(4)]
				}
				if r.Intn(10) == 0 {
					p.Get = "error"
				}
				if y := r.Intn(10); y == 0 {
					p.Write = "error"
				} else if y == 1 {
					p.Write = "reply_lost"
				}
				if r.Intn(10) == 0 {
					p.Mid = foreign(r)
				}
				l.p = p
				rs := &res{StartUs: nowUs()}
				rs.Ok = le.tryAcquireOrRenew(context.Background())
				rs.EndUs, rs.GotUs, rs.SentUs = nowUs(), p.got, p.sentAt
				rs.Sent, rs.Answered, rs.Wrote, rs.Version, rs.Made = p.sent, p.answered, p.wrote, s.version, p.made
				cs.Steps = append(cs.Steps, step{Op: "attempt", Plan: p, Result: rs})
			}
		}
		cases = append(cases, cs)
	}
	out("election_steps.json", cases)
}

// ---- whole runs of a leader: retry grid and deadline ----

type call struct {
	What string     `json:"what"`
	AtUs int64      `json:"at_us"`
	Made []madeCall `json:"made"`
}
type runCase struct {
	LeaseMs, RenewMs, RetryMs int64
	Plans                     []plan `json:"plans"` // one per attempt, in order
	Calls                     []call `json:"calls"` // start of each attempt
	LeadUs                    int64  `json:"lead_us"`
	StopUs                    int64  `json:"stop_us"` // -1: still leading when plans ran out
}

type runLock struct {
	lock
	c      *runCase
	k      int
	cancel context.CancelFunc
	ended  bool
	goesOn bool // an Update without a Get failed, so the next Get is of the same attempt
}

// begin takes the next plan, where a new attempt begins; false where there is none.
func (l *runLock) begin() bool {
	if l.goesOn || l.ended {
		l.goesOn = false
		return !l.ended
	}
	if l.k >= len(l.c.Plans) {
		l.ended = true
		l.cancel()
		return false
	}
	l.p = &l.c.Plans[l.k]
	l.k++
	l.c.Calls = append(l.c.Calls, call{What: "attempt", AtUs: nowUs() - l.base})
	return true
}

func (l *runLock) keep() { l.c.Calls[len(l.c.Calls)-1].Made = l.p.made }

func (l *runLock) Get(ctx context.Context) (*rl.LeaderElectionRecord, []byte, error) {
	if !l.begin() {
		return nil, nil, errors.New("end of plans")
	}
	defer l.keep()
	return l.lock.Get(ctx)
}

func (l *runLock) Create(ctx context.Context, r rl.LeaderElectionRecord) error {
	defer l.keep()
	return l.write(ctx, "create", r)
}

func (l *runLock) Update(ctx context.Context, r rl.LeaderElectionRecord) error {
	isFirst := !l.asked
	if isFirst && !l.begin() {
		return errors.New("end of plans")
	}
	defer l.keep()
	err := l.write(ctx, "update", r)
	l.goesOn = isFirst && err != nil
	return err
}

func TestRecordElectionRuns(t *testing.T) {
	r := rand.New(rand.NewSource(7))
	cases := []runCase{}
	for c := 0; c < 200; c++ {
		rc := runCase{LeaseMs: 15000, RenewMs: 10000, RetryMs: 2000}
		if c%4 == 3 {
			rc.RetryMs = 500 + int64(r.Intn(3000))
			rc.RenewMs = rc.RetryMs*2 + int64(r.Intn(5000))
			rc.LeaseMs = rc.RenewMs + 1000 + int64(r.Intn(3000))
		}
		bad := 0
		for k := 0; k < 25; k++ {
			p := plan{Get: "ok", Write: "ok"}
			if k > 0 {
				if r.Intn(2) == 0 {
					p.GetMs = int64(r.Intn(60))*7 + 1
				}
				if r.Intn(2) == 0 {
					p.WriteMs = int64(r.Intn(60))*7 + 3
				}
				if r.Intn(12) == 0 {
					p.GetMs += 2503 + int64(r.Intn(2000))
				}
				if bad == 0 && r.Intn(5) == 0 {
					bad = 1 + r.Intn(9)
				}
				if bad > 0 {
					bad--
					switch r.Intn(3) {
					case 0:
						p.Get = "error"
					case 1:
						p.Write = "error"
					default:
						p.Write = "reply_lost"
					}
				}
			}
			rc.Plans = append(rc.Plans, p)
		}
		ctx, cancel := context.WithCancel(context.Background())
		l := &runLock{lock: lock{id: "me_1", s: &store{}, base: nowUs()}, c: &rc, cancel: cancel}
		led := make(chan struct{})
		le, err := NewLeaderElector(LeaderElectionConfig{Lock: l, LeaseDuration: time.Duration(rc.LeaseMs) * time.Millisecond,
			RenewDeadline: time.Duration(rc.RenewMs) * time.Millisecond, RetryPeriod: time.Duration(rc.RetryMs) * time.Millisecond,
			Callbacks: LeaderCallbacks{
				OnStartedLeading: func(context.Context) { rc.LeadUs = nowUs() - l.base; close(led) },
				OnStoppedLeading: func() { rc.StopUs = nowUs() - l.base }}})
		if err != nil {
			t.Fatal(err)
		}
		le.Run(ctx)
		if l.ended {
			rc.StopUs = -1
		}
		cancel()
		<-led
		cases = append(cases, rc)
	}
	out("election_runs.json", cases)
}

// ---- which timings the constructor accepts ----

func TestRecordElectionConfig(t *testing.T) {
	r := rand.New(rand.NewSource(11))
	type cfg struct {
		LeaseSeconds int64 `json:"lease_seconds"`
		RenewMs      int64 `json:"renew_ms"`
		RetryMs      int64 `json:"retry_ms"`
		Ok           bool  `json:"ok"`
	}
	cases := []cfg{}
	for c := 0; c < 600; c++ {
		retry := int64(1 + r.Intn(86400000))
		if c%2 == 0 {
			retry = int64(1 + r.Intn(5000))
		}
		renew := 6*retry/5 + int64(r.Intn(5)) - 2
		lease := renew/1000 + int64(r.Intn(3))
		if lease < 1 {
			lease = 1
		}
		if renew < 1 {
			renew = 1
		}
		_, err := NewLeaderElector(LeaderElectionConfig{Lock: &lock{id: "me_1"}, LeaseDuration: time.Duration(lease) * time.Second,
			RenewDeadline: time.Duration(renew) * time.Millisecond, RetryPeriod: time.Duration(retry) * time.Millisecond,
			Callbacks: LeaderCallbacks{OnStartedLeading: func(context.Context) {}, OnStoppedLeading: func() {}}})
		cases = append(cases, cfg{lease, renew, retry, err == nil})
	}
	out("election_config.json", cases)
}

// ---- cost of one step (run without faketime) ----

func BenchmarkRecordAttempt(b *testing.B) {
	s := &store{}
	l := &lock{id: "me_1", s: s, p: &plan{Get: "ok", Write: "ok"}}
	le, err := NewLeaderElector(LeaderElectionConfig{Lock: l, LeaseDuration: 15 * time.Second,
		RenewDeadline: 10 * time.Second, RetryPeriod: 2 * time.Second,
		Callbacks: LeaderCallbacks{OnStartedLeading: func(context.Context) {}, OnStoppedLeading: func() {}}})
	if err != nil {
		b.Fatal(err)
	}
	b.ReportAllocs()
	b.ResetTimer()
	for i := 0; i < b.N; i++ {
		if !le.tryAcquireOrRenew(context.Background()) {
			b.Fatal("lost")
		}
	}
}
