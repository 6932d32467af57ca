package simulation

import (
	"errors"
	"strings"
	"testing"
	"time"

	"calvundek.example/service/internal/wire"
	"calvundek.example/service/qlock"
)

// absent returns a kind of incident that did not happen, "" if all did.
func absent(f Figures) string {
	for _, kind := range Kinds() {
		if f.Incidents[kind] == 0 {
			return kind
		}
	}
	return ""
}

// Whatever happens, no check finds anything. There are more runs until each kind of incident happened: some are rare.
func TestRuns(t *testing.T) {
	var total Figures
	for seed := int64(1); seed <= 16 || seed <= 80 && absent(total) != ""; seed++ {
		r := Run(Options{Seed: seed, Events: 12000})
		if r.Fault != nil {
			t.Fatalf("seed %d: %v", seed, r.Fault)
		}
		total.Add(r.Figures)
	}
	if kind := absent(total); kind != "" {
		t.Errorf("there were no %s", kind)
	}
	copies := []string{"older copies of states", "clients cut off", "clients that stand still"}
	for seed := int64(1); seed <= 4; seed++ {
		if r := Run(Options{Seed: seed, Events: 8000, Often: true, Copies: true, Only: copies}); r.Fault != nil {
			t.Fatalf("older copies, seed %d: %v", seed, r.Fault)
		}
	}
	if total.Passes < 500 || total.Lost == 0 || total.Refused == 0 || total.Turns < 100 {
		t.Errorf("%+v", total)
	}
	t.Logf("%d passes, %d events, %.0f s", total.Passes, total.Steps, total.Virtual.Seconds())
}

// The same seed gives the same run, also if its schedule is written. Another seed gives another one.
func TestSeedRepeatsItsRun(t *testing.T) {
	hashes := map[uint64]bool{}
	for seed := int64(20); seed < 24; seed++ {
		lines := 0
		first, second := Run(Options{Seed: seed, Events: 8000}),
			Run(Options{Seed: seed, Events: 8000, ShowMessages: true, Trace: func(string) { lines++ }})
		if first.Hash != second.Hash || first.Steps != second.Steps || first.Virtual != second.Virtual || lines == 0 {
			t.Errorf("seed %d: %x in %d steps, then %x in %d", seed, first.Hash, first.Steps, second.Hash, second.Steps)
		}
		hashes[first.Hash] = true
	}
	if len(hashes) != 4 {
		t.Errorf("%d hashes of four runs", len(hashes))
	}
}

// Each duty of a host is needed: a run in which it is broken is found, and by which check. The same seed with right hosts is not.
func TestWrongHosts(t *testing.T) {
	for _, one := range []struct {
		duty, only, checks string
		seeds              int64
	}{
		{"sends-first", "voters killed", "unsaved", 3},
		{"stale-time", "clients that stand still once voters go on", "exclusion guard", 200},
		{"failed-save", "full disks", "unsaved", 10},
		{"older-copy", "older copies of states", "grants exclusion", 20},
		{"two-processes", "voters cut off", "unsaved exclusion", 20},
		{"goes-on", "clients that stand still", "exclusion", 20},
		{"lease-from-reply", "servers frozen,clients that stand still", "exclusion guard", 200},
		{"clocks", "clients cut off,clients that stand still", "exclusion guard", 50},
		{"forgets-claims", "clients whose next session is given up,times of noise", "claims", 50},
		{"evicts-at-once", "sessions that operators end,clients cut off", "exclusion guard", 50},
		{"starts-empty", "states lost", "grants exclusion guard", 50},
	} {
		o := Options{Events: 8000, Often: true, Only: strings.Split(one.only, ",")}
		for _, duty := range Duties {
			if duty.Name == one.duty {
				duty.Breaks(&o.Wrong)
			}
		}
		if o.Wrong == (Wrong{}) {
			t.Fatalf("there is no duty %q", one.duty)
		}
		var found *Violation
		for o.Seed = 1; found == nil && o.Seed <= one.seeds; o.Seed++ {
			if fault := Run(o).Fault; fault != nil && !errors.As(fault, &found) {
				t.Fatal(fault)
			}
		}
		if found == nil {
			t.Errorf("%s is not found in %d runs", one.duty, one.seeds)
			continue
		}
		if !strings.Contains(one.checks, found.Check) {
			t.Errorf("%s is found by another check: %v", one.duty, found)
		}
		t.Logf("%s, seed %d: %v", one.duty, o.Seed-1, found)
		o.Seed, o.Wrong = o.Seed-1, Wrong{}
		if fault := Run(o).Fault; fault != nil {
			t.Errorf("seed %d with right hosts: %v", o.Seed, fault)
		}
	}
}

// Numbers that nobody has are forgotten, and sessions that come back later begin above all that was: whatever voters lose meanwhile, and
// also while only some of them know of floors.
func TestNumbersAreForgotten(t *testing.T) {
	var total Figures
	for _, only := range [][]string{
		{"times without sessions", "levels that are raised"},
		{"times without sessions", "levels that are raised", "voters killed", "voters ended", "states lost"},
	} {
		for seed := int64(1); seed <= 8; seed++ {
			r := Run(Options{Seed: seed, Events: 20000, Often: true, Only: only})
			if r.Fault != nil {
				t.Fatalf("%v, seed %d: %v", only, seed, r.Fault)
			}
			total.Add(r.Figures)
		}
	}
	if forgotten := total.Incidents["shards forgotten"]; forgotten < 20 {
		t.Errorf("numbers are forgotten %d times", forgotten)
	}
	t.Logf("%d passes, %d events, %.0f s, %v", total.Passes, total.Steps, total.Virtual.Seconds(), total.Incidents)
}

// A session that is given up as it claims a number is opened again under its name. A word that takes the claim back may come late, and takes
// nothing from the next try.
func TestSessionIsOpenedAgain(t *testing.T) {
	var total Figures
	only := []string{"clients whose next session is given up", "times of noise"}
	for seed := int64(1); seed <= 20; seed++ {
		r := Run(Options{Seed: seed, Events: 8000, Often: true, Only: only})
		if r.Fault != nil {
			t.Fatalf("seed %d: %v", seed, r.Fault)
		}
		total.Add(r.Figures)
	}
	if given := total.Incidents["sessions given up"]; given < 50 {
		t.Errorf("%d sessions are given up", given)
	}
	t.Logf("%+v", total)
}

// quiet returns a world in which no incident happens, after a while.
func quiet(t *testing.T, events int) *world {
	t.Helper()
	w := newWorld(Options{Seed: 5, Events: 1 << 30, Calm: true})
	if err := w.begin(); err != nil {
		t.Fatal(err)
	}
	for i := 0; i < events && w.fault == nil; i++ {
		w.next()
	}
	if w.fault != nil {
		t.Fatal(w.fault)
	}
	return w
}

// mustFind fails unless a check found something.
func mustFind(t *testing.T, w *world, check string) {
	t.Helper()
	var found *Violation
	if !errors.As(w.fault, &found) || found.Check != check {
		t.Errorf("%s: %v", check, w.fault)
	}
}

// The checks that no broken duty leads to find what they are for.
func TestChecks(t *testing.T) {
	w := quiet(t, 3000)
	for _, p := range w.voters {
		p.cut = true
	}
	w.heal()
	for _, p := range w.voters {
		p.cut = true
	}
	for i := 0; i < 1<<20 && w.fault == nil; i++ {
		w.next()
	}
	mustFind(t, w, "liveness")

	w = quiet(t, 3000)
	r := w.voters[0].run
	said := wire.ReadLine([]byte("locked 0 5 70 9 70"))
	r.checkStamp("-.one", said)
	if r.checkStamp("-.one", said); w.fault != nil {
		t.Fatal(w.fault)
	}
	r.checkStamp("-.two", said)
	mustFind(t, w, "stamps")

	w = quiet(t, 3000)
	shown := w.locks[0].last
	if shown == nil {
		t.Fatal("nobody showed a pass")
	}
	for other := shown; other == shown; other = w.locks[0].last {
		w.next()
	}
	var err error
	if w.locks[0].guard, err = qlock.NewFence(); err != nil { // one that forgot what it admitted
		t.Fatal(err)
	}
	w.locks[0].shows(shown)
	mustFind(t, w, "guard")

	w = quiet(t, 3000)
	p := w.voters[0]
	p.refused(p)
	mustFind(t, w, "state")
}

// A clock shows a time no earlier than asked for, and goes at its rate.
func TestClock(t *testing.T) {
	for _, rate := range []int64{slowest, 1000000, fastest, 1300000} {
		c := clock{base: time.Hour, rate: rate}
		c.sets(7000000, rate)
		for _, shown := range []time.Duration{0, time.Hour, time.Hour + time.Microsecond, 2 * time.Hour, 2*time.Hour + 12345} {
			at := c.when(shown)
			if c.shows(at) < shown || at >= 1000 && at > c.since && c.shows(at-1000) >= shown {
				t.Errorf("rate %d: it shows %v at %d", rate, shown, at)
			}
		}
		if second := c.shows(1007000000) - c.shows(7000000); second != time.Duration(rate)*1000 {
			t.Errorf("rate %d: a second takes %v", rate, second)
		}
	}
}
