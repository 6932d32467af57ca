package voter

import (
	"fmt"
	"math/rand"
	"strings"
	"testing"
	"time"
)

// Who came first sees a number that is free, and the others see none.
func TestFirstComeFirstServed(t *testing.T) {
	now, ttl := time.Unix(1000, 0), 4*time.Second
	var q numberQueue
	asks := func(name string, free int) (ahead, seen int) {
		states := make([]int, 64)
		for i := 0; i < free; i++ {
			states[i] = 1
		}
		ahead = q.ask(name, "", states, newShares(), now, ttl)
		for _, state := range states {
			seen += state
		}
		return ahead, seen
	}
	for i, name := range []string{"a", "b", "c", "d"} {
		if ahead, seen := asks(name, 0); ahead != i || seen != 0 {
			t.Errorf("%s: %d before it, and %d are free", name, ahead, seen)
		}
	}
	if !q.isShort(now, ttl) {
		t.Error("nobody waits")
	}
	for _, one := range []struct {
		name        string
		ahead, seen int
	}{{"d", 3, 0}, {"b", 0, 2}, {"c", 2, 0}, {"a", 0, 2}, {"e", 4, 0}} {
		if ahead, seen := asks(one.name, 2); ahead != one.ahead || seen != one.seen {
			t.Errorf("two are free: %s has %d before it, and sees %d", one.name, ahead, seen)
		}
	}
	q.leave("a")
	if ahead, seen := asks("c", 2); ahead != 0 || seen != 2 {
		t.Errorf("once the first one has a number: %d, %d", ahead, seen)
	}
	now = now.Add(ttl/2 + 1)
	if q.isShort(now, ttl) {
		t.Error("nobody asked for long")
	}
	if ahead, seen := asks("e", 1); ahead != 0 || seen != 1 || len(q.all) != 1 {
		t.Errorf("those that ask no more are gone: %d, %d, %v", ahead, seen, q.all)
	}
}

// A number that the first ones do not claim is shown to all after a while. Once one is claimed, the order holds again.
func TestUnclaimedNumbers(t *testing.T) {
	now, ttl := time.Unix(1000, 0), 20*time.Second
	var q numberQueue
	sees := func(name string, free int) bool {
		states := make([]int, 64)
		for i := 0; i < free; i++ {
			states[i] = 1
		}
		q.ask(name, "", states, newShares(), now, ttl)
		return states[0] != 0
	}
	for _, step := range []struct {
		after     time.Duration
		free      int
		isClaimed bool
		name      string
		sees      bool
	}{
		{0, 1, false, "first", true}, {0, 1, false, "second", false}, {mostUnclaimed, 1, false, "second", false},
		{1, 1, false, "second", true}, {0, 1, false, "third", true}, {0, 0, false, "first", false}, {0, 1, false, "second", false},
		{mostUnclaimed + 1, 1, true, "second", false}, {mostUnclaimed + 1, 1, false, "second", true},
	} {
		if now = now.Add(step.after); step.isClaimed {
			q.unclaimed = time.Time{}
		}
		if got := sees(step.name, step.free); got != step.sees {
			t.Errorf("%+v: it sees one, %v", step, got)
		}
	}
}

// A claim that is accepted lets the order hold again. A claim that a stranger takes back frees nothing.
func TestClaimsAndTheOrder(t *testing.T) {
	d, _ := alone(t, 10)
	d.shard(0).queue().unclaimed = time.Now().Add(-time.Hour)
	if d.repliesTo("jobs", 1, ". claim 1 1 100\n"); !d.shard(0).queue().unclaimed.IsZero() {
		t.Error("who comes later sees numbers still")
	}
	c := newTide(t, 2*time.Second)
	if c.drop(3, "b", 1) || !c.drop(3, "a", 1) || c.drop(3, "a", 1) {
		t.Error("not only a session takes its own claim back")
	}
}

// A flood of sessions that want a number takes no more room than for a few thousand.
func TestQueueIsBounded(t *testing.T) {
	var q numberQueue
	for i := 0; i < mostQueued+10; i++ {
		q.ask(fmt.Sprint(i), "", make([]int, 64), newShares(), time.Unix(1000, 0), time.Hour)
	}
	if len(q.all) != mostQueued {
		t.Errorf("%d wait", len(q.all))
	}
	states := make([]int, 64)
	states[7] = 1
	if ahead := q.ask("another", "", states, newShares(), time.Unix(1000, 0), time.Hour); states[7] != 0 || ahead != mostQueued-1 {
		t.Errorf("who has the last place sees a free number before the %d that wait", ahead)
	}
	states[7] = 1
	if q.ask("neighbour", "cold", states, newShares(), time.Unix(1000, 0), time.Hour); states[7] != 0 || len(q.all) != mostQueued ||
		q.all[1].lock != "cold" {
		t.Errorf("%d wait, and of another lock nobody does: %+v", len(q.all), q.all[:3])
	}
}

// Numbers that the first ones do not claim are shown to all, but no more than a lock may have.
func TestUnclaimedNumbersWithinTheBound(t *testing.T) {
	for used := 50; used <= 58; used++ {
		var q numberQueue
		now := time.Unix(1000, 0)
		ahead := 0
		sees := func(name, lock string) int {
			states, taken := make([]int, 64), newShares()
			for i := range states {
				if states[i] = 1; i < used {
					states[i] = 0
					taken.add("jobs", "hot")
				}
			}
			ahead = q.ask(name, lock, states, taken, now, time.Hour)
			return freeOf(states)
		}
		most := 56 - used
		if most < 0 {
			most = 0
		}
		for i := 0; i < 20; i++ {
			want := 64 - used
			if i >= most {
				want = 0
			}
			if seen := sees(fmt.Sprint(i), "hot"); seen != want {
				t.Errorf("session %d of a lock with %d numbers sees %d", i, used, seen)
			}
		}
		now = now.Add(mostUnclaimed + 1)
		for i := most; i < 20; i++ {
			if seen := sees(fmt.Sprint(i), "hot"); seen != most {
				t.Errorf("nobody claims one for long: session %d of a lock with %d numbers sees %d", i, used, seen)
			}
		}
		if seen := sees("neighbour", "cold"); seen != 64-used || most == 0 && !q.unclaimed.Equal(now) {
			t.Errorf("a neighbour sees %d, and they are shown to nobody since %v", seen, q.unclaimed)
		}
		now = now.Add(mostUnclaimed + 1)
		if seen := sees("19", "hot"); seen != most || (ahead > 0) != (most == 0) {
			t.Errorf("the neighbour claims none: one of a lock with %d numbers sees %d, and hears of %d before it", used, seen, ahead)
		}
	}
}

// Locks take turns: of twenty sessions of one lock one gets a number, and then one of each other lock, and so on. Those that come later come
// in turn, too, and locks whose sessions come again and again do not hold the others up.
func TestLocksTakeTurns(t *testing.T) {
	var q numberQueue
	next := func() string {
		states := make([]int, 64)
		states[0] = 1
		for _, one := range append([]queued(nil), q.all...) {
			all := append([]int(nil), states...)
			if q.ask(one.session, one.lock, all, newShares(), time.Unix(1000, 0), time.Hour); freeOf(all) > 0 {
				q.leave(one.session)
				return one.session
			}
		}
		return ""
	}
	comes := func(sessions ...string) {
		for _, session := range sessions {
			q.ask(session, strings.TrimRight(session, "0123456789"), make([]int, 64), newShares(), time.Unix(1000, 0), time.Hour)
		}
	}
	comes("hot1", "hot2", "hot3", "hot4", "hot5", "hot6", "cold1", "cold2", "warm1", "1", "2")
	for i, want := range []string{"hot1", "cold1", "warm1", "1", "hot2", "cold2", "", "2", "hot3", "late1", "hot4", "late2", "hot5", "hot6", ""} {
		if i == 6 {
			comes("late1", "late2")
			continue
		}
		if got := next(); got != want {
			t.Errorf("%d: %q gets a number, and not %q", i, got, want)
		}
	}
	comes("hot1", "hot2", "hot3", "hot4", "hot5", "hot6", "a1", "b1")
	order := ""
	for i := 0; i < 18; i++ {
		got := next()
		if order += got + " "; got == "a1" || got == "b1" {
			comes(got)
		}
	}
	if order != "hot1 a1 b1 hot2 a1 b1 hot3 a1 b1 hot4 a1 b1 hot5 a1 b1 hot6 a1 b1 " {
		t.Error(order)
	}
}

// Who claimed a number, and did not use it yet, needs no other one: the next one sees that.
func TestWhoClaimedNeedsNoOther(t *testing.T) {
	var q numberQueue
	sees := func(name string, taken shares) bool {
		states := make([]int, 64)
		states[9] = 1
		q.ask(name, "hot", states, taken, time.Unix(1000, 0), time.Hour)
		return freeOf(states) > 0
	}
	claimed := newShares()
	claimed.claims["first"] = true
	if !sees("first", newShares()) || sees("second", newShares()) || !sees("second", claimed) || !sees("first", newShares()) {
		t.Error("the number that is left is nobody's")
	}
}

// crowd is a queue for the numbers of a shard, and the shares of those that are taken.
type crowd struct {
	numberQueue
	taken map[[2]string]int // by user and lock
	free  int
}

// asks lets a session of a user want a number for a lock, and returns whether it sees the numbers that are free, and how many come before
// it.
func (c *crowd) asks(user, name, lock string) (sees bool, ahead int) {
	taken, states := newShares(), make([]int, 64)
	for of, count := range c.taken {
		for i := 0; i < count; i++ {
			taken.add(of[0], of[1])
		}
	}
	for i := 0; i < c.free; i++ {
		states[i] = 1
	}
	ahead = c.ask(user+"."+name, lock, states, taken, time.Unix(1000, 0), time.Hour)
	return freeOf(states) > 0, ahead
}

// see fails the test unless these sessions see numbers that are free, of all that wait.
func (c *crowd) see(t *testing.T, what string, want ...string) {
	t.Helper()
	got := []string{}
	for _, one := range append([]queued(nil), c.all...) {
		if sees, _ := c.asks(one.user, nameOf(one.session), one.lock); sees {
			got = append(got, one.session)
		}
	}
	if fmt.Sprint(got) != fmt.Sprint(want) {
		t.Errorf("%s: %v see numbers, and not %v", what, got, want)
	}
}

// A user with 47 numbers gets one more before another one that came later, and a user with 48 does not. A lock with 55 numbers gets one more,
// and one with 56 does not, whoever else waits.
func TestSharesAreExact(t *testing.T) {
	for taken := 40; taken <= 63; taken++ {
		users := crowd{taken: map[[2]string]int{{"big", "x"}: taken / 2, {"big", "y"}: taken - taken/2}}
		users.asks("big", "1", "x")
		users.asks("small", "1", "x")
		locks := crowd{taken: map[[2]string]int{{"jobs", "hot"}: taken}}
		locks.asks("jobs", "1", "hot")
		for _, free := range []int{1, 64 - taken} {
			users.free, locks.free = free, free
			switch {
			case taken >= 48:
				users.see(t, fmt.Sprint("a user with ", taken, ", and free ", free), "small.1")
			case free == 1:
				users.see(t, fmt.Sprint("a user with ", taken, ", and one free"), "big.1")
			}
			if taken >= 56 {
				locks.see(t, fmt.Sprint("a lock with ", taken, ", and free ", free))
			} else {
				locks.see(t, fmt.Sprint("a lock with ", taken, ", and free ", free), "jobs.1")
			}
		}
		locks.asks("jobs", "2", "cold")
		locks.free = 1
		if taken >= 56 {
			locks.see(t, fmt.Sprint("a lock with ", taken, ", and another waits"), "jobs.2")
		} else {
			locks.see(t, fmt.Sprint("a lock with ", taken, ", and another waits"), "jobs.1")
		}
	}
}

// Sixty sessions of one user wait for numbers, for one lock, and one of another user, or for another lock, comes late. It comes first.
func TestLateOneOfAnotherShare(t *testing.T) {
	for _, late := range []struct{ user, lock string }{{"small", "hot"}, {"big", "cold"}} {
		c := crowd{taken: map[[2]string]int{{"big", "hot"}: 56, {"big", "warm"}: 8}}
		for i := 0; i < 60; i++ {
			c.asks("big", fmt.Sprint(i), "hot")
		}
		if sees, ahead := c.asks(late.user, "late", late.lock); sees || ahead != 0 {
			t.Errorf("%v: no number is free, and %d come before the late one: it sees one, %v", late, ahead, sees)
		}
		given := [2]string{"big", "hot"}
		if late.lock == "cold" {
			given = [2]string{"big", "warm"}
		}
		c.taken[given]--
		c.free = 1
		c.see(t, fmt.Sprint(late), late.user+".late")
		if _, ahead := c.asks("big", "7", "hot"); ahead != 8 {
			t.Errorf("%v: %d come before the eighth of the others", late, ahead)
		}
		if c.leave(late.user + ".late"); late.lock == "cold" {
			c.see(t, "the lock has all that it may have")
			continue
		}
		c.see(t, "once the late one has its number", "big.0")
	}
}

// Those that come before count, too: of twenty sessions of a user with forty numbers eight see one while another user waits, and all do
// where nobody else waits. Of a lock with 48 numbers eight do, whoever waits.
func TestSharesOfThoseThatComeFirst(t *testing.T) {
	for _, one := range []struct {
		taken      map[[2]string]int
		user, lock string // of who comes late
	}{{map[[2]string]int{{"big", "hot"}: 20, {"big", "warm"}: 20}, "small", "hot"}, {map[[2]string]int{{"big", "hot"}: 48}, "big", "cold"}} {
		first, all := []string{}, []string{}
		c := crowd{taken: one.taken, free: 16}
		for i := 0; i < 12; i++ {
			name := fmt.Sprintf("big.%d", i)
			if all = append(all, name); i < 8 {
				first = append(first, name)
			}
			c.asks("big", fmt.Sprint(i), "hot")
		}
		late := one.user + ".late"
		if one.lock == "cold" {
			c.see(t, "nobody else waits", first...)
			c.asks(one.user, "late", one.lock)
			c.see(t, fmt.Sprint(one, " waits"), append([]string{first[0], late}, first[1:]...)...)
		} else {
			c.see(t, "nobody else waits", all...)
			c.asks(one.user, "late", one.lock)
			c.see(t, fmt.Sprint(one, " waits"), append(first, late)...)
		}
		if sees, ahead := c.asks("big", "9", "hot"); sees || ahead != 10 {
			t.Errorf("%v: %d come before the tenth, which sees a number: %v", one, ahead, sees)
		}
	}
}

// A lock that has all that it may have gets no more until it has fewer. A user is over its bound for as long only as others may have
// numbers that want some.
func TestSharesStopNobody(t *testing.T) {
	c := crowd{taken: map[[2]string]int{{"big", "hot"}: 60}, free: 4}
	for i, one := range [][2]string{{"big", "hot"}, {"small", "hot"}, {"big", "cold"}} {
		c.asks(one[0], fmt.Sprint(i), one[1])
	}
	c.see(t, "who wants another lock", "big.2")
	if _, ahead := c.asks("big", "0", "hot"); ahead != 2 {
		t.Errorf("%d come before who is over both bounds", ahead)
	}
	c.taken = map[[2]string]int{{"big", "hot"}: 55, {"big", "cold"}: 8}
	c.free = 1
	c.see(t, "one is free", "small.1")
	c.asks("small", "3", "cold")
	c.see(t, "who came first", "small.1")
	c.leave("small.1")
	c.see(t, "of the other user", "small.3")
	c.leave("small.3")
	c.see(t, "nobody of another user waits", "big.0")
	alone := crowd{taken: map[[2]string]int{{"big", "hot"}: 31, {"big", "cold"}: 31}, free: 2}
	alone.asks("big", "0", "hot")
	alone.asks("big", "1", "hot")
	alone.see(t, "nobody else waits", "big.0", "big.1")
	alone.asks("small", "2", "")
	alone.see(t, "another user waits", "small.2")
	alone.asks("big", "3", "")
	if alone.leave("small.2"); !alone.leave("big.0") || alone.leave("big.0") {
		t.Error("who waits does not leave, or does twice")
	}
	alone.free = 1
	alone.taken = map[[2]string]int{{"big", "hot"}: 58}
	alone.see(t, "no bound holds of a lock that is not named", "big.3")
	alone.free = 2
	alone.see(t, "nor does one of others where it is not named", "big.3")
	unnamed := crowd{taken: map[[2]string]int{{"big", ""}: 60}, free: 1}
	unnamed.asks("big", "0", "")
	unnamed.see(t, "who names no lock has no bound", "big.0")
	unnamed.asks("small", "1", "cold")
	unnamed.see(t, "one of another user comes first", "small.1")
}

// Of any queue somebody sees the numbers that are free, unless all want the lock that has 56. No lock goes above 56, and a user goes above 48
// only if nobody of another one waits that may have a number.
func TestSharesOfAnyQueue(t *testing.T) {
	random := rand.New(rand.NewSource(1))
	users, locks := []string{"a", "b", "c"}, []string{"", "x", "y", "z"}
	most := func(names []string) string { // most are the last one
		if random.Intn(10) > 0 {
			return names[len(names)-1]
		}
		return names[random.Intn(len(names))]
	}
	bound := 0
	for run := 0; run < 5000; run++ {
		c := crowd{taken: map[[2]string]int{}, free: 1 + random.Intn(20)}
		for i := 0; i < 64-c.free; i++ {
			c.taken[[2]string{most(users), most(locks)}]++
		}
		for i := 1 + random.Intn(12); i > 0; i-- {
			c.asks(users[random.Intn(3)], fmt.Sprint(i), locks[random.Intn(4)])
		}
		before, after := newShares(), newShares()
		for of, count := range c.taken {
			for ; count > 0; count-- {
				before.add(of[0], of[1])
				after.add(of[0], of[1])
			}
		}
		seen, user := 0, ""
		for _, one := range c.all {
			if !one.isFirst {
				continue
			}
			seen++
			if after.add(one.user, one.lock); after.users.counts[one.user] > mostOfUser {
				user = one.user
			}
			if n := after.locks.counts[one.lock]; one.lock != "" && n > mostOfLock {
				t.Fatalf("%s goes to %d: %v, %d free, %+v", one.lock, n, c.taken, c.free, c.all)
			}
		}
		isStopped := true
		for _, one := range c.all {
			isStopped = isStopped && before.locks.isFull(one.lock)
			if user != "" && one.user != user && !one.isFirst && !after.locks.isFull(one.lock) {
				t.Fatalf("%s goes above its share: %v, %d free, %+v", user, c.taken, c.free, c.all)
			}
		}
		if isStopped {
			bound++
		}
		if seen > c.free || seen == 0 != isStopped {
			t.Fatalf("%d see the %d numbers that are free: %v, %+v", seen, c.free, c.taken, c.all)
		}
	}
	if bound == 0 {
		t.Error("no lock was at its bound")
	}
}
