// Package remind says when to send a reminder: after First, then after twice as long each time, at most after Most. No
// message puts a reminder off.
package remind

import (
	"time"

	"calvundek.example/service/internal/moment"
)

// Next is when the next reminder is due: a timer without what many of them share. The zero Next has not begun.
type Next struct {
	wait time.Duration
	due  moment.Moment
}

// Begin begins anew: the first reminder is due after a while.
func (n *Next) Begin(first time.Duration, now time.Time) {
	n.wait, n.due = first, moment.Of(now.Add(first))
}

// Sooner makes reminders fast again, since there is more to remind of. It never puts the next one off.
func (n *Next) Sooner(first time.Duration, now time.Time) {
	n.wait = first
	if due := moment.Of(now.Add(first)); due < n.due {
		n.due = due
	}
}

// IsDue returns whether it is time for a reminder. If so, the next one is twice as far away, but not further than this.
func (n *Next) IsDue(most time.Duration, now time.Time) bool {
	if moment.Of(now) < n.due {
		return false
	}
	if n.wait *= 2; n.wait > most {
		n.wait = most
	}
	n.due = moment.Of(now.Add(n.wait))
	return true
}

// Timer is the timer of one automaton.
type Timer struct {
	First, Most time.Duration
	of          uint64
	next        Next
}

// Of notes what there is to remind of, 0 for nothing. If it is another thing than before, the timer begins anew.
func (t *Timer) Of(what uint64, now time.Time) {
	if what != t.of {
		t.of = what
		t.next.Begin(t.First, now)
	}
}

// Sooner makes the timer fast again, since there is more to remind of. It never puts the next reminder off.
func (t *Timer) Sooner(now time.Time) { t.next.Sooner(t.First, now) }

// Due returns when the next reminder is due, the zero time if there is nothing to remind of.
func (t *Timer) Due() time.Time {
	if t.of == 0 {
		return time.Time{}
	}
	return t.next.due.Time()
}

// IsDue returns whether it is time for a reminder. If so, the next one is twice as far away.
func (t *Timer) IsDue(now time.Time) bool { return t.of > 0 && t.next.IsDue(t.Most, now) }
