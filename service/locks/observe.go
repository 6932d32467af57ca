package locks

// How a client watches a lock.
//
// It asks all voters who has the lock, and says that it watches (`watch`). For a TTL each voter says at once when its vote goes to another
// session, or the note of who has it changes (`holder`). A holder is shown by the last words of all voters, as Who does: who has the votes of
// a quorum, or nobody if a quorum says so. What else they say is a doubt, as between two holders. If that lasts the voters are asked again.
//
// Each half TTL they are asked again in any case: a word may be lost, a voter may have started again, or its program may be older. Who
// watches more locks than voters keep for a session asks twice a second for those that are too many.

import (
	"context"
	"fmt"
	"time"

	"calvundek.example/service/internal/wire"
)

const (
	mostWatched = 64                     // locks of which voters say each change: they keep no more of a session
	watchEvery  = 500 * time.Millisecond // from one question to the next, of a lock of which voters do not say each change, or that is in doubt
)

// observer is a call of Watch.
type observer struct {
	lock     string
	place    int // among those of which voters say each change, from 1 on, 0 if it is none
	found    chan Holder
	shown    *Holder           // the last one, nil before the first
	said     map[int]wire.Told // the last word of each voter
	question *question         // that voters did not answer yet, nil if there is none
	asked    time.Time         // when the last question began
	doubted  time.Time         // since when voters leave a doubt, zero if they leave none
}

// Watch returns a channel with who has a lock, at first and after each change, until the context ends or the client is closed: then it
// closes the channel. The channel has the newest Holder only: who reads late gets no older one. A zero Holder says that nobody has
// the lock.
//
// Voters say each change at once. A holder who has the lock for a moment may be missed all the same, and so may a moment in which nobody has
// it. What is lost on its way is made up for within half a TTL, and so is each change that voters of older programs do not say. While
// no quorum of voters replies it says nothing. A note may come a moment after its holder. Changes of Since and Waiting alone are none: ask
// Who.
func (c *Client) Watch(ctx context.Context, lock string) (<-chan Holder, error) {
	if !wire.IsName([]byte(lock)) {
		return nil, fmt.Errorf("%w: %q", ErrName, lock)
	}
	o := &observer{lock: lock, found: make(chan Holder, 1), said: map[int]wire.Told{}}
	if err := c.call(func() error { c.observers[o] = struct{}{}; return nil }); err != nil {
		return nil, err
	}
	go c.watches(ctx, o)
	return o.found, nil
}

// watches waits until nobody watches a lock any more.
func (c *Client) watches(ctx context.Context, o *observer) {
	select {
	case <-ctx.Done():
	case <-c.ended:
	}
	if c.call(func() error { c.forgetObserver(o); return nil }) != nil {
		<-c.stopped // the loop shows nothing any more
	}
	close(o.found)
}

// forgetObserver ends a watch. Another one may have its place: so voters forget this one.
func (c *Client) forgetObserver(o *observer) {
	delete(c.observers, o)
	if o.place > 0 {
		c.places[o.place-1] = nil
	}
	if o.question != nil {
		delete(c.questions, o.question.ID)
	}
}

// observe asks who has the locks that are watched, if it is time for that.
func (c *Client) observe(now time.Time) {
	for o := range c.observers {
		if o.question != nil || now.Sub(o.asked) < c.untilAsked(o, now) {
			continue
		}
		c.findPlace(o)
		c.newest++
		o.asked, o.question = now, newQuestion(wire.AskWho, o.lock)
		o.question.ID, o.question.observer = c.newest, o
		c.questions[c.newest] = o.question
	}
}

// untilAsked returns how long it is from one question of a lock that is watched to the next.
func (c *Client) untilAsked(o *observer, now time.Time) time.Duration {
	isInDoubt := !o.doubted.IsZero() && now.Sub(o.doubted) > aMoment
	if o.place == 0 || isInDoubt || o.shown != nil && o.shown.Asked {
		return watchEvery
	}
	return c.cluster.TTL.Duration / 2
}

// findPlace gives a watch a place among those of which voters say each change, if one is free.
func (c *Client) findPlace(o *observer) {
	if c.places == nil {
		c.places = make([]*observer, mostWatched)
	}
	for i := 0; i < len(c.places) && o.place == 0; i++ {
		if c.places[i] == nil {
			c.places[i], o.place = o, i+1
		}
	}
}

// hearChange takes what a voter says by itself of a lock that is watched.
func (c *Client) hearChange(voter int, told wire.Told) {
	if told.ID == 0 || told.ID > uint64(len(c.places)) {
		return
	}
	if o := c.places[told.ID-1]; o != nil && o.lock == told.Lock {
		c.hearsOf(o, voter, told)
	}
}

// hearsOf notes the last word of a voter on a lock that is watched, and shows who has it, if voters leave no doubt.
func (c *Client) hearsOf(o *observer, voter int, told wire.Told) {
	o.said[voter] = told
	if q := o.question; q != nil && q.of(voter).done {
		q.said[o.lock][voter] = told // it is newer than its reply
	}
	if o.shown == nil {
		return // a quorum has to reply first
	}
	now := time.Now()
	switch holder := c.holderBy(o.said, now); {
	case !holder.IsNobody() && !holder.Asked, holder.IsNobody() && c.hasQuorum(votersOf(o.said)):
		o.shows(holder)
	case o.doubted.IsZero():
		o.doubted = now
	}
}

// votersOf returns the voters of which there is a word.
func votersOf(said map[int]wire.Told) (mask uint64) {
	for voter := range said {
		mask |= 1 << voter
	}
	return mask
}

// hearAnswer shows what a quorum of voters replied. What others said before counts no more.
func (o *observer) hearAnswer(q *question) {
	o.question = nil
	if o.said = q.said[o.lock]; o.said == nil {
		o.said = map[int]wire.Told{}
	}
	o.shows(q.holders[o.lock])
}

// shows shows who has a lock, unless it is who was shown last.
func (o *observer) shows(holder Holder) {
	o.doubted = time.Time{}
	if o.shown != nil && o.shown.IsSame(holder) {
		return
	}
	o.shown = &holder
	select {
	case <-o.found: // nobody read it
	default:
	}
	o.found <- holder
}
