package locks

import (
	"bytes"
	"context"
	"errors"
	"fmt"
	"sort"
	"sync/atomic"
	"testing"
	"time"

	"calvundek.example/service/internal/wire"
	"calvundek.example/service/internal/worlds"
)

// watching lets a client watch a lock, and returns what waits until it shows a holder of which something is true.
func watching(t *testing.T, c *Client, lock string) (until func(what string, isIt func(Holder) bool)) {
	t.Helper()
	ctx, cancel := context.WithCancel(context.Background())
	t.Cleanup(cancel)
	seen, err := c.Watch(ctx, lock)
	if err != nil {
		t.Fatal(err)
	}
	return func(what string, isIt func(Holder) bool) {
		t.Helper()
		for end := time.After(20 * time.Second); ; {
			select {
			case h := <-seen:
				if isIt(h) {
					return
				}
			case <-end:
				t.Fatalf("%s is not seen", what)
			}
		}
	}
}

// hasIt returns whether a holder has the lock for sure.
func hasIt(h Holder) bool { return !h.IsNobody() && !h.Asked }

// Each change is seen within the time of a message: voters say it, and are not asked. Twice a second it would be seen after 250 ms.
func TestChangesAreSeenAtOnce(t *testing.T) {
	w := worlds.New(t, worlds.Majority, 20*time.Second)
	c, third := startWith(t, w, Config{NoNote: true}), looker(t, w)
	until := watching(t, third, "x")
	until("nobody", Holder.IsNobody)
	var questions atomic.Int64
	w.Bus.Watch(func(_ string, message []byte) { questions.Add(int64(bytes.Count(message, []byte(". who ")))) })
	var delays []time.Duration
	for i := 0; i < 10; i++ {
		began := time.Now()
		held := take(t, c, "x")
		until("who has it", hasIt)
		delays, began = append(delays, time.Since(began)), time.Now()
		if err := held.Unlock(); err != nil {
			t.Fatal(err)
		}
		until("that it is free", Holder.IsNobody)
		delays = append(delays, time.Since(began))
	}
	w.Bus.Watch(nil)
	sort.Slice(delays, func(i, j int) bool { return delays[i] < delays[j] })
	t.Logf("half of the changes are seen within %v, all within %v, with %d questions", delays[len(delays)/2], delays[len(delays)-1], questions.Load())
	if half := delays[len(delays)/2]; half > 100*time.Millisecond {
		t.Errorf("half of the changes are seen after %v", half)
	}
	if questions.Load() > int64(len(delays)) {
		t.Errorf("%d questions for %d changes", questions.Load(), len(delays))
	}
}

// Voters of older programs say no change, and voters that started forgot who watches: each half TTL all are asked.
func TestVotersThatSayNoChange(t *testing.T) {
	w := worlds.New(t, worlds.Majority, 2*time.Second)
	c, third := startWith(t, w, Config{NoNote: true}), looker(t, w)
	w.Bus.Without("watch")
	until := watching(t, third, "x")
	until("nobody", Holder.IsNobody)
	held := take(t, c, "x")
	until("who has it", hasIt)
	w.Bus.Without()
	if err := held.Unlock(); err != nil {
		t.Fatal(err)
	}
	until("that it is free", Holder.IsNobody)
	for i := range w.Owns {
		w.Stop(i)
		w.Start(i)
		w.Ready()
	}
	take(t, c, "x")
	until("who has it after a start", hasIt)
}

// A watch ends with its context, and with its client. Nothing is asked for it then.
func TestWatchEnds(t *testing.T) {
	w := worlds.New(t, worlds.Majority, 20*time.Second)
	third := looker(t, w)
	ctx, cancel := context.WithCancel(context.Background())
	defer cancel()
	first, err := third.Watch(ctx, "x")
	if err != nil {
		t.Fatal(err)
	}
	second, err := third.Watch(context.Background(), "x")
	if err != nil {
		t.Fatal(err)
	}
	ends := func(what string, seen <-chan Holder) {
		t.Helper()
		for end := time.After(15 * time.Second); ; {
			select {
			case _, isOpen := <-seen:
				if !isOpen {
					return
				}
			case <-end:
				t.Fatalf("it stays open with %s", what)
			}
		}
	}
	cancel()
	ends("its context", first)
	err = third.call(func() error {
		if len(third.observers) != 1 || len(third.questions) > 1 {
			t.Errorf("%d watches, %d questions", len(third.observers), len(third.questions))
		}
		return nil
	})
	if err != nil {
		t.Error(err)
	}
	if err := third.Close(within(t, 5*time.Second)); err != nil {
		t.Error(err)
	}
	ends("its client", second)
	if _, err := third.Watch(context.Background(), "x"); !errors.Is(err, ErrClosed) {
		t.Error(err)
	}
}

// observes lets a client watch a lock, and voters reply that nobody has it.
func (c *table) observes(t *testing.T, lock string) *observer {
	t.Helper()
	o := &observer{lock: lock, found: make(chan Holder, 1), said: map[int]wire.Told{}}
	c.observers[o] = struct{}{}
	c.flush()
	c.reply(o, "")
	if h := <-o.found; !h.IsNobody() {
		t.Fatalf("%+v", h)
	}
	return o
}

// reply lets all voters reply to the question of a watch.
func (c *table) reply(o *observer, rest string) {
	for voter := range c.peers {
		c.says(voter, fmt.Sprintf(". has %d %s 0%s\n", o.question.ID, o.lock, rest))
	}
	c.flush()
}

// A change is shown once voters of a quorum say it, and not as one of them does, whatever that one says. A doubt that lasts is asked for.
func TestNoVoterAloneShowsAChange(t *testing.T) {
	c := alone(t)
	o := c.observes(t, "x")
	for i, one := range []struct {
		voter int
		line  string
		want  string
	}{
		{0, "1 x 0 5 7 0 -", ""},
		{1, "1 y 0 5 7 0 -", ""},
		{1, "2 x 0 5 7 0 -", ""},
		{1, "0 x 0 5 7 0 -", ""},
		{1, "65 x 0 5 7 0 -", ""},
		{1, "1 x 0 5 7 0 -", "client 5"},
		{2, "1 x 0 9 4611686018427387904 0 -", ""},
		{2, "1 x 0", ""},
		{1, "1 x 32 5 7 0 -", ""},
		{1, "1 x 0 6 9 0 -", ""},
		{0, "1 x 0 6 9 0 -", "client 6"},
		{0, "1 x 0", ""},
		{1, "1 x 0", "nobody"},
	} {
		c.says(one.voter, ". holder "+one.line+"\n")
		shown := ""
		select {
		case h := <-o.found:
			h.Since = time.Time{}
			shown = h.String()
		default:
		}
		if shown != one.want {
			t.Errorf("%d: %q is shown", i, shown)
		}
	}
	now := time.Now()
	if c.observe(now.Add(2 * watchEvery)); o.question != nil {
		t.Error("voters are asked though there is no doubt")
	}
	c.says(0, ". holder 1 x 0 5 11 0 -\n")
	if c.observe(time.Now().Add(aMoment / 2)); o.question != nil {
		t.Error("voters are asked at once")
	}
	if c.observe(time.Now().Add(2 * watchEvery)); o.question == nil {
		t.Fatal("voters are not asked though there is a doubt")
	}
	c.flush()
	if c.reply(o, " 5 11 0 -"); (<-o.found).Number != 5 || o.question != nil {
		t.Error("the answer is not shown")
	}
	if c.observe(time.Now().Add(c.cluster.TTL.Duration)); o.question == nil {
		t.Error("voters do not hear again that it is watched")
	}
}

// What a voter says by itself while it is asked is newer than its reply, and what it replies to anybody is heard by who watches.
func TestNewestWordCounts(t *testing.T) {
	c := alone(t)
	o := c.observes(t, "x")
	c.observe(time.Now().Add(c.cluster.TTL.Duration))
	for voter := 0; voter < 2; voter++ {
		c.says(voter, fmt.Sprintf(". has %d x 0\n. holder 1 x 0 5 7 0 -\n", o.question.ID))
	}
	c.says(2, fmt.Sprintf(". has %d x 0\n", o.question.ID))
	if c.flush(); (<-o.found).Number != 5 || len(o.found) > 0 || o.question != nil {
		t.Error("an older word is shown")
	}
	other := newQuestion(wire.AskWho, "x")
	c.newest++
	other.ID = c.newest
	c.questions[other.ID] = other
	for voter := 0; voter < 2; voter++ {
		c.says(voter, fmt.Sprintf(". has %d x 0 6 9 0 -\n", other.ID))
	}
	if len(o.found) != 1 || (<-o.found).Number != 6 {
		t.Error("a reply to another question is not heard")
	}
}

// A session watches so many locks by what voters say, as they keep no more of it. The others it asks for twice a second, until one of these ends.
func TestManyWatched(t *testing.T) {
	c := alone(t)
	var all []*observer
	for i := 0; i <= mostWatched; i++ {
		all = append(all, c.observes(t, fmt.Sprint("x-", i)))
	}
	last := all[mostWatched]
	if last.place != 0 || all[mostWatched-1].place != mostWatched {
		t.Fatalf("places %d and %d", all[mostWatched-1].place, last.place)
	}
	c.lines(0, "")
	c.observe(time.Now().Add(2 * watchEvery))
	if c.flush(); last.question == nil || all[0].question != nil || c.lines(0, ". watch") != 0 {
		t.Error("not the one is asked for that has no place")
	}
	c.reply(last, "")
	c.forgetObserver(all[7])
	c.observe(time.Now().Add(4 * watchEvery))
	if said := c.lines(0, ". watch 8 "+last.lock); last.place != 8 || said != 1 {
		t.Errorf("place %d, said %d times", last.place, said)
	}
}
