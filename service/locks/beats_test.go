package locks

import (
	"bytes"
	"fmt"
	"strings"
	"sync/atomic"
	"testing"
	"time"

	"calvundek.example/service/internal/wire"
	"calvundek.example/service/internal/worlds"
)

// onRoll returns a session that is at place 5 of the roll of its process at all voters. They acknowledged its last heartbeat.
func onRoll(t *testing.T) *table {
	t.Helper()
	c, _ := inBundles(t)
	c.box.place = 5
	c.heartbeat(time.Now())
	c.flush()
	for v := range c.peers {
		c.bundles.to[v].waits = true // no timer ends it, however slow the machine is
		c.says(v, fmt.Sprintf(". noted\n. opened 3 5 0 4096 %d 0\n. rolled 5 %d\n", c.header.Seq, 70+v))
	}
	return c
}

// isDueNow sends the heartbeat that is due, and returns which voters get one of the session's own.
func (c *table) isDueNow() (own []int) {
	c.mayWait = true
	c.show(time.Now())
	for v := range c.peers {
		if bytes.Contains(c.out[v], []byte(". open ")) {
			own = append(own, v)
		}
	}
	return own
}

// beatsLeave lets the beats leave, and returns the lines of that to a voter.
func (c *table) beatsLeave(voter int) string {
	c.flush()
	for v := range c.boxes {
		emptied(c.boxes[v])
		c.bundles.mutex.Lock()
		c.bundles.leave(&c.bundles.to[v])
		c.bundles.unlock()
	}
	if len(c.boxes[voter]) == 0 {
		return ""
	}
	_, lines, _ := wire.Read((<-c.boxes[voter]).Data)
	return string(lines)
}

// hearsBeat lets a voter say something to the process, and the session take what that is to it. It returns whether there was something.
func (c *table) hearsBeat(voter int, lines string) bool {
	s := &shards{boxes: map[string]*mailbox{c.header.Name: c.box}, bundles: c.bundles}
	s.unbundle(c.word(voter, lines))
	isThere := len(c.box.messages) > 0
	c.takesWaiting()
	return isThere
}

// A session that has nothing new to say joins the beat of its process. What a voter says to that acknowledges the heartbeat that was left out,
// once, and the session hears what else is in the message.
func TestBeatAcknowledgesHeartbeats(t *testing.T) {
	c := onRoll(t)
	hear(c.Client, c.ofVoter(1, 0, 1), fmt.Sprintf(". opened 3 5 0 4096 %d 0\n. rolled 5 71\n", c.header.Seq)) // a grant was let go before
	for beat := 1; beat <= 3; beat++ {
		if own := c.isDueNow(); own != nil {
			t.Fatalf("voters %v get heartbeats", own)
		}
		left := c.peers[1].sent[c.header.Seq]
		if lines := c.beatsLeave(1); lines != ". beat 0 32 71\n" {
			t.Fatalf("%q leaves", lines)
		}
		count := 3*beat - 1 // of the one to voter 1
		for _, wrong := range []string{"", fmt.Sprintf(". beaten %d 64\n", count), fmt.Sprintf(". beaten %d 0\n", count+1)} {
			if c.hearsBeat(1, wrong) {
				t.Fatalf("%q is for the session", wrong)
			}
		}
		before := c.renewed
		if c.renewed = 0; !c.hearsBeat(1, fmt.Sprintf(". run 2 7\n. beaten %d 0\n. wanted\n", count)) || c.renewed != 1<<1 {
			t.Fatal("the heartbeat is not acknowledged")
		}
		if c.peers[1].opened.Fourth != c.header.Seq || c.peers[1].opened.Third != 4096 || c.wanted.IsZero() || left == 0 {
			t.Errorf("%+v", c.peers[1].opened)
		}
		if c.hearsBeat(1, fmt.Sprintf(". beaten %d 0\n", count)) {
			t.Error("it is acknowledged twice")
		}
		c.renewed = before
		c.hearsBeat(0, fmt.Sprintf(". beaten %d 0\n", count-1))
		c.hearsBeat(2, fmt.Sprintf(". beaten %d 0\n", count+1))
	}
}

// A session sends a heartbeat of its own to a voter that has to hear something new of it, or may not have it as it was.
func TestWhoJoinsNoBeat(t *testing.T) {
	for name, change := range map[string]func(c *table){
		"the last one was not acknowledged": func(c *table) { c.peers[0].opened.Fourth-- },
		"it has no entry":                   func(c *table) { c.peers[0].entry = 0 },
		"more stamps are to be reserved":    func(c *table) { c.peers[0].opened.Third = c.header.Reserved - 1 },
		"a release was lost":                func(c *table) { c.peers[0].opened.Fifth = 1 },
		"a plan was exchanged since":        func(c *table) { c.peers[0].since = c.generation + 1 },
		"its note is not there":             func(c *table) { c.peers[0].noted = false },
		"a grant of it was let go":          func(c *table) { hear(c.Client, c.ofVoter(0, 0, 1), "") },
		"the voter started":                 func(c *table) { hear(c.Client, c.ofVoter(0, 1, 0), ". opened 3 5 0 4096 1 0\n. bundles\n") },
		"something else leaves":             func(c *table) { c.endWant(0) },
	} {
		c := onRoll(t)
		change(c)
		if own := c.isDueNow(); len(own) != 1 || own[0] != 0 {
			t.Errorf("%s: voters %v get heartbeats", name, own)
		}
	}
	c := onRoll(t)
	if c.heartbeat(time.Now()); bytes.Count(c.out[1], []byte(". open ")) != 1 {
		t.Error("a heartbeat that something needs now waits for a beat")
	}
	c = onRoll(t)
	c.isDueNow()
	c.flush() // no voter replies
	if own := c.isDueNow(); len(own) != 3 || !bytes.Contains(c.out[0], []byte(". roll p 5\n")) {
		t.Errorf("behind a beat that was lost voters %v get heartbeats: %q", own, c.out[0])
	}
	c = onRoll(t)
	other := c.plan
	other.mark = "another"
	c.bundles.to[0].beat = &beat{coterie: other.mark}
	if own := c.isDueNow(); len(own) != 1 {
		t.Errorf("sessions that speak by two plans beat together: %v", own)
	}
}

// A voter that says which beats it refuses, and does not reply to one, is slow, or the beat was lost: the session joins the next one. It beats
// by itself once it hears that the beat was refused, and that of a start that was not heard to say so.
func TestSilenceIsNoRefusal(t *testing.T) {
	refusing := func() *table {
		c := onRoll(t)
		for v := range c.peers {
			c.says(v, ". refuses\n")
		}
		for beat := 0; beat < 3; beat++ {
			if own := c.isDueNow(); own != nil {
				t.Fatalf("behind %d beats without a reply voters %v get heartbeats", beat, own)
			}
			c.beatsLeave(1)
		}
		return c
	}
	c := refusing()
	if !c.hearsBeat(1, ". beaten 8 0\n") || c.peers[1].opened.Fourth != c.header.Seq {
		t.Errorf("the last beat is not acknowledged: %+v", c.peers[1].opened)
	}
	c = refusing()
	for _, count := range []int{5, 8} {
		if !c.hearsBeat(1, fmt.Sprintf(". unbeaten %d 0\n", count)) {
			t.Errorf("the session does not hear that beat %d was refused", count)
		}
	}
	if own := c.isDueNow(); len(own) != 1 || own[0] != 1 || !bytes.Contains(c.out[1], []byte(". roll p 5\n")) {
		t.Errorf("behind a beat that was refused voters %v get heartbeats: %q", own, c.out[1])
	}
	c = refusing()
	hear(c.Client, c.ofVoter(0, 1, 0), ". bundles\n")
	if c.peers[0].refuses {
		t.Error("a voter that started, maybe by an older program, refuses beats")
	}
}

// ofVoter returns the header of a voter's message.
func (c *table) ofVoter(voter int, start, lapses uint64) wire.Header {
	return wire.Header{Cluster: "test", Coterie: c.plan.mark, Kind: wire.FromVoter, Number: voter, Name: fmt.Sprint("identity-", voter),
		Start: start, Lapses: lapses}
}

// A beat says nothing of a session of which a grant was let go since it joined: the reply is of before.
func TestBeatAndLapse(t *testing.T) {
	c := onRoll(t)
	c.isDueNow()
	c.beatsLeave(0)
	hear(c.Client, c.ofVoter(0, 0, 1), ". opened 3 5 0 4096 1 0\n")
	c.renewed = 0
	if c.hearsBeat(0, ". beaten 1 0\n"); c.renewed != 0 || c.peers[0].opened.Fourth != 1 {
		t.Errorf("it is acknowledged: %+v", c.peers[0].opened)
	}
}

// A beat has a line for each share in which some session joined, with the places and the sum of the entries of that share alone.
func TestBeatHasALineForEachShare(t *testing.T) {
	b := beat{coterie: "mark", count: 9}
	for place, entry := range map[int]uint64{0: 1, 33: 20, 63: 300, 64: 7, 130: 5000, wire.MostRoll - 1: 11} {
		b.add(place, entry, joined{session: fmt.Sprint(place)})
	}
	h, lines, err := wire.Read(b.message("test", "p"))
	want := fmt.Sprintf(". beat 0 %d 321\n. beat 64 1 7\n. beat 128 4 5000\n. beat 65472 %d 11\n", uint64(1<<63|1<<33|1), uint64(1)<<63)
	if err != nil || string(lines) != want || h.Seq != 9 || h.Name != "p" || h.Epoch != 0 {
		t.Errorf("%q, %+v, %v", lines, h, err)
	}
	for first, sessions := range map[int]int{0: 3, 64: 1, 128: 1, wire.MostRoll - 64: 1} {
		if got := len(b.shares[first].sessions); got != sessions {
			t.Errorf("%d sessions are at %d and behind", got, first)
		}
	}
}

// The place of a session that is over is another one's, and no two sessions have one.
func TestPlaces(t *testing.T) {
	p, has := places{}, map[int]bool{}
	for i := 0; i < wire.MostRoll; i++ {
		if place := p.take(); place < 0 || place >= wire.MostRoll || has[place] {
			t.Fatal(place)
		} else {
			has[place] = true
		}
	}
	if place := p.take(); place != -1 {
		t.Errorf("there is a place %d too many", place)
	}
	p.giveBack(77)
	p.giveBack(-1)
	if first, second := p.take(), p.take(); first != 77 || second != -1 {
		t.Error(first, second)
	}
}

// whileHolding holds a lock in each of some shards, and returns what is sent in a TTL: the messages, and the heartbeats of single sessions.
func whileHolding(t *testing.T, shards int, ttl time.Duration, disturb func(w *worlds.World)) (messages int, own int64) {
	t.Helper()
	w := newShards(t, shards, ttl)
	c := startWith(t, w, Config{})
	var holds []*Held
	for shard := 0; shard < shards; shard++ {
		holds = append(holds, take(t, c, nameIn(w, shard)))
	}
	disturb(w)
	time.Sleep(2 * ttl)
	var opens, all atomic.Int64
	w.Bus.Watch(func(mailbox string, message []byte) {
		all.Add(1)
		if strings.HasPrefix(mailbox, "qlock.test.v.") {
			opens.Add(int64(bytes.Count(message, []byte("\n. open "))))
		}
	})
	time.Sleep(ttl)
	w.Bus.Watch(func(string, []byte) {})
	for _, held := range holds {
		if err := held.Unlock(); err != nil {
			t.Error(err)
		}
	}
	if stats := c.Stats(); stats.Lost > 0 {
		t.Errorf("%+v", stats)
	}
	return int(all.Load()), opens.Load()
}

// Sessions that only hold locks need one message to a voter, and its reply, for each heartbeat of their process.
func TestOneBeatForAllHolders(t *testing.T) {
	messages, own := whileHolding(t, 32, 2*time.Second, func(*worlds.World) {})
	for i := 0; i < 2 && own > 32; i++ { // the machine may have had much else to do
		messages, own = whileHolding(t, 32, 2*time.Second, func(*worlds.World) {})
	}
	if own > 32 || messages == 0 {
		t.Errorf("%d messages, with %d heartbeats of single sessions", messages, own)
	}
}

// A voter that started knows no process: the sessions send it heartbeats, keep their locks, and beat together again.
func TestBeatsAfterAStart(t *testing.T) {
	if _, own := whileHolding(t, 16, 2*time.Second, func(w *worlds.World) {
		time.Sleep(time.Second)
		w.Stop(0)
		w.Start(0)
	}); own > 80 {
		t.Errorf("%d heartbeats of single sessions", own)
	}
}

// Voters that make no entries get heartbeats, in bundles.
func TestVotersWithoutRolls(t *testing.T) {
	if _, own := whileHolding(t, 4, 2*time.Second, func(w *worlds.World) { w.Bus.Without("roll") }); own < 4*3*2 {
		t.Errorf("%d heartbeats of single sessions", own)
	}
}
