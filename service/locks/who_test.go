package locks

import (
	"context"
	"errors"
	"fmt"
	"os"
	"strings"
	"testing"
	"time"

	"calvundek.example/service/internal/wire"
	"calvundek.example/service/internal/worlds"
)

// startWith opens a client with these settings.
func startWith(t *testing.T, w *worlds.World, config Config) *Client {
	t.Helper()
	config.Transport = w.Bus.Port()
	c, err := open(within(t, 20*time.Second), w.Cluster, config)
	if err != nil {
		t.Fatal(err)
	}
	t.Cleanup(func() { _ = c.call(func() error { c.end(ErrClosed); return nil }) })
	return c
}

// looker returns a client without a number.
func looker(t *testing.T, w *worlds.World) *Client {
	t.Helper()
	c, err := look(w.Cluster, Config{Transport: w.Bus.Port()})
	if err != nil {
		t.Fatal(err)
	}
	t.Cleanup(func() { _ = c.Close(context.Background()) })
	return c
}

// who asks who has a lock, which has to succeed.
func who(t *testing.T, c *Client, lock string) Holder {
	t.Helper()
	h, err := c.Who(within(t, 20*time.Second), lock)
	if err != nil {
		t.Fatal(err)
	}
	return h
}

// A note has three words and a text, of printable ASCII, and is read back.
func TestNotes(t *testing.T) {
	for _, one := range [][5]string{{"m0", "17", "root", "nightly run", "m0 17 root nightly run"}, {"", "", "", "", "- - -"},
		{"a b", "1", "ü", " x\n", "a?b 1 ? x?"},
		{"m0", "1", "r", strings.Repeat("x", 200), "m0 1 r " + strings.Repeat("x", 121)}} {
		note := noteOf(one[0], one[1], one[2], one[3])
		if note != one[4] || !wire.IsNote([]byte(note)) {
			t.Errorf("%q", note)
		}
	}
	var h Holder
	if h.readNote("m0 17 root nightly run"); h.Host != "m0" || h.Pid != 17 || h.Login != "root" || h.Note != "nightly run" {
		t.Errorf("%+v", h)
	}
	h = Holder{}
	if h.readNote("- - - x"); h != (Holder{Note: "x"}) {
		t.Errorf("%+v", h)
	}
	h = Holder{}
	if h.readNote("m0"); h != (Holder{Host: "m0"}) {
		t.Errorf("%+v", h)
	}
}

// Who has a lock is said by its voters: who it is by its own words, since when, and how many wait. It is nobody once it is given back,
// and nobody makes a lock by asking.
func TestWho(t *testing.T) {
	w := worlds.New(t, worlds.Majority, 20*time.Second)
	one, other, third := startWith(t, w, Config{Note: "nightly"}), startWith(t, w, Config{}), looker(t, w)
	if h := who(t, third, "x"); !h.IsNobody() || h.String() != "nobody" {
		t.Errorf("%+v", h)
	}
	began := time.Now()
	held := take(t, one, "x")
	soon(t, "the note is not said", func() bool { return who(t, third, "x").Note == "nightly" })
	for _, c := range []*Client{one, other, third} {
		h := who(t, c, "x")
		host, _ := os.Hostname()
		if h.Number != one.Number() || h.stamp != held.stamp || h.Asked || h.Host != host || h.Pid != os.Getpid() || h.Login == "" || h.User != "" ||
			h.Since.Before(began.Add(-time.Second)) || h.Since.After(time.Now()) {
			t.Errorf("%+v", h)
		}
	}
	ctx, cancel := context.WithCancel(context.Background())
	waits := make(chan error, 1)
	go func() {
		_, err := other.Lock(ctx, "x")
		waits <- err
	}()
	soon(t, "nobody waits", func() bool { return who(t, third, "x").Waiting == 1 })
	cancel()
	<-waits
	if err := held.Unlock(); err != nil {
		t.Fatal(err)
	}
	soon(t, "somebody has it", func() bool { return who(t, third, "x").IsNobody() })
	if _, err := third.Who(within(t, time.Second), "no name"); !errors.Is(err, ErrName) {
		t.Error(err)
	}
}

// Who only looks has no number, and takes no lock. It looks while all voters but a quorum are away, and not with fewer.
func TestLook(t *testing.T) {
	w := worlds.New(t, worlds.Majority, 2*time.Second)
	c := looker(t, w)
	if _, err := c.Lock(within(t, time.Second), "x"); !errors.Is(err, ErrLooks) {
		t.Error(err)
	}
	replies, err := w.Console().Ask(within(t, 5*time.Second), "status", 0)
	if err != nil || !strings.Contains(string(replies[0].Body), `"open":0`) {
		t.Errorf("%v: %s", err, replies[0].Body)
	}
	w.Kill(0)
	if h := who(t, c, "x"); !h.IsNobody() {
		t.Errorf("%+v", h)
	}
	w.Kill(1)
	if _, err := c.Who(within(t, 3*time.Second), "x"); !errors.Is(err, ErrNoQuorum) || !errors.Is(err, context.DeadlineExceeded) {
		t.Error(err)
	}
	if err := c.Close(within(t, time.Second)); err != nil {
		t.Error(err)
	}
	if _, err := c.Who(within(t, time.Second), "x"); !errors.Is(err, ErrClosed) {
		t.Error(err)
	}
}

// A client's note comes again to a voter that started.
func TestNoteComesAgain(t *testing.T) {
	w := worlds.New(t, worlds.Majority, 2*time.Second)
	c := startWith(t, w, Config{Note: "nightly"})
	held := take(t, c, "x")
	third := looker(t, w)
	soon(t, "the note is not said", func() bool { return who(t, third, "x").Note == "nightly" })
	for i := range w.Owns {
		w.Stop(i)
		w.Start(i)
		w.Ready()
	}
	soon(t, "the note does not come again", func() bool {
		h := who(t, third, "x")
		return h.Note == "nightly" && h.stamp == held.stamp
	})
}

// Locks of one session may have notes of their own, as those of an agent have: of another process, and another user of the system.
func TestLockFor(t *testing.T) {
	w := worlds.New(t, worlds.Majority, 20*time.Second)
	c, silent, third := startWith(t, w, Config{Note: "agent"}), startWith(t, w, Config{NoNote: true}), looker(t, w)
	host, _ := os.Hostname()
	me := who(t, third, "x") // nobody
	me.readNote(c.ownNote)
	for i, one := range []struct {
		client *Client
		whom   For
		want   Holder
	}{
		{c, For{Note: "one"}, Holder{Host: host, Pid: os.Getpid(), Login: me.Login, Note: "one"}},
		{c, For{Note: "two", Pid: 17, Login: "jobs"}, Holder{Host: host, Pid: 17, Login: "jobs", Note: "two"}},
		{c, For{Pid: 18}, Holder{Host: host, Pid: 18}},
		{silent, For{Note: "four"}, Holder{Note: "four"}},
	} {
		name := fmt.Sprint("x-", i)
		if _, err := one.client.LockFor(within(t, 20*time.Second), name, one.whom); err != nil {
			t.Fatal(err)
		}
		soon(t, fmt.Sprintf("%+v is not shown", one.want), func() bool {
			h := who(t, third, name)
			return h.Host == one.want.Host && h.Pid == one.want.Pid && h.Login == one.want.Login && h.Note == one.want.Note
		})
	}
	soon(t, "who tries is not told for whom it is held", func() bool { // one voter says so, which may not have the note yet
		var by *HeldBy
		_, err := silent.TryLockFor(within(t, 20*time.Second), "x-1", For{})
		return errors.As(err, &by) && by.Holder.Note == "two"
	})
}

// The note of a lock is said again, as it may be lost, and less and less often.
func TestNoteOfALockIsRepeated(t *testing.T) {
	c := alone(t)
	l := &lock{name: "x"}
	l.held = &Held{lock: l, quorum: 0b011, stamp: 7, note: "m 1 r x", noteDue: map[int]due{}}
	c.busy[l] = struct{}{}
	for v := range c.peers {
		c.peers[v].accepts, c.peers[v].noted = true, true
	}
	for i := 0; i < 300; i++ {
		c.sayNotes(0, time.Now())
		c.sayNotes(2, time.Now())
		c.header.Seq++
		c.flush()
	}
	if said, other := c.lines(0, ". about x 7 m 1 r x"), c.lines(2, ". about"); said < 8 || said > 9 || other != 0 {
		t.Errorf("it is said %d times, and %d times to who has no vote of it", said, other)
	}
	c.forgetNotes(0)
	if c.peers[0].noted || l.held.noteDue[0] != (due{}) {
		t.Errorf("%+v", l.held.noteDue)
	}
}

// Nothing is said of a session that does not want it.
func TestNoNote(t *testing.T) {
	w := worlds.New(t, worlds.Majority, 2*time.Second)
	c := startWith(t, w, Config{Note: "nightly", NoNote: true})
	take(t, c, "x")
	time.Sleep(1500 * time.Millisecond)
	if h := who(t, c, "x"); h.Host != "" || h.Pid != 0 || h.Login != "" || h.Note != "" || h.IsNobody() {
		t.Errorf("%+v", h)
	}
}

// Who has the votes of all members of a quorum has the lock. Else who has most only asks for it, as far as is known.
func TestHolderBy(t *testing.T) {
	c := alone(t)
	says := func(number int, stamp, ms, waiting uint64, note string) wire.Told {
		return wire.Told{Kind: wire.HasVote, IsHeld: true, Number: number, Stamp: stamp, Milliseconds: ms, Waiting: waiting, User: "jobs", Note: note}
	}
	free := wire.Told{Kind: wire.HasVote, Waiting: 1 << 9}
	now := time.Now()
	for i, one := range []struct {
		said    map[int]wire.Told
		number  int
		isAsked bool
		waiting int
		since   time.Duration
		note    string
	}{
		{map[int]wire.Told{0: says(5, 7, 900, 1<<8, ""), 2: says(5, 7, 400, 1<<8|1<<9, "m 1 r a")}, 5, false, 2, 400 * time.Millisecond, "a"},
		{map[int]wire.Told{0: says(5, 7, 900, 0, "m 1 r a"), 1: free}, 5, true, 1, 900 * time.Millisecond, "a"},
		{map[int]wire.Told{0: says(5, 7, 900, 1<<6, ""), 1: says(6, 9, 100, 1<<5, ""), 2: says(6, 9, 100, 0, "")}, 6, false, 1, 100 * time.Millisecond, ""},
		{map[int]wire.Told{0: says(5, 7, 900, 0, ""), 1: says(5, 8, 100, 0, "")}, 5, true, 0, 100 * time.Millisecond, ""},
	} {
		h := c.holderBy(one.said, now)
		if h.Number != one.number || h.Asked != one.isAsked || h.Waiting != one.waiting || h.Since != now.Add(-one.since) || h.Note != one.note ||
			h.User != "jobs" {
			t.Errorf("%d: %+v", i, h)
		}
	}
	if h := c.holderBy(map[int]wire.Told{0: free, 1: free, 2: free}, now); !h.IsNobody() {
		t.Errorf("%+v", h)
	}
}

// The error of who tries says who has the lock, as a voter said.
func TestHeldBy(t *testing.T) {
	w := worlds.New(t, worlds.Majority, 20*time.Second)
	one, other := startWith(t, w, Config{Note: "nightly"}), startWith(t, w, Config{})
	held := take(t, one, "x")
	soon(t, "the note is not said", func() bool { return who(t, other, "x").Note == "nightly" })
	_, err := other.TryLock(within(t, 20*time.Second), "x")
	var by *HeldBy
	if !errors.Is(err, ErrHeld) || !errors.As(err, &by) {
		t.Fatal(err)
	}
	if by.Lock != "x" || by.Holder.Note != "nightly" || by.Holder.stamp != held.stamp || by.Holder.Number != one.Number() {
		t.Errorf("%+v", by)
	}
	if text := err.Error(); !strings.Contains(text, `note="nightly"`) || !strings.HasPrefix(text, "x: "+ErrHeld.Error()) {
		t.Error(text)
	}
}

// lines returns how many lines that a client sends to a voter begin with a text.
func (c *table) lines(voter int, begin string) (count int) {
	c.flush()
	for len(c.boxes[voter]) > 0 {
		_, lines, _ := wire.Read((<-c.boxes[voter]).Data)
		for _, line := range strings.Split(string(lines), "\n") {
			if strings.HasPrefix(line, begin) {
				count++
			}
		}
	}
	return count
}

// A voter of an older program, which never says that it has the note, hears less and less of it, and nothing of other new words. One that
// says so hears it once, and again if it started. Unknown words of a newer one change nothing.
func TestOlderVoters(t *testing.T) {
	c := alone(t)
	beats := func(n int) {
		for i := 0; i < n; i++ {
			c.heartbeat(time.Now())
			for v := range c.peers {
				c.says(v, ". opened 3 5 0 4096 1 0\n. weather 17 fine\n. has\n. listed x\n")
			}
		}
	}
	beats(2)
	c.says(1, ". noted\n")
	beats(20)
	if older, newer := c.lines(0, ". note "), c.lines(1, ". note "); older != 5 || newer != 1 {
		t.Errorf("an older voter hears %d notes, and a newer one %d", older, newer)
	}
	h := wire.Header{Cluster: c.cluster.ID, Coterie: c.plan.mark, Kind: wire.FromVoter, Number: 1, Name: "identity-1", Start: 2}
	hear(c.Client, h, ". leaving\n")
	c.peers[1].heard = time.Now()
	c.heartbeat(time.Now())
	if again := c.lines(1, ". note "); again != 1 {
		t.Errorf("a voter that started hears %d notes", again)
	}
}

// A voter that is heard and never replies, as one of an older program does not, is waited for as long as a silent one is, and
// not at all if it can't change who has the lock.
func TestWhoIsAwaited(t *testing.T) {
	c := alone(t)
	ask := func() *question {
		c.newest++
		q := newQuestion(wire.AskWho, "x")
		q.ID = c.newest
		c.questions[q.ID] = q
		return q
	}
	says := func(q *question, voter int, rest string) { c.says(voter, fmt.Sprintf(". has %d x 0%s\n", q.ID, rest)) }
	free, held := ask(), ask()
	for voter := 0; voter < 2; voter++ {
		says(free, voter, "")
		says(held, voter, " 5 7 900 -")
	}
	now := time.Now()
	if c.isAnsweredBy(free, now) || c.isAnsweredBy(held, now) || !c.isAnsweredBy(held, now.Add(2*aMoment)) {
		t.Error("at once")
	}
	later := now.Add(c.config.FailOver + time.Second)
	for voter := range c.peers {
		c.peers[voter].heard = later
	}
	if !c.isAnsweredBy(free, later) {
		t.Error("an older voter is waited for")
	}
	one := ask()
	if says(one, 0, ""); c.isAnsweredBy(one, later.Add(time.Hour)) {
		t.Error("one voter answers")
	}
}

// One turn sends so many lines of control to a voter at most, whatever is asked: a voter takes sixteen of a message.
func TestManyQuestions(t *testing.T) {
	c := alone(t)
	for i := 0; i < 100; i++ {
		q := newQuestion(wire.AskWho, fmt.Sprint("x", i))
		q.ID = uint64(i + 1)
		c.questions[q.ID] = q
	}
	c.heartbeat(time.Now())
	c.flush()
	for v, box := range c.boxes {
		_, lines, _ := wire.Read((<-box).Data)
		if count := strings.Count(string(lines), ". "); count > 16 || count < mostAsks {
			t.Errorf("voter %d gets %d lines of control in one message", v, count)
		}
	}
}

// Each lock that somebody has or waits for is listed once, with its holder, in the order of the names.
func TestList(t *testing.T) {
	w := worlds.New(t, worlds.Majority, 20*time.Second)
	c, third := startWith(t, w, Config{}), looker(t, w)
	holds := map[string]*Held{}
	for i := 0; i < 70; i++ {
		name := fmt.Sprintf("a-%02d", i)
		holds[name] = take(t, c, name)
	}
	take(t, c, "b")
	for prefix, want := range map[string]int{"": 71, "a-": 70, "a-1": 10, "b": 1, "c": 0} {
		var names []string
		err := third.List(within(t, 20*time.Second), prefix, func(name string, h Holder) error {
			if h.Asked || h.Number != c.Number() || len(names) > 0 && names[len(names)-1] >= name || holds[name] != nil && holds[name].stamp != h.stamp {
				t.Errorf("%s after %v: %+v", name, names, h)
			}
			names = append(names, name)
			return nil
		})
		if err != nil || len(names) != want {
			t.Errorf("%q: %v, %d locks", prefix, err, len(names))
		}
	}
	enough := errors.New("enough")
	if err := third.List(within(t, 20*time.Second), "", func(string, Holder) error { return enough }); err != enough {
		t.Error(err)
	}
	if err := third.List(within(t, 20*time.Second), "a b", nil); !errors.Is(err, ErrName) {
		t.Error(err)
	}
}

// Who watches sees the newest holder, with the note of its campaign, and nobody once it resigned. Its channel ends with its context.
func TestWatch(t *testing.T) {
	w := worlds.New(t, worlds.Majority, 20*time.Second)
	one, two, third := startWith(t, w, Config{Note: "of the session"}), startWith(t, w, Config{NoNote: true}), looker(t, w)
	ctx, cancel := context.WithCancel(context.Background())
	seen, err := third.Watch(ctx, "leader")
	if err != nil {
		t.Fatal(err)
	}
	next := func(what string, isIt func(Holder) bool) {
		t.Helper()
		for end := time.After(15 * time.Second); ; {
			select {
			case h := <-seen:
				if isIt(h) {
					return
				}
			case <-end:
				t.Fatalf("%s is not seen", what)
			}
		}
	}
	next("nobody", Holder.IsNobody)
	held, err := one.Campaign(within(t, 20*time.Second), "leader", "first")
	if err != nil {
		t.Fatal(err)
	}
	next("the first one", func(h Holder) bool {
		return h.Number == one.Number() && !h.Asked && h.Note == "first" && h.Pid == os.Getpid()
	})
	if err := held.Unlock(); err != nil {
		t.Fatal(err)
	}
	next("that it resigned", Holder.IsNobody)
	if _, err := two.Campaign(within(t, 20*time.Second), "leader", "second"); err != nil {
		t.Fatal(err)
	}
	next("the second one", func(h Holder) bool { return h.Number == two.Number() && !h.Asked && h.Note == "second" && h.Pid == 0 })
	cancel()
	for end := time.After(15 * time.Second); ; {
		select {
		case _, isOpen := <-seen:
			if !isOpen {
				if _, err := third.Watch(context.Background(), "a b"); !errors.Is(err, ErrName) {
					t.Error(err)
				}
				return
			}
		case <-end:
			t.Fatal("the channel stays open")
		}
	}
}

// Who looks goes on over an exchange of the plan.
func TestLookOverAnExchange(t *testing.T) {
	w := worlds.New(t, worlds.Majority, 2*time.Second)
	c, third := startWith(t, w, Config{}), looker(t, w)
	take(t, c, "x")
	soon(t, "the voters do not take the plan", func() bool {
		written, err := begin(t, w, w.Cluster, all)
		if written != nil {
			w.Cluster = written
		}
		return err == nil
	})
	soon(t, "it stays with the old plan", func() bool {
		h := who(t, third, "x")
		number, _ := planOf(third)
		return number == 1 && h.Number == c.Number()
	})
}
