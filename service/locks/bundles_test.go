package locks

import (
	"bytes"
	"fmt"
	"strings"
	"sync"
	"sync/atomic"
	"testing"
	"time"

	"calvundek.example/service/internal/wire"
	"calvundek.example/service/internal/worlds"
	"calvundek.example/service/transport"
)

// traffic counts what is sent between clients and voters: messages of the carrier, and how many of them are bundles.
type traffic struct {
	mutex                sync.Mutex
	toVoters, toSessions int
	bundles              map[string]int // by the mailbox of a voter, and "" for all sessions; with those that have beats, or replies to them
}

// watched counts from now on.
func watched(w *worlds.World) *traffic {
	seen := &traffic{bundles: map[string]int{}}
	w.Bus.Watch(func(mailbox string, message []byte) {
		seen.mutex.Lock()
		defer seen.mutex.Unlock()
		switch isBundle := isBundle(message); {
		case strings.HasPrefix(mailbox, "qlock.test.c."):
			if seen.toSessions++; isBundle {
				seen.bundles[""]++
			}
		case strings.HasPrefix(mailbox, "qlock.test.v.") && strings.HasSuffix(mailbox, "."+wire.NoUser):
			if seen.toVoters++; isBundle {
				seen.bundles[mailbox]++
			}
		}
	})
	return seen
}

// isBundle returns whether a message is of several sessions.
func isBundle(message []byte) bool {
	return bytes.Contains(message, []byte("\n\n")) || bytes.Contains(message, []byte("\n. beat"))
}

// counts returns what was counted so far, and begins anew.
func (s *traffic) counts() (messages int, bundles map[string]int) {
	s.mutex.Lock()
	defer s.mutex.Unlock()
	messages, bundles = s.toVoters+s.toSessions, s.bundles
	s.toVoters, s.toSessions, s.bundles = 0, 0, map[string]int{}
	return messages, bundles
}

// passAll passes once through a lock of each shard, with a pause after each.
func passAll(t *testing.T, w *worlds.World, c *Client, pause time.Duration) {
	t.Helper()
	for shard := 0; shard < w.Cluster.Shards; shard++ {
		time.Sleep(pause)
		if err := take(t, c, nameIn(w, shard)).Unlock(); err != nil {
			t.Error(err)
		}
	}
}

// readers returns how many voters said to a client that they read bundles.
func readers(c *Client) (count int) {
	b := c.shards.bundles
	b.mutex.Lock()
	defer b.mutex.Unlock()
	for i := range b.to {
		if b.to[i].reader != (voterStart{}) {
			count++
		}
	}
	return count
}

// whileResting returns how many messages a client with a session in each of so many shards sends and gets in a TTL, while they rest.
func whileResting(t *testing.T, shards int, ttl time.Duration, bundled bool) int {
	t.Helper()
	w := newShards(t, shards, ttl)
	c := startWith(t, w, Config{})
	if !bundled {
		c.shards.bundles = nil
	}
	passAll(t, w, c, ttl/4/time.Duration(shards)) // so that their last requests left at different times
	time.Sleep(ttl / 4)                           // each heard that voters read bundles
	seen := watched(w)
	time.Sleep(ttl)
	messages, bundles := seen.counts()
	if stats := c.Stats(); stats.Lost > 0 || (len(bundles) == 0) == bundled {
		t.Errorf("bundles: %v, %+v", bundles, stats)
	}
	passAll(t, w, c, 0)
	return messages
}

// The sessions of a process that rest beat in one message to each voter, and each voter's replies come in one.
func TestOneHeartbeatForAllShards(t *testing.T) {
	const shards, ttl = 32, 4 * time.Second
	apart, together := whileResting(t, shards, ttl, false), whileResting(t, shards, ttl, true)
	for i := 0; i < 2 && together > apart/10; i++ { // the machine may have had much else to do
		together = whileResting(t, shards, ttl, true)
	}
	if least := 3 * shards * 6; apart < least || together > apart/10 {
		t.Errorf("%d messages, and %d in bundles", apart, together)
	}
	t.Logf("%d sessions, 3 voters, a TTL of %v: %d messages in this time, and %d in bundles", shards, ttl, apart, together)
}

// Clients that send bundles go on with voters of older programs, and such voters get none. So do clients that send none with voters that read
// bundles.
func TestOldAndNewPrograms(t *testing.T) {
	w := newShards(t, 4, 4*time.Second)
	seen := watched(w)
	w.Bus.Without("process")
	one, other := startWith(t, w, Config{}), startWith(t, w, Config{})
	for i := 0; i < 3; i++ {
		passAll(t, w, one, 0)
		passAll(t, w, other, 0)
		time.Sleep(time.Second)
	}
	if messages, bundles := seen.counts(); len(bundles) > 0 || messages == 0 || readers(one)+readers(other) > 0 {
		t.Errorf("older voters: %v of %d messages are bundles, %d voters are taken to read them", bundles, messages, readers(one))
	}
	w.Bus.Without()
	newer, older := startWith(t, w, Config{}), startWith(t, w, Config{})
	older.shards.bundles = nil
	for i := 0; i < 3; i++ {
		passAll(t, w, newer, 0)
		passAll(t, w, older, 0)
		time.Sleep(time.Second)
	}
	if _, bundles := seen.counts(); len(bundles) != 4 || readers(newer) != 3 {
		t.Errorf("a newer client: %v, %d voters read bundles", bundles, readers(newer))
	}
	for _, c := range []*Client{one, other, newer, older} {
		if stats := c.Stats(); stats.Lost > 0 {
			t.Errorf("%+v", stats)
		}
	}
}

// A voter that reads bundles, and is started as an older program, gets none once a session heard of the start. Locks that are held stay so.
func TestVoterBecomesOlder(t *testing.T) {
	w := newShards(t, 8, 5*time.Second)
	c := startWith(t, w, Config{})
	var holds []*Held
	for shard := 0; shard < 8; shard++ {
		holds = append(holds, take(t, c, nameIn(w, shard)))
	}
	soon(t, "no bundles", func() bool { return readers(c) == 3 })
	w.Stop(0)
	w.Bus.Without("process")
	w.Start(0)
	soon(t, "it still gets bundles", func() bool { return readers(c) == 2 })
	seen := watched(w)
	time.Sleep(2 * time.Second)
	if _, bundles := seen.counts(); bundles["qlock.test.v.0."+wire.NoUser] > 0 || bundles["qlock.test.v.1."+wire.NoUser] == 0 {
		t.Errorf("%v", bundles)
	}
	for _, held := range holds {
		if err := held.Unlock(); err != nil {
			t.Error(err)
		}
	}
}

// A voter that reads bundles, and is started as an older program while the process has no session, gets none from later sessions.
func TestVoterBecomesOlderWithoutSessions(t *testing.T) {
	w := newShards(t, 8, 5*time.Second)
	c := startWith(t, w, Config{})
	passAll(t, w, c, 0)
	soon(t, "no bundles", func() bool { return readers(c) == 3 })
	for _, session := range c.shards.sessions() {
		if err := session.Close(within(t, 20*time.Second)); err != nil {
			t.Fatal(err)
		}
	}
	soon(t, "sessions stay", func() bool { return len(c.shards.sessions()) == 0 })
	w.Stop(0)
	w.Bus.Without("process")
	w.Start(0)
	w.Ready()
	seen := watched(w)
	var holds []*Held
	for shard := 0; shard < 8; shard++ {
		holds = append(holds, take(t, c, nameIn(w, shard)))
	}
	time.Sleep(2 * time.Second)
	if _, bundles := seen.counts(); bundles["qlock.test.v.0."+wire.NoUser] > 0 || bundles["qlock.test.v.1."+wire.NoUser] == 0 || readers(c) != 2 {
		t.Errorf("%v, %d voters read bundles", bundles, readers(c))
	}
	for _, held := range holds {
		if err := held.Unlock(); err != nil {
			t.Error(err)
		}
	}
	if stats := c.Stats(); stats.Lost > 0 {
		t.Errorf("%+v", stats)
	}
}

// The mailbox of a process ends with its client and all its sessions, and no earlier: a session may go on for a while.
func TestMailboxOfAProcess(t *testing.T) {
	w := newShards(t, 4, 4*time.Second)
	before := w.Bus.Boxes()
	c := startWith(t, w, Config{})
	passAll(t, w, c, 0)
	if boxes := w.Bus.Boxes() - before; boxes != 6 { // of the client, the process, and four sessions
		t.Fatalf("%d mailboxes", boxes)
	}
	if err := c.Close(within(t, 20*time.Second)); err != nil {
		t.Error(err)
	}
	if boxes := w.Bus.Boxes() - before; boxes != 0 {
		t.Errorf("%d mailboxes stay", boxes)
	}
	s := &shards{boxes: map[string]*mailbox{}, over: make(chan struct{}), bundles: &bundles{}}
	one := alone(t).Client
	listens := func() {
		if err := s.listens(one); err != nil {
			t.Fatal(err)
		}
	}
	listens()
	if s.stops(); s.isOver {
		t.Error("it ends before a session that goes on")
	}
	if s.leaves(one); !s.isOver {
		t.Error("it does not end with the last session")
	}
	listens()
	s.leaves(one) // of a call that was under way
}

// counting is a carrier that counts the bundles that come.
type counting struct {
	*transport.NATS
	came atomic.Int64
}

func (c *counting) Pass(box string, to func(transport.Message)) error {
	return c.NATS.Pass(box, func(m transport.Message) {
		if isBundle(m.Data) {
			c.came.Add(1)
		}
		to(m)
	})
}

// The permissions that users have let their processes get bundles, from voters that are users, too.
func TestUsersGetBundles(t *testing.T) {
	cluster, folder := secured(t)
	if cluster.Shards = 8; cluster.Check() != nil {
		t.Fatal(cluster.Check())
	}
	serve(t, cluster, folder)
	carrier := &counting{NATS: connect(t, cluster, access(folder, "shop"))}
	client, err := open(within(t, 20*time.Second), cluster, Config{User: "shop", Transport: carrier})
	if err != nil {
		t.Fatal(err)
	}
	w := &worlds.World{Cluster: cluster}
	passAll(t, w, client, 0)
	soon(t, "no bundles come", func() bool { return readers(client) == 3 && carrier.came.Load() > 3 })
	passAll(t, w, client, 0)
	if stats := client.Stats(); stats.Lost > 0 || stats.Refused > 0 || carrier.Refusal() != nil {
		t.Errorf("%+v, %v", stats, carrier.Refusal())
	}
	if err := client.Close(within(t, 20*time.Second)); err != nil {
		t.Error(err)
	}
}

// inBundles returns a client that sends bundles to all voters, and a function that says what came to a voter.
func inBundles(t *testing.T) (*table, func() []string) {
	t.Helper()
	c := alone(t)
	c.cluster.Shards = 2
	c.bundles, c.box = &bundles{cluster: c.cluster.ID, process: "p", began: time.Now(), carrier: c.carrier}, newMailbox()
	for v := range c.peers {
		c.says(v, ". bundles\n. claimed 3 5 0 4096\n")
	}
	return c, func() (messages []string) {
		for len(c.boxes[0]) > 0 {
			wire.Messages((<-c.boxes[0]).Data, func(message []byte) {
				_, lines, _ := wire.Read(message)
				messages = append(messages, string(lines))
			})
			messages = append(messages, "")
		}
		return messages
	}
}

// A heartbeat waits a moment for those of other sessions. A request waits for nothing, and takes along what waits.
func TestWhatWaits(t *testing.T) {
	c, came := inBundles(t)
	other := wire.Header{Cluster: "test", Coterie: c.plan.mark, Kind: wire.FromClient, Number: 7, Epoch: 1, Name: "other"}
	box := wire.VoterBox("test", 0, wire.NoUser)
	c.flush()
	came()
	c.beat = time.Now().Add(-time.Hour)
	c.round(time.Now())
	if c.flush(); len(c.boxes[0]) > 0 {
		t.Fatalf("a heartbeat leaves at once: %q", came())
	}
	c.bundles.send(0, c.peers[0].voterStart, box, append(other.Append(nil), "orders request 7 0 1\n"...), false)
	if messages := came(); len(messages) != 3 || !strings.HasPrefix(messages[0], ". open 0\n") || messages[1] != "orders request 7 0 1\n" {
		t.Errorf("%q", messages)
	}
	c.bundles.send(0, c.peers[0].voterStart, box, append(other.Append(nil), "orders request 7 0 2\n"...), false)
	if messages := came(); len(messages) != 2 || messages[0] != "orders request 7 0 2\n" {
		t.Errorf("%q", messages)
	}
	c.beat = time.Now().Add(-time.Hour)
	c.round(time.Now())
	c.flush()
	c.bundles.send(0, c.peers[0].voterStart, box, append(other.Append(nil), ". open 0\n"...), true)
	soon(t, "heartbeats do not leave", func() bool { return len(c.boxes[0]) > 0 })
	if messages := came(); len(messages) != 3 || messages[1] != ". open 0\n" {
		t.Errorf("%q", messages)
	}
}

// A request waits for nothing, also if it leaves in the same turn as a heartbeat.
func TestRequestWithAHeartbeat(t *testing.T) {
	c, _ := inBundles(t)
	c.beat = time.Now().Add(-time.Hour)
	if c.round(time.Now()); c.enqueue("orders", &waiter{got: make(chan *Held, 1), since: time.Now()}) != nil {
		t.Fatal("nothing is asked")
	}
	asked := 0
	for _, lines := range c.sent() {
		for _, line := range lines {
			if strings.HasPrefix(line, "orders request ") {
				asked++
			}
		}
	}
	if asked < 2 {
		t.Errorf("%d voters are asked at once", asked)
	}
}

// What is urgent waits for nothing, also if it leaves in the same turn as a heartbeat that was due.
func TestUrgentWithAHeartbeat(t *testing.T) {
	for name, says := range map[string]func(c *table){
		"a reservation": func(c *table) { c.reserve(c.header.Reserved+1, time.Now()) },
		"a drain":       func(c *table) { c.drain() },
		"a close": func(c *table) {
			c.draining = true
			c.says(0, fmt.Sprintf(". opened 3 5 0 4096 %d 0\n", c.header.Seq))
		},
		"a question": func(c *table) { c.questions[1] = newQuestion(wire.AskWho, "orders") },
		"a turn": func(c *table) {
			c.turns[&Held{lock: &lock{name: "orders"}, turning: &turning{awaited: map[int]time.Time{0: {}}}}] = true
			for h := range c.turns {
				h.lock.held = h
			}
		},
	} {
		c, came := inBundles(t)
		c.flush()
		came()
		c.beat = time.Now().Add(-time.Hour)
		c.round(time.Now())
		says(c)
		if c.flush(); len(c.boxes[0]) != 1 {
			t.Errorf("%s waits for a bundle", name)
		}
	}
	c, came := inBundles(t)
	c.flush()
	came()
	c.draining, c.peers[0].drained = true, true
	c.beat = time.Now().Add(-time.Hour)
	c.round(time.Now())
	if c.flush(); len(c.boxes[0]) != 1 {
		t.Error("a close that is said again waits for a bundle")
	}
}

// What is more than a bundle may have leaves in the next one.
func TestBundleIsFull(t *testing.T) {
	c, _ := inBundles(t)
	other := wire.Header{Cluster: "test", Coterie: c.plan.mark, Kind: wire.FromClient, Number: 7, Epoch: 1, Name: "other"}
	long := append(other.Append(nil), strings.Repeat("orders release 7 0 1\n", wire.MostBytes/30)...)
	for i := 0; i < 2; i++ {
		c.bundles.send(1, c.peers[1].voterStart, wire.VoterBox("test", 1, wire.NoUser), long, true)
	}
	for i := 0; i < 2; i++ {
		if m := <-c.boxes[1]; len(m.Data) != len(long) {
			t.Errorf("a message of %d bytes, and each of those in it has %d", len(m.Data), len(long))
		}
	}
}

// slow is a carrier by which nothing leaves to one mailbox until it may.
type slow struct {
	transport.Transport
	box         string
	sends, goes chan struct{}
}

func (s *slow) Send(box string, message []byte) error {
	if box == s.box {
		s.sends <- struct{}{}
		<-s.goes
	}
	return s.Transport.Send(box, message)
}

// While a message of one session takes long to leave, as NATS stands still, others go on: they say and hear what they like.
func TestSlowSendHoldsUpNobody(t *testing.T) {
	c, came := inBundles(t)
	other := wire.Header{Cluster: "test", Coterie: c.plan.mark, Kind: wire.FromClient, Number: 7, Epoch: 1, Name: "other"}
	boxes := []string{wire.VoterBox("test", 0, wire.NoUser), wire.VoterBox("test", 1, wire.NoUser)}
	carrier := &slow{c.bundles.carrier, boxes[1], make(chan struct{}), make(chan struct{})}
	c.bundles.carrier = carrier
	sends := func(voter int, mayWait bool) {
		c.bundles.send(voter, c.peers[voter].voterStart, boxes[voter], append(other.Append(nil), "orders release 7 0 1\n"...), mayWait)
	}
	for _, one := range []struct {
		name string
		send func()
	}{
		{"alone", func() { sends(1, false) }},
		{"in a bundle", func() { sends(1, true); sends(1, false) }},
		{"a moment later", func() { sends(1, true) }},
		{"to who reads no bundles", func() { c.bundles.heard(1, voterStart{}); sends(1, false) }},
	} {
		sent, went := make(chan struct{}), make(chan struct{})
		go func() { one.send(); close(sent) }()
		<-carrier.sends
		go func() {
			sends(0, false)
			c.bundles.givePlaceBack(c.bundles.takePlace())
			c.bundles.joinedTo(1, wire.Told{})
			close(went)
		}()
		select {
		case <-went:
		case <-time.After(10 * time.Second):
			t.Fatalf("%s: a session waits for another one", one.name)
		}
		carrier.goes <- struct{}{}
		<-sent
		if messages := came(); len(messages) != 2 {
			t.Errorf("%s: %q", one.name, messages)
		}
	}
}

// A voter is told of which process a session is until it says that it reads bundles, and less and less often. One that started is told again,
// and gets no bundle before it says so.
func TestWhoReadsBundles(t *testing.T) {
	c, _ := inBundles(t)
	said := func(voter int) int { return c.lines(voter, ". process p") }
	beats := func(n int) {
		for i := 0; i < n; i++ {
			c.heartbeat(time.Now())
			c.flush()
		}
	}
	said(0)
	if beats(3); said(0) != 0 {
		t.Error("it is said to who said that it reads bundles")
	}
	h := wire.Header{Cluster: "test", Coterie: c.plan.mark, Kind: wire.FromVoter, Number: 0, Name: "identity-0", Start: 2}
	reads := func(voter int) bool { return c.bundles.reads(voter, c.peers[voter].voterStart) }
	if hear(c.Client, h, ". opened 3 5 0 4096 1 0\n"); reads(0) || !reads(1) {
		t.Error("a voter that started reads bundles")
	}
	if beats(20); said(0) != 5 {
		t.Error("it is not said to a voter that started, or too often")
	}
	h.Start = 1
	if hear(c.Client, h, ". bundles\n"); reads(0) {
		t.Error("a word from before the start counts")
	}
	h.Start = 2
	if hear(c.Client, h, ". bundles\n"); !reads(0) {
		t.Error("the word of a voter that started does not count")
	}
}

// secondSession returns another session of a process that sends bundles. It heard no voter yet.
func secondSession(t *testing.T, c *table) *table {
	t.Helper()
	other, err := newClient(c.cluster, Config{Transport: c.carrier})
	if err != nil {
		t.Fatal(err)
	}
	other.header.Number, other.header.Epoch, other.header.Reserved = 4, 1, mostBlock
	other.plans, other.bundles, other.box = c.plans.copied(), c.bundles, newMailbox()
	claiming(other, 4, 1)
	return &table{Client: other, boxes: c.boxes}
}

// emptied takes all messages out of a mailbox.
func emptied(box <-chan transport.Message) {
	for len(box) > 0 {
		<-box
	}
}

// That a voter reads bundles counts for the start under which it said so: the first session that hears another one ends it for all, and each
// sends bundles only to the start that it heard itself. Heartbeats that wait then leave one by one.
func TestBundlesAreForOneStart(t *testing.T) {
	c, _ := inBundles(t)
	c.flush()
	emptied(c.boxes[0])
	c.bundles.to[0].waits = true // no timer ends it, however slow the machine is
	other := secondSession(t, c)
	beats := func(c *table, bundled bool) {
		t.Helper()
		before := len(c.boxes[0])
		c.beat = time.Now().Add(-time.Hour)
		c.round(time.Now())
		if c.flush(); len(c.boxes[0]) == before != bundled {
			t.Errorf("bundled: %v", !bundled)
		}
	}
	beats(other, false) // the voter was not heard
	emptied(c.boxes[0])
	h := wire.Header{Cluster: "test", Coterie: c.plan.mark, Kind: wire.FromVoter, Number: 0, Name: "identity-0"}
	hear(other.Client, h, ". opened 4 1 0 4096 1 0\n")
	beats(c, true)
	beats(other, true)
	h.Start = 1
	third := secondSession(t, c)
	hear(third.Client, h, ". opened 4 1 0 4096 1 0\n")
	if len(c.boxes[0]) != 2 {
		t.Errorf("%d messages leave", len(c.boxes[0]))
	}
	for len(c.boxes[0]) > 0 {
		if m := <-c.boxes[0]; strings.Contains(string(m.Data), "\n\n") {
			t.Errorf("a bundle leaves: %q", m.Data)
		}
	}
	beats(other, false)
	beats(third, false)
	hear(third.Client, h, ". claimed 4 1 0 4096\n. bundles\n")
	beats(third, true)
	beats(other, false) // it did not hear that start yet
	hear(other.Client, h, ". opened 4 1 0 4096 1 0\n")
	beats(other, true)
	for _, later := range []wire.Header{{Start: 1, Run: 1, Name: "identity-0a"}, {Start: 2, Run: 1, Name: "identity-0a"}} {
		h.Name, h.Run, h.Start = later.Name, later.Run, later.Start
		hear(secondSession(t, c).Client, h, "")
		beats(third, false)
		hear(third.Client, h, ". bundles\n")
		beats(third, true)
	}
}

// A session says again of which process it is, where another one heard a late message of an earlier start.
func TestBundlesAreSaidAgain(t *testing.T) {
	c, _ := inBundles(t)
	late := wire.Header{Cluster: "test", Coterie: c.plan.mark, Kind: wire.FromVoter, Number: 0, Name: "identity-late"}
	hear(secondSession(t, c).Client, late, "")
	if c.heartbeat(time.Now()); !bytes.Contains(c.out[0], []byte(". process p\n")) || bytes.Contains(c.out[1], []byte(". process p\n")) {
		t.Errorf("%q, %q", c.out[0], c.out[1])
	}
}

// A session that waits for a number that is free hears of it also in a bundle.
func TestFreeInABundle(t *testing.T) {
	c, _ := inBundles(t)
	c.box.put(c.word(0, ". free\n"))
	began := time.Now()
	if err := c.awaitsFree(within(t, 20*time.Second)); err != nil || time.Since(began) > c.cluster.TTL.Duration/20 {
		t.Errorf("%v after %v", err, time.Since(began))
	}
	if c.box.bytes != 0 {
		t.Errorf("%d bytes wait", c.box.bytes)
	}
}

// A session takes no message to another one, and what a bundle has for a session that is not there is lost. There is room for a bounded
// number of messages and bytes.
func TestMessagesToSessions(t *testing.T) {
	c, _ := inBundles(t)
	h := wire.Header{Cluster: "test", Coterie: c.plan.mark, Kind: wire.FromVoter, Number: 1, Name: "identity-1"}
	lines := append(h.Append(nil), ". taken 3 5\n"...)
	if c.message(came(c.Client, 1, wire.AddressTo("another", lines))); c.takers() != 0 || c.stats.Refused != 1 {
		t.Errorf("a message to another session is taken: %b", c.takers())
	}
	s := &shards{boxes: map[string]*mailbox{c.header.Name: c.box}}
	var b wire.Bundle
	b.Add(wire.AddressTo("another", lines))
	b.Add(lines)
	b.Add([]byte("junk\n"))
	b.Add(wire.AddressTo(c.header.Name, lines))
	s.unbundle(came(c.Client, 1, b.Take()))
	if len(c.box.messages) != 1 || s.past.Refused != 3 {
		t.Errorf("%d messages come, %d are refused", len(c.box.messages), s.past.Refused)
	}
	if c.takesWaiting(); c.takers() != 1<<1 || c.box.bytes != 0 {
		t.Errorf("taken by %b, %d bytes wait", c.takers(), c.box.bytes)
	}
	small := newMailbox()
	for i := 0; i < 2*mostWaiting; i++ {
		small.put(transport.Message{Data: []byte("x")})
	}
	large := newMailbox()
	for i := 0; i < 10; i++ {
		large.put(transport.Message{Data: make([]byte, wire.MostBytes)})
	}
	if len(small.messages) != mostWaiting || len(large.messages) != roomWaiting/wire.MostBytes {
		t.Error(fmt.Sprint(len(small.messages), " small messages wait, and ", len(large.messages), " large ones"))
	}
}
