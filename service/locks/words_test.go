package locks

import (
	"context"
	"errors"
	"fmt"
	"math"
	"math/rand"
	"strings"
	"testing"
	"time"

	"calvundek.example/service/internal/bus"
	"calvundek.example/service/internal/claims"
	"calvundek.example/service/internal/wire"
	"calvundek.example/service/internal/worlds"
	"calvundek.example/service/qlock"
	"calvundek.example/service/transport"
)

// table is a client whose voters' words a test says, and what the client sends.
type table struct {
	*Client
	boxes []<-chan transport.Message
}

// alone returns a client that has a session of number 3 and epoch 5, of which the voters said
// nothing yet. There are no voters.
func alone(t *testing.T) *table {
	t.Helper()
	cluster, b := worlds.NewCluster(t, worlds.Majority, 20*time.Second), bus.New(1)
	c, err := newClient(cluster, Config{Transport: b.Port()})
	if err != nil {
		t.Fatal(err)
	}
	c.header.Number, c.header.Epoch, c.header.Reserved = 3, 5, mostBlock
	claiming(c, 3, 5)
	c.left = uptime()
	one := &table{Client: c}
	for voter := range c.peers {
		box, err := b.Port().Listen(wire.VoterBox(cluster.ID, voter, wire.NoUser))
		if err != nil {
			t.Fatal(err)
		}
		one.boxes = append(one.boxes, box)
	}
	return one
}

// came returns a message of a voter that came to a client.
func came(c *Client, voter int, data []byte) transport.Message {
	session := wire.SessionName(c.user, c.header.Name)
	return transport.Message{Mailbox: wire.SessionBox(c.cluster.ID, session, voter), Data: data}
}

// hear lets a client take a message of a voter.
func hear(c *Client, h wire.Header, lines string) {
	c.message(came(c, h.Number, append(h.Append(nil), lines...)))
}

// says lets the client take lines of a voter.
func (c *table) says(voter int, lines string) { c.message(c.word(voter, lines)) }

// word returns a message of a voter.
func (c *table) word(voter int, lines string) transport.Message {
	h := wire.Header{Cluster: c.cluster.ID, Coterie: c.plan.mark, Kind: wire.FromVoter, Number: voter,
		Name: fmt.Sprint("identity-", voter)}
	return came(c.Client, voter, append(h.Append(nil), lines...))
}

// hearsThen lets words come to the client, in this order.
func (c *table) hearsThen(words ...transport.Message) {
	messages := make(chan transport.Message, len(words))
	for _, word := range words {
		messages <- word
	}
	c.messages = messages
}

// sent returns the lines of locks that the client sends, by voter.
func (c *table) sent() (lines [3][]string) {
	c.flush()
	for voter, box := range c.boxes {
		for len(box) > 0 {
			_, rest, _ := wire.Read((<-box).Data)
			for _, line := range strings.Split(strings.TrimSpace(string(rest)), "\n") {
				if !strings.HasPrefix(line, ". ") {
					lines[voter] = append(lines[voter], line)
				}
			}
		}
	}
	return lines
}

// A voter is asked only under a stamp that it said to be this session's: above its base, and at
// most what it has as reserved. Words come in any order, from some voters only, and about different
// stamps.
func TestOnlyOwnStampsAreAsked(t *testing.T) {
	random, requests, raised := rand.New(rand.NewSource(1)), 0, 0
	for run := 0; run < 60; run++ {
		c := alone(t)
		for v := range c.peers {
			c.acknowledge(v, uptime())
		}
		bases, reserved := [3]uint64{}, [3]uint64{}
		for n := 0; n < 40; n++ {
			voter := random.Intn(3)
			bases[voter] = greatest(bases[voter], uint64(random.Intn(200)))
			reserved[voter] = greatest(greatest(reserved[voter], bases[voter]), uint64(random.Intn(300)))
			c.says(voter, fmt.Sprintf(". opened 3 5 %d %d 1 0\n", bases[voter], reserved[voter]))
			call := &waiter{got: make(chan *Held, 1), since: time.Now()}
			if err := c.enqueue(fmt.Sprint("lock-", random.Intn(4)), call); err != nil {
				t.Fatal(err)
			}
			for asked, lines := range c.sent() {
				for _, line := range lines {
					_, line, _ := strings.Cut(line, " ")
					stamp := wire.ReadLine([]byte(line)).Stamp
					if !strings.HasPrefix(line, "request ") {
						continue
					}
					if requests++; stamp <= bases[asked] || stamp > reserved[asked] {
						t.Fatalf("run %d: voter %d is asked under %d, and its stamps are those above %d up to %d",
							run, asked, stamp, bases[asked], reserved[asked])
					}
					if stamp > 100 {
						raised++
					}
				}
			}
		}
	}
	if requests < 100 || raised < 20 {
		t.Errorf("%d requests, %d of them under a raised stamp: these runs show little", requests, raised)
	}
}

// Which numbers are free is known once a quorum said so: another voter may know better than one alone.
func TestOneVoterSaysNotWhichNumbersAreFree(t *testing.T) {
	c := alone(t)
	for replied, want := range map[uint64]bool{0: false, 0b001: false, 0b100: false, 0b101: true, 0b111: true} {
		if c.replied = replied; c.isAnswered() != want {
			t.Errorf("the voters %b replied: %v", replied, !want)
		}
	}
}

// A claim with the reply of one voter is not done.
func TestOneVoterGivesNoNumber(t *testing.T) {
	c := alone(t)
	c.header.Number, c.header.Epoch = 0, 0
	c.claims[3].GivesUp()
	ctx, cancel := context.WithTimeout(context.Background(), 300*time.Millisecond)
	defer cancel()
	voter := c.boxes[0]
	go func() {
		for m := range voter {
			h, lines, _ := wire.Read(m.Data)
			if text := string(lines); strings.Contains(text, "claim 3 ") {
				reply := wire.Header{Cluster: h.Cluster, Coterie: h.Coterie, Kind: wire.FromVoter, Name: "identity-0"}
				epoch := strings.Fields(text[strings.Index(text, "claim 3 "):])[2]
				_ = c.carrier.Send(wire.SessionBox(h.Cluster, wire.SessionName(wire.NoUser, h.Name), 0), append(reply.Append(nil),
					". claimed 3 "+epoch+" 0 0\n"...))
			}
		}
	}()
	messages, err := c.carrier.Listen(c.Client.boxes())
	if err != nil {
		t.Fatal(err)
	}
	c.messages, c.replied = messages, 7 // to hello
	if err := c.Client.claim(ctx); err == nil || c.claims[3].Shows().Accepted != 1 {
		t.Errorf("%+v, %v", c.claims[3].Shows(), err)
	}
}

// A session to which a quorum gave a number keeps it, though another voter has it as that of a session that claimed it at the same time. It
// takes another number if those that are left contain no quorum, or are silent.
func TestOneVoterEndsNoOpening(t *testing.T) {
	const taken, opened = ". taken 3 5\n", ". opened 3 5 0 1064 1 0\n"
	opens := func(lines ...string) (*table, error) {
		c := alone(t)
		c.opening, c.crowd.Highest = true, 1000
		var words []transport.Message
		for i, line := range lines {
			words = append(words, c.word(2-i, line))
		}
		c.hearsThen(words...)
		return c, c.reserveFirst(within(t, 5*time.Second))
	}
	c, err := opens(taken, opened, opened)
	if err != nil || c.takers() != 1<<2 {
		t.Errorf("one voter has it as another one's: %v, taken by %b", err, c.takers())
	}
	if c.says(2, ". claimed 3 5 0 64\n"); c.takers() != 0 {
		t.Errorf("the voter has it as this one's by now, and it is taken by %b", c.takers())
	}
	if _, err := opens(taken, taken, opened); !errors.Is(err, errTaken) {
		t.Errorf("two voters have it as another one's: %v", err)
	}
	c = alone(t)
	c.opening, c.peers[1].heard = true, time.Now().Add(-time.Hour)
	if c.says(2, taken); !c.refused {
		t.Error("it waits for a silent voter")
	}
}

// Who waited for a number for long has time to use it, though others wait. Who does not use it gives it back.
func TestTimeToUseANumber(t *testing.T) {
	c := alone(t)
	c.cluster.Shards, c.header.Number, c.header.Epoch = 2, 0, 0
	c.claims[3] = qlock.NewClaims()
	var states strings.Builder
	for number := 0; number < qlock.MaxClients; number++ {
		isFree := 0
		if number == 3 {
			isFree = 1
		}
		fmt.Fprintf(&states, ". number %d 4 %d\n", number, isFree)
	}
	claimed := ". claimed 3 5 0 64\n"
	c.hearsThen(c.word(0, states.String()), c.word(1, states.String()), c.word(0, claimed), c.word(1, claimed))
	c.unused = time.Now().Add(-time.Hour) // when it began to wait
	if err := c.begin(within(t, 5*time.Second)); err != nil {
		t.Fatal(err)
	}
	c.says(0, string(wire.Told{Kind: wire.Wanted}.Append(nil)))
	if c.giveNumberBack(time.Now()); c.draining {
		t.Error("the number is given back at once")
	}
	c.wanted = time.Now().Add(takesUse)
	if c.giveNumberBack(c.wanted.Add(time.Second)); !c.draining {
		t.Error("a number that is not used is not given back")
	}
}

// A voter that does not know a session is asked to accept its claim, once for each heartbeat, and
// is not asked for its vote before.
func TestNumberIsClaimedEverywhere(t *testing.T) {
	c := alone(t)
	for voter := 0; voter < 2; voter++ {
		c.says(voter, ". claimed 3 5 0 4096\n")
	}
	claims := func() (count int) {
		c.flush()
		for len(c.boxes[2]) > 0 {
			m := <-c.boxes[2]
			count += strings.Count(string(m.Data), ". claim 3 5 ")
		}
		return count
	}
	c.heartbeat(time.Now())
	for i := 0; i < 3; i++ {
		c.says(2, ". unknown 3 5\n")
	}
	if got := claims(); got != 1 {
		t.Errorf("%d claims", got)
	}
	for i := 0; i < 6; i++ {
		call := &waiter{got: make(chan *Held, 1), since: time.Now()}
		if err := c.enqueue(fmt.Sprint("lock-", i), call); err != nil {
			t.Fatal(err)
		}
	}
	if lines := c.sent(); len(lines[2]) > 0 || len(lines[0]) == 0 {
		t.Errorf("it is asked: %v", lines)
	}
	c.says(2, ". refused 3 5\n")
	if c.why != nil || c.refused {
		t.Error("a voter that refuses ends a session that a quorum accepted")
	}
}

// held returns a lock that a client holds, by the votes of voters that reply, and its client, whose
// loop stands still.
func held(t *testing.T) (*Client, *Held) {
	t.Helper()
	w := worlds.New(t, worlds.Majority, 20*time.Second)
	c := still(t, w)
	turns(c, 200*time.Millisecond, func() bool { return false })
	call := &waiter{got: make(chan *Held, 1), since: time.Now()}
	if err := c.enqueue("x", call); err != nil {
		t.Fatal(err)
	}
	c.flush()
	if !turns(c, 5*time.Second, func() bool { return len(call.got) > 0 }) {
		t.Fatal("the lock is not held")
	}
	return c, <-call.got
}

// Who stood still for a TTL hears that the lock may be lost before the next heartbeat's reply hides
// it.
func TestHeartbeatHidesNoLoss(t *testing.T) {
	c, h := held(t)
	for v := range c.peers {
		age(t, c, v)
	}
	c.beat = c.beat.Add(-c.cluster.TTL.Duration) // so a heartbeat is due
	c.round(time.Now())
	if turns(c, 300*time.Millisecond, h.over.Load); !h.over.Load() {
		t.Error("a heartbeat hides that the lock may be lost")
	}
}

// He hears so in each round, also if no heartbeat is due.
func TestRoundNoticesALoss(t *testing.T) {
	c, h := held(t)
	for v := range c.peers {
		age(t, c, v)
	}
	c.beat = time.Now()
	seq := c.header.Seq
	if c.round(time.Now()); !h.over.Load() || c.header.Seq != seq {
		t.Errorf("a round notices no loss, or %d heartbeats leave", c.header.Seq-seq)
	}
}

// isLeased returns whether a vote counts now that is taken from a voter.
func isLeased(c *Client, voter int) bool {
	l, err := qlock.NewLockClient(3, 0)
	if err != nil {
		return false
	}
	_, _ = l.Ask(1<<voter, nil)
	_, _, _ = l.Take(&c.leases, c.peers[voter].said, uptime(), []byte(fmt.Sprintf("locked %d 3 1 1 0", voter)), nil)
	return l.Until(&c.leases) > uptime()
}

// A reply says that a voter heard the heartbeat, not that it heard anything when the reply came.
func TestReplyCountsFromItsHeartbeat(t *testing.T) {
	c := alone(t)
	ttl, up := c.cluster.TTL.Duration, uptime()
	for v := range c.peers {
		c.peers[v].sent[7] = up - 9*ttl/10
		if c.says(v, ". opened 3 5 0 4096 7 0\n"); isLeased(c.Client, v) {
			t.Errorf("a late reply renews the lease of %d", v)
		}
	}
	for v := range c.peers {
		c.peers[v].sent[8] = up - ttl/2
		if c.says(v, ". opened 3 5 0 4096 8 0\n"); !isLeased(c.Client, v) {
			t.Errorf("a reply does not renew the lease of %d", v)
		}
	}
}

// Who may have lost a lock asks for its votes no more: a voter that forgot the request would grant
// it anew.
func TestLostLockIsNotRenewed(t *testing.T) {
	c, h := held(t)
	renews := func() bool {
		c.flush()
		for v := range c.out {
			c.out[v] = nil
		}
		c.round(time.Now().Add(c.cluster.TTL.Duration / 3))
		for v := range c.out {
			if strings.Contains(string(c.out[v]), "x request ") {
				return true
			}
		}
		return false
	}
	if !renews() {
		t.Fatal("a holder does not show that it is there")
	}
	c.lose(h)
	h.lock.timer.Of(0, time.Now())
	h.lock.timer.Of(h.stamp, time.Now().Add(-c.cluster.TTL.Duration))
	if renews() {
		t.Error("a lost lock is renewed")
	}
	if err := c.unlock(h); !errors.Is(err, ErrLapsed) {
		t.Error(err)
	}
	if c.locks["x"].shown.Phase != qlock.Idle {
		t.Error("the votes are not given back")
	}
}

// A session takes a claim back, and claims under its name again, with another client: under another epoch, whatever voters say. The word
// that takes the first claim back may come late.
func TestEpochIsClaimedOnce(t *testing.T) {
	cluster, b := worlds.NewCluster(t, worlds.Majority, 20*time.Second), bus.New(1)
	own, ended := claims.New(), within(t, 0)
	for _, want := range []uint64{5, 6} {
		c, err := newNamed(cluster, Config{Transport: b.Port()}, "s", own)
		if err != nil {
			t.Fatal(err)
		}
		c.states[3] = 1
		if c.noteNumber(0, 3, 4, 1); !c.pick() || c.asked != 3 {
			t.Fatal("a free number is not chosen")
		}
		if err := c.claim(ended); err == nil || c.claimed() != want {
			t.Errorf("epoch %d, %v", c.claimed(), err)
		}
		if c.abandon(); c.claimed() != 0 {
			t.Error("a claim goes on that was taken back")
		}
	}
}

// A client that ends while it claims a number gives that back before: here its plan is retired. A voter hears so by its own plan, as it
// takes nothing of one that is retired there.
func TestEndDuringAClaim(t *testing.T) {
	c := alone(t)
	c.header.Number, c.header.Epoch = 0, 0
	c.claims[3].GivesUp()
	var err error
	if c.messages, err = c.carrier.Listen(c.Client.boxes()); err != nil {
		t.Fatal(err)
	}
	givenBack := make(chan string, 30)
	for v := range c.boxes {
		go func(v int, session string) {
			says := func(mark, lines string) {
				h := wire.Header{Cluster: "test", Coterie: mark, Kind: wire.FromVoter, Number: v, Name: fmt.Sprint("identity-", v)}
				_ = c.carrier.Send(wire.SessionBox("test", session, v), append(h.Append(nil), lines...))
			}
			for m := range c.boxes[v] {
				h, lines, _ := wire.Read(m.Data)
				switch text := string(lines); {
				case strings.HasSuffix(text, ". hello\n"):
					says(h.Coterie, ". number 3 5 1\n")
				case strings.HasPrefix(text, ". claim ") && v == 0:
					says(h.Coterie, ". claimed "+strings.TrimPrefix(strings.TrimSuffix(text, " 64\n"), ". claim ")+" 0 64\n")
				case strings.HasPrefix(text, ". claim "):
					says("next", ". generation 9 next 9\n")
				case strings.HasPrefix(text, ". drop "):
					givenBack <- fmt.Sprint(v, " ", h.Coterie)
				}
			}
		}(v, wire.SessionName(c.user, c.header.Name))
	}
	if err := c.begin(within(t, 20*time.Second)); !errors.Is(err, ErrRetired) {
		t.Fatal(err)
	}
	want := map[string]bool{"0 " + c.plan.mark: true, "1 next": true, "2 next": true}
	for end := time.After(5 * time.Second); len(want) > 0; {
		select {
		case one := <-givenBack:
			if !want[one] {
				t.Errorf("voter and plan %q", one)
			}
			delete(want, one)
		case <-end:
			t.Fatalf("the number is not given back: %v", want)
		}
	}
	if c.claimed() != 0 {
		t.Error("a claim goes on that was taken back")
	}
}

// A session that gives its number up before it has its first stamps leaves it free, also at voters that heard it under this number.
func TestNumberWithoutStampsIsFree(t *testing.T) {
	w := worlds.New(t, worlds.Majority, 60*time.Second)
	opens := func() *Client {
		c, err := newClient(w.Cluster, Config{Transport: w.Bus.Port()})
		if err == nil {
			c.messages, err = c.carrier.Listen(c.boxes())
		}
		if err == nil {
			err = c.choose(within(t, 10*time.Second))
		}
		if err != nil {
			t.Fatal(err)
		}
		return c
	}
	c := opens()
	if err := c.claim(within(t, 10*time.Second)); err != nil {
		t.Fatal(err)
	}
	number := c.asked
	c.crowd.Highest = 1000 // so that it needs other stamps than those that came with the claim
	if err := c.reserveFirst(within(t, 0)); err == nil {
		t.Fatal("it has stamps")
	}
	soon(t, "the number is not taken", func() bool { return opens().states[number] == 0 })
	c.abandon()
	soon(t, "the number stays taken", func() bool { return opens().states[number] == 1 })
}

// What voters said of the stamps of a number counts no more once that was given back: it was said under another epoch.
func TestNumberLeavesNoStamps(t *testing.T) {
	c := alone(t)
	acknowledge := func() {
		for v := range c.peers {
			c.acknowledge(v, uptime())
		}
	}
	acknowledge()
	for v := range c.peers {
		c.says(v, ". opened 3 5 10 100 1 0\n")
	}
	if owners := c.owners(50); owners != 7 {
		t.Fatalf("the stamp is the session's own at %b", owners)
	}
	c.abandon()
	if acknowledge(); c.owners(50) != 0 {
		t.Errorf("the stamp is still its own at %b", c.owners(50))
	}
}

// The stamps of a session are above each base that the voters told which gave it the number.
func TestSessionBeginsAboveItsBases(t *testing.T) {
	c := alone(t)
	c.header.Number, c.header.Epoch = 0, 0
	for voter, base := range []uint64{70, 90, 80} {
		c.noteClaim(voter, true, 5, base, base+firstBlock)
	}
	_ = c.reserveFirst(within(t, 0))
	if c.used != 90 || c.header.Epoch != 5 || c.header.Reserved != 90+firstBlock {
		t.Errorf("it begins above %d, under epoch %d", c.used, c.header.Epoch)
	}
}

// A voter that accepted a claim, and was then made again, may accept another one of the same epoch: the claim is given up.
func TestVoterIsMadeAgainDuringAClaim(t *testing.T) {
	for _, isOpening := range []bool{true, false} {
		c := alone(t)
		c.header.Number, c.header.Epoch, c.opening = 0, 0, isOpening
		c.noteClaim(0, true, 5, 0, firstBlock)
		p := &c.peers[0]
		p.identity = "one"
		if c.recognise(wire.Header{Number: 0, Name: "another", Run: p.run + 1, Start: 1}); c.refused != isOpening {
			t.Errorf("opening: %v, and the claim is given up: %v", isOpening, c.refused)
		}
	}
}

// Above a base that is beyond all stamps a session has none.
func TestBaseBeyondAllStamps(t *testing.T) {
	c := alone(t)
	c.header.Number, c.header.Epoch = 0, 0
	if c.noteClaim(0, true, 5, qlock.MaxStamp+1, qlock.MaxStamp+2); c.claims[3].Shows().Accepted != 0 {
		t.Error("it is taken as the session's")
	}
}

// A number whose epochs are spent is not chosen: there is no claim of it.
func TestSpentEpochs(t *testing.T) {
	c := Client{session: session{claims: claims.New(), choice: &choice{}}}
	for number := range c.states {
		c.states[number] = 1 + number%2
		c.claims[number].Sees(math.MaxUint64)
	}
	if c.pick() {
		t.Errorf("number %d is chosen", c.asked)
	}
	c.claims[5] = qlock.NewClaims()
	c.claims[5].Sees(math.MaxUint64 - 1)
	if !c.pick() || c.asked != 5 {
		t.Errorf("number %d is chosen", c.asked)
	}
}

// Who waited for a number hears ErrNumbers and how many sessions there were, whatever was asked last as its time ended. That no quorum replied
// it hears only if none did. What an earlier call heard does not count.
func TestWhyThereIsNoNumber(t *testing.T) {
	var taken strings.Builder
	for number := 0; number < qlock.MaxClients; number++ {
		fmt.Fprintf(&taken, ". number %d 1 0\n", number)
	}
	taken.WriteString(". sessions 64 0 0 5 0\n")
	free := strings.Replace(taken.String(), ". number 9 1 0\n", ". number 9 1 1\n", 1)
	type reply struct {
		hello  string
		denies bool // claims
	}
	c, replies := alone(t), make(chan reply, 1) // what voters reply now
	c.claims[3].GivesUp()
	c.cluster.TTL.Duration = 2 * time.Second // it asks again after a tenth of that
	var err error
	if c.messages, err = c.carrier.Listen(c.Client.boxes()); err != nil {
		t.Fatal(err)
	}
	for v := range c.boxes {
		go func(v int, session string) {
			h := wire.Header{Cluster: "test", Coterie: c.plan.mark, Kind: wire.FromVoter, Number: v, Name: fmt.Sprint("identity-", v)}
			for m := range c.boxes[v] {
				_, lines, _ := wire.Read(m.Data)
				text := string(lines)
				says := <-replies
				replies <- says
				switch claim := ""; {
				case strings.HasSuffix(text, ". hello\n"):
					text = says.hello
				case says.denies && strings.Contains(text, ". claim "):
					claim = text[strings.Index(text, ". claim "):]
					text = strings.Replace(strings.TrimSuffix(claim, " 64\n"), "claim", "refused", 1) + "\n"
				default:
					continue
				}
				_ = c.carrier.Send(wire.SessionBox("test", session, v), append(h.Append(nil), text...))
			}
		}(v, wire.SessionName(c.user, c.header.Name))
	}
	for _, one := range []struct {
		what        string
		first, then string // what voters reply to hello, and what after half a second
		denies      bool
		want        error
		text        string
	}{
		{"none is free, and then no voter replies", taken.String(), "", false, ErrNumbers, "64 sessions are open"},
		{"no voter replies", "", "", false, ErrNoQuorum, "no quorum"},
		{"none is free, and then no voter replies to the claim of one", taken.String(), free, false, ErrNumbers, "5 wait for a number before this one"},
		{"no voter replies to a claim", free, free, false, ErrNoQuorum, "no quorum"},
		{"none is free", taken.String(), taken.String(), false, ErrNumbers, "64 sessions are open"},
		{"others are always faster", free, free, true, ErrNumbers, "64 sessions are open"},
	} {
		replies <- reply{one.first, one.denies}
		c.header.Number, c.header.Epoch, c.wants = 0, 0, ""
		ctx, cancel := context.WithTimeout(context.Background(), 1200*time.Millisecond)
		again := time.AfterFunc(500*time.Millisecond, func() { <-replies; replies <- reply{one.then, one.denies} })
		err := c.begin(ctx)
		if !errors.Is(err, one.want) || !errors.Is(err, context.DeadlineExceeded) || !strings.Contains(err.Error(), one.text) {
			t.Errorf("%s: %v", one.what, err)
		}
		again.Stop()
		cancel()
		<-replies
	}
}

// Who hears that a number is free asks for the lock for which it waited. If none is free for a while it asks for another one that is wanted.
func TestFreeIsForTheLockThatWasNamed(t *testing.T) {
	var taken strings.Builder
	for number := 0; number < qlock.MaxClients; number++ {
		fmt.Fprintf(&taken, ". number %d 1 0\n", number)
	}
	c, named := alone(t), make(chan string, 1000)
	c.claims[3].GivesUp()
	c.cluster.TTL.Duration = 3 * time.Second
	c.wants, c.wishes = "one", &wishes{locks: []string{"one", "other"}, grown: make(chan struct{}, 1)}
	var err error
	if c.messages, err = c.carrier.Listen(c.Client.boxes()); err != nil {
		t.Fatal(err)
	}
	for v := range c.boxes {
		go func(v int, session string) {
			h := wire.Header{Cluster: "test", Coterie: c.plan.mark, Kind: wire.FromVoter, Number: v, Name: fmt.Sprint("identity-", v)}
			says := func(lines string) {
				_ = c.carrier.Send(wire.SessionBox("test", session, v), append(h.Append(nil), lines...))
			}
			isFirst := true
			for m := range c.boxes[v] {
				_, lines, _ := wire.Read(m.Data)
				says(taken.String())
				if v == 0 {
					named <- string(lines)
				}
				if v == 0 && isFirst {
					time.AfterFunc(100*time.Millisecond, func() { says(". free\n") })
				}
				isFirst = false
			}
		}(v, wire.SessionName(c.user, c.header.Name))
	}
	c.header.Number, c.header.Epoch = 0, 0
	if err := c.begin(within(t, 900*time.Millisecond)); !errors.Is(err, ErrNumbers) {
		t.Error(err)
	}
	var order []string
	for len(named) > 0 {
		order = append(order, strings.Fields(<-named)[2])
	}
	if got := strings.Join(order, " "); !strings.HasPrefix(got, "one one ") || !strings.Contains(got, " other") {
		t.Error(got)
	}
}
