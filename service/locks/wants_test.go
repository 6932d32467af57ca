package locks

import (
	"context"
	"errors"
	"fmt"
	"strings"
	"sync"
	"testing"
	"time"

	"calvundek.example/service/internal/claims"
	"calvundek.example/service/internal/wire"
	"calvundek.example/service/internal/worlds"
	"calvundek.example/service/qlock"
	"calvundek.example/service/transport"
)

// spoken counts what clients say to voters: messages, and those with some words.
type spoken struct {
	mutex sync.Mutex
	count map[string]int
}

// spy counts from now on.
func spy(w *worlds.World, words ...string) *spoken {
	seen := &spoken{count: map[string]int{}}
	w.Bus.Watch(func(mailbox string, message []byte) {
		if !strings.HasPrefix(mailbox, "qlock.test.v.") || !strings.HasSuffix(mailbox, "."+wire.NoUser) {
			return
		}
		seen.mutex.Lock()
		defer seen.mutex.Unlock()
		seen.count[""]++
		for _, word := range words {
			if strings.Contains(string(message), word) {
				seen.count[word]++
			}
		}
	})
	return seen
}

// of returns how many messages had a word.
func (s *spoken) of(word string) int {
	s.mutex.Lock()
	defer s.mutex.Unlock()
	return s.count[word]
}

// A session has a number after one message to each voter, and its first stamps with it. With voters of an older program it takes a claim
// besides.
func TestNumberInOneTrip(t *testing.T) {
	w := worlds.New(t, worlds.Majority, 10*time.Second)
	opens := func() *Client {
		c, err := newClient(w.Cluster, Config{Transport: w.Bus.Port()})
		if err == nil {
			c.messages, err = c.carrier.Listen(c.boxes())
		}
		if err == nil {
			err = c.begin(within(t, 10*time.Second))
		}
		if err != nil {
			t.Fatal(err)
		}
		return c
	}
	seen := spy(w, ". want 64\n. hello\n", ". claim ")
	c := opens()
	if seen.of("") != 3 || seen.of(". want 64\n. hello\n") != 3 || !c.hasQuorum(c.owners(c.used+1)) {
		t.Errorf("%v, voters %b", seen.count, c.owners(c.used+1))
	}
	w.Bus.Without("want")
	seen = spy(w, ". claim ")
	if c := opens(); seen.of("") != 6 || seen.of(". claim ") != 3 || !c.hasQuorum(c.owners(c.used+1)) {
		t.Errorf("with older voters: %v, voters %b", seen.count, c.owners(c.used+1))
	}
}

// The first lock of a shard needs a message for the number and one for the lock to each voter that is asked, and no claim.
func TestFirstLockOfAShardInTwoTrips(t *testing.T) {
	w := newShards(t, 4, 10*time.Second)
	c := startWith(t, w, Config{})
	seen, name := spy(w, ". claim ", ". want 64 "), nameIn(w, 2)
	held := take(t, c, name)
	if wants := seen.of(". want 64 "); wants != 3 {
		t.Errorf("%d wants", wants)
	}
	soon(t, "the session is not open everywhere", func() bool { return readers(c) == 3 })
	if claims := seen.of(". claim "); claims > 1 { // of a voter that was late
		t.Errorf("%d claims", claims)
	}
	if err := held.Unlock(); err != nil {
		t.Error(err)
	}
}

// word is what a voter says.
type word struct {
	voter int
	lines string
}

// newcomer returns a client without a number, under whose name these claims were made, and a function that returns what it said to each
// voter since the last call.
func newcomer(t *testing.T, own *claims.Numbers) (*table, func() [3]string) {
	t.Helper()
	c := alone(t)
	c.header.Number, c.header.Epoch, c.asked, c.opening, c.left, c.claims = 0, 0, -1, true, 0, own
	return c, func() (said [3]string) {
		c.flush()
		for v, box := range c.boxes {
			for len(box) > 0 {
				_, lines, _ := wire.Read((<-box).Data)
				said[v] += string(lines)
			}
		}
		return said
	}
}

// hearsOf lets words of voters come to the client, in this order.
func (c *table) hearsOf(words ...word) {
	var messages []transport.Message
	for _, one := range words {
		messages = append(messages, c.word(one.voter, one.lines))
	}
	c.hearsThen(messages...)
}

// numbers are the lines of a reply to hello: of one number this epoch and state, and all others are new, in a state.
func numbers(number int, epoch uint64, state, others int) string {
	var lines strings.Builder
	for i := 0; i < qlock.MaxClients; i++ {
		if i == number {
			fmt.Fprintf(&lines, ". number %d %d %d\n", i, epoch, state)
		} else {
			fmt.Fprintf(&lines, ". number %d 0 %d\n", i, others)
		}
	}
	return lines.String()
}

// brings is a reply to a want: a number under an epoch, and that all others are free.
func brings(number int, epoch uint64) string {
	mine := fmt.Sprintf(". number %d 0 1\n", number)
	return fmt.Sprintf(". claimed %d %d 0 64\n", number, epoch) + strings.Replace(numbers(-1, 0, 0, 1), mine, "", 1)
}

const wantsOne = ". want 64\n. hello\n"

// Two voters of three chose one number under one epoch: it is the session's, and nothing else is said. What the third one chose is given
// back once it says so, and once more if it says so again; that it accepts the number counts, too.
func TestVotersAgree(t *testing.T) {
	c, said := newcomer(t, claims.New())
	c.hearsOf(word{1, brings(7, 5)}, word{0, brings(7, 5)})
	if err := c.begin(within(t, time.Second)); err != nil || c.header.Number != 7 || c.header.Epoch != 5 || c.used != 0 {
		t.Fatalf("number %d, epoch %d, %v", c.header.Number, c.header.Epoch, err)
	}
	if got := said(); got != [3]string{wantsOne, wantsOne, wantsOne} {
		t.Errorf("%q", got)
	}
	c.says(2, brings(9, 2))
	if got := said(); got != [3]string{"", "", ". drop 9 2\n"} || c.claims[9].Shows().Epoch != 0 || c.claims[9].Shows().Newest != 2 {
		t.Errorf("%q, %+v", got, c.claims[9].Shows())
	}
	c.says(2, brings(9, 2))
	if got := said(); got != [3]string{"", "", ". want 0\n"} {
		t.Errorf("again: %q", got)
	}
	c.says(2, ". claimed 7 4 0 64\n")
	c.says(2, ". claimed 7 6 0 64\n")
	if got := said(); got != [3]string{} || c.claims[7].Shows().Epoch != 5 {
		t.Errorf("another epoch of the number that it has: %q", got)
	}
	if c.says(2, ". claimed 7 5 0 64\n"); c.claims[7].Shows().Accepted != 7 || c.mayAsk(7, 1) == false {
		t.Errorf("%+v", c.claims[7].Shows())
	}
}

// The session begins above all bases that came with its number.
func TestBroughtNumberBeginsAboveItsBases(t *testing.T) {
	c, _ := newcomer(t, claims.New())
	c.hearsOf(word{0, ". claimed 7 5 40 104\n" + numbers(-1, 0, 0, 1)}, word{1, ". claimed 7 5 60 124\n" + numbers(-1, 0, 0, 1)})
	if err := c.begin(within(t, time.Second)); err != nil || c.used != 60 || c.header.Reserved != 60+firstBlock || c.mayAsk(3, 60) || !c.mayAsk(3, 61) {
		t.Errorf("above %d, up to %d, %v", c.used, c.header.Reserved, err)
	}
	c, _ = newcomer(t, claims.New())
	beyond := fmt.Sprintf(". claimed 7 5 %d %d\n", uint64(qlock.MaxStamp)+1, uint64(qlock.MaxStamp)+9) + numbers(-1, 0, 0, 1)
	c.hearsOf(word{0, beyond}, word{1, beyond})
	if err := c.choose(within(t, time.Second)); err != nil || c.isAccepted() {
		t.Errorf("a base beyond all stamps: %+v, %v", c.claims[c.asked].Shows(), err)
	}
}

// Where voters do not agree the session claims the number that most chose, under the greatest epoch, and gives the others back before.
func TestVotersDisagree(t *testing.T) {
	for what, one := range map[string]struct {
		words []word
		asked int
		epoch uint64
		said  [3]string
	}{
		"two epochs of a number": {[]word{{0, brings(7, 5)}, {1, brings(7, 3)}}, 7, 5, [3]string{"", ". drop 7 3\n", ""}},
		"the number that one alone chose, where the other one has it as taken": {[]word{{0, brings(7, 5)},
			{1, ". claimed 8 2 0 64\n" + numbers(7, 4, 0, 1)}}, 8, 2, [3]string{". drop 7 5\n", "", ""}},
		"a voter of an older program": {[]word{{0, brings(7, 5)}, {1, numbers(7, 4, 1, 1)}}, 7, 5, [3]string{}},
		"one that saw a later epoch":  {[]word{{0, brings(7, 5)}, {1, numbers(7, 8, 1, 1)}}, 7, 9, [3]string{". drop 7 5\n", "", ""}},
		"one that saw the same epoch": {[]word{{0, brings(7, 5)}, {1, numbers(7, 5, 2, 1)}}, 7, 6, [3]string{". drop 7 5\n", "", ""}},
	} {
		c, said := newcomer(t, claims.New())
		c.hearsOf(one.words...)
		if err := c.choose(within(t, time.Second)); err != nil || c.asked != one.asked {
			t.Errorf("%s: number %d, %v", what, c.asked, err)
			continue
		}
		if got := said(); got != [3]string{wantsOne + one.said[0], wantsOne + one.said[1], wantsOne + one.said[2]} {
			t.Errorf("%s: it gives back %q", what, got)
		}
		claim := fmt.Sprintf(". claim %d %d 64\n", one.asked, one.epoch)
		claimed := fmt.Sprintf(". claimed %d %d 0 64\n", one.asked, one.epoch)
		c.hearsOf(word{0, claimed}, word{2, claimed})
		if err := c.claim(within(t, time.Second)); err != nil || !c.isAccepted() || c.claimed() != one.epoch {
			t.Errorf("%s: %+v, %v", what, c.claims[c.asked].Shows(), err)
		}
		if got := said(); got != [3]string{claim, claim, claim} {
			t.Errorf("%s: %q", what, got)
		}
	}
}

// What is given back leaves in front of the claim, in one message.
func TestGivenBackBeforeTheClaim(t *testing.T) {
	c, said := newcomer(t, claims.New())
	claimed := ". claimed 7 5 0 64\n"
	c.hearsOf(word{0, brings(7, 5)}, word{1, brings(7, 3)}, word{0, claimed}, word{2, claimed})
	if err := c.begin(within(t, time.Second)); err != nil || c.header.Number != 7 || c.header.Epoch != 5 {
		t.Fatalf("number %d, epoch %d, %v", c.header.Number, c.header.Epoch, err)
	}
	if got := said(); got != [3]string{wantsOne + ". claim 7 5 64\n", wantsOne + ". drop 7 3\n. claim 7 5 64\n", wantsOne + ". claim 7 5 64\n"} {
		t.Errorf("%q", got)
	}
}

// Most of five voters chose one number, and no quorum did: it is claimed, and not what fewer chose.
func TestMostVotersChoose(t *testing.T) {
	c, _ := newcomer(t, claims.New())
	for v, number := range map[int]int{0: 9, 1: 7, 2: 7} {
		c.states[number], c.peers[v].brought = 1, brought{number: number, epoch: 1, reserved: 64}
	}
	c.peers[1].brought.epoch = 2
	if c.mostBrought() != 7 {
		t.Errorf("it is %d", c.mostBrought())
	}
	if c.failed = 7; c.mostBrought() != 9 {
		t.Errorf("after a claim of 7 failed it is %d", c.mostBrought())
	}
	if c.states[9] = 0; c.mostBrought() != -1 {
		t.Errorf("9 is taken, and it is %d", c.mostBrought())
	}
}

// A voter has a number as this session's by a claim that it took back, and did not hear so: that is none, and the number is taken there.
func TestTakenBackNumberIsNotTaken(t *testing.T) {
	own := claims.New()
	own[7].Sees(4)
	own[7].Next() // 5
	own[7].GivesUp()
	c, said := newcomer(t, own)
	c.hearsOf(word{0, brings(7, 5)}, word{1, brings(7, 5)})
	if err := c.choose(within(t, time.Second)); err != nil || c.isAccepted() || c.asked == 7 {
		t.Errorf("number %d, %+v, %v", c.asked, own[7].Shows(), err)
	}
	if got := said(); got != [3]string{wantsOne + ". want 0\n", wantsOne + ". want 0\n", wantsOne} {
		t.Errorf("%q", got)
	}
}

// A number of a voter is no number: the session waits for one, or gives up, where others have none, and gives it back.
func TestNoNumberIsLeft(t *testing.T) {
	c, said := newcomer(t, claims.New())
	c.config.DontWait = true
	c.hearsOf(word{0, brings(7, 5)}, word{1, numbers(-1, 0, 0, 0)})
	if err := c.begin(within(t, time.Second)); !errors.Is(err, ErrNumbers) {
		t.Error(err)
	}
	if got := said(); got != [3]string{wantsOne + ". drop 7 5\n. want 0\n", wantsOne + ". want 0\n", wantsOne + ". want 0\n"} || c.claimed() != 0 {
		t.Errorf("%q", got)
	}
}

// Who gives up before enough voters replied gives back what he heard of, and lets voters end what he did not. Under the name he has
// claimed and taken back what he heard of: he never takes that.
func TestContextEndsBeforeANumber(t *testing.T) {
	own := claims.New()
	c, said := newcomer(t, own)
	c.hearsOf(word{0, brings(7, 5)})
	if err := c.begin(within(t, 50*time.Millisecond)); !errors.Is(err, ErrNoQuorum) || !errors.Is(err, context.DeadlineExceeded) {
		t.Error(err)
	}
	if got := said(); got != [3]string{wantsOne + ". drop 7 5\n. want 0\n", wantsOne + ". want 0\n", wantsOne + ". want 0\n"} || own[7].Shows().Newest != 5 {
		t.Errorf("%q, %+v", got, own[7].Shows())
	}
	c, _ = newcomer(t, own)
	c.hearsOf(word{0, brings(7, 5)}, word{1, brings(7, 5)})
	if err := c.choose(within(t, time.Second)); err != nil || c.isAccepted() || c.asked == 7 {
		t.Errorf("the next try goes on by it: %+v, %v", own[7].Shows(), err)
	}
}

// A voter that was made again after its reply forgot what it chose.
func TestVoterIsMadeAgainBeforeANumberIsTaken(t *testing.T) {
	c, _ := newcomer(t, claims.New())
	c.choosing = true
	for v := 0; v < 2; v++ {
		c.says(v, brings(7, 5))
	}
	p := &c.peers[0]
	c.recognise(wire.Header{Number: 0, Name: "another", Run: p.run + 1, Start: 1})
	if c.takesBrought() {
		t.Error("its choice counts")
	}
}

// A reply to the first want acknowledges that, and so the number may be used at once. If the first want of the name left long ago, it is not
// known which one the reply is to.
func TestBroughtNumberIsAcknowledged(t *testing.T) {
	for _, ago := range []time.Duration{0, 6 * time.Second} { // of a TTL of 20 s
		c, _ := newcomer(t, claims.New())
		c.left = uptime() - ago
		c.choosing = true
		if c.says(0, brings(7, 5)); c.peers[0].answers != (ago == 0) || isLeased(c.Client, 0) != (ago == 0) {
			t.Errorf("after %v: acknowledged, %v", ago, c.peers[0].answers)
		}
	}
	c, _ := newcomer(t, claims.New())
	c.left = uptime() - 2*time.Second
	_ = c.choose(within(t, 0))
	if ago := uptime() - c.left; ago < 2*time.Second {
		t.Errorf("the first want left %v ago", ago)
	}
}

// Each round of a name has a SEQ of its own, also in the next try: a late word of a round before gives nothing back that came since.
func TestRoundsOfAName(t *testing.T) {
	w := newShards(t, 2, 5*time.Second)
	c := startWith(t, w, Config{})
	for v := 0; v < 3; v++ {
		w.Kill(v)
	}
	var mutex sync.Mutex
	try, tries := 0, [2]map[uint64]bool{{}, {}} // a word that is repeated has the SEQ of its round
	w.Bus.Watch(func(mailbox string, message []byte) {
		mutex.Lock()
		defer mutex.Unlock()
		if h, lines, err := wire.Read(message); err == nil && strings.HasSuffix(mailbox, ".0."+wire.NoUser) && strings.Contains(string(lines), ". want 64 ") {
			tries[try][h.Seq] = true
		}
	})
	lefts := map[time.Duration]bool{}
	for i := range tries {
		mutex.Lock()
		try = i
		mutex.Unlock()
		if _, err := c.Lock(within(t, 50*time.Millisecond), nameIn(w, 0)); err == nil {
			t.Fatal("there are no voters")
		}
		lefts[c.shards.part(0).left] = true
	}
	mutex.Lock()
	defer mutex.Unlock()
	var last [2]uint64
	for i, seqs := range tries {
		for seq := range seqs {
			if last[i] = seq; len(seqs) != 1 {
				t.Errorf("a round has the SEQs %v", seqs)
			}
		}
	}
	if last[0] == 0 || last[1] <= last[0] || len(lefts) != 1 {
		t.Errorf("%v, %v", last, lefts)
	}
}

// What voters chose besides the number that the session takes is given back, older epochs first: so all are given back. Of the number itself
// it says nothing.
func TestOthersAreGivenBack(t *testing.T) {
	choices := func(all ...brought) (*table, func() [3]string) {
		c, said := newcomer(t, claims.New())
		for v, one := range all {
			c.peers[v].brought = one
		}
		for number := range c.states {
			c.states[number] = 1
		}
		return c, said
	}
	seven := brought{number: 7, epoch: 5, reserved: 64}
	c, said := choices(seven, seven, brought{number: 9, epoch: 2, reserved: 64})
	if is := c.takesBrought(); !is || c.claimed() != 5 || said() != [3]string{"", "", ". drop 9 2\n"} {
		t.Errorf("another number: %+v", c.claims[7].Shows())
	}
	c, said = choices(seven, seven, brought{number: 7, epoch: 6, reserved: 64})
	if is := c.takesBrought(); !is || c.claimed() != 5 || said() != [3]string{} {
		t.Errorf("a later epoch: %+v", c.claims[7].Shows())
	}
	c, said = choices(seven, brought{number: 7, epoch: 3, reserved: 64}, brought{number: 7, epoch: 4, reserved: 64})
	c.seen[7] = 9
	if got := said(); !c.pick() || c.asked != 7 || c.claims[7].Shows().Newest != 9 || got != [3]string{} {
		t.Errorf("%d, %+v", c.asked, c.claims[7].Shows())
	}
	if got := said(); got != [3]string{". drop 7 5\n", ". drop 7 3\n", ". drop 7 4\n"} {
		t.Errorf("%q", got)
	}
}

// A voter may say its choice again, and with more stamps. If it says another one, the one before is given back.
func TestChoiceIsSaidAgain(t *testing.T) {
	c, said := newcomer(t, claims.New())
	c.choosing = true
	c.says(0, brings(7, 5))
	if c.says(0, ". claimed 7 5 0 128\n"); c.peers[0].brought.reserved != 128 || c.claims[7].Shows().Newest != 0 || said() != [3]string{} {
		t.Errorf("%+v, %+v", c.peers[0].brought, c.claims[7].Shows())
	}
	if c.says(0, brings(8, 1)); c.peers[0].brought.number != 8 || said() != [3]string{". drop 7 5\n", "", ""} {
		t.Errorf("%+v", c.peers[0].brought)
	}
}
