package locks

import (
	"fmt"
	"math/bits"
	"os"
	"strings"
	"testing"
	"time"

	"calvundek.example/service/internal/wire"
	"calvundek.example/service/internal/worlds"
)

// What one message may ask for at most: bytes of replies beside those that its own length pays for.
const mostReplies = 4 << 10

// scene is a client that has the lock "y", and waits for the lock "x" with one of two votes.
// Nothing comes but what a test hands it.
type scene struct {
	*Client
	call   *waiter
	asked  [2]*question // who has the lock "x", and which locks there are
	missed int          // the voter whose vote is missing
	marks  []wire.Header
}

func newScene(t *testing.T) *scene {
	t.Helper()
	w := worlds.New(t, worlds.Majority, 20*time.Second)
	s := &scene{Client: still(t, w), call: &waiter{got: make(chan *Held, 1), since: time.Now()}}
	first := &waiter{got: make(chan *Held, 1), since: time.Now()}
	if s.enqueue("y", first) != nil || !s.turns(func() bool { return len(first.got) > 0 }) {
		t.Fatal("there is no lock")
	}
	for i := range w.Owns {
		w.Stop(i)
	}
	if err := s.enqueue("x", s.call); err != nil {
		t.Fatal(err)
	}
	l := s.locks["x"]
	for v, p := range s.peers {
		s.marks = append(s.marks, wire.Header{Cluster: s.cluster.ID, Coterie: s.plan.mark, Kind: wire.FromVoter,
			Number: v, Name: p.identity, Run: p.run, Start: p.start})
	}
	one := bits.TrailingZeros64(l.shown.Quorum)
	s.missed = bits.TrailingZeros64(l.shown.Quorum &^ (1 << one))
	s.message(came(s.Client, one, s.says(one, s.locked("x", one))))
	if bits.OnesCount64(l.Votes()) != 1 {
		t.Fatalf("votes of %b", l.Votes())
	}
	s.flush()
	for i, kind := range []wire.AskKind{wire.AskWho, wire.AskNames} {
		s.asked[i] = newQuestion(kind, "x")
		s.asked[i].ID = uint64(i + 1)
		s.questions[s.asked[i].ID] = s.asked[i]
	}
	return s
}

// turns takes messages until something holds, and returns whether it does.
func (s *scene) turns(holds func() bool) bool { return turns(s.Client, 5*time.Second, holds) }

// locked returns the line by which a voter grants a lock.
func (s *scene) locked(name string, voter int) string {
	return fmt.Sprintf("%s locked %d %d %d 1 1\n", name, voter, s.header.Number, s.locks[name].shown.Stamp)
}

// says returns a message of a voter.
func (s *scene) says(voter int, lines string) []byte {
	return append(s.marks[voter].Append(nil), lines...)
}

// waits returns how many bytes wait to leave.
func (s *scene) waits() (total int) {
	for _, lines := range s.out {
		total += len(lines)
	}
	return total
}

// view is what one message may change only by the words of the right voter.
type view struct {
	number         int
	epoch, votes   uint64
	locks, handed  int
	sender, others [3]string // what is known of each voter, of the sender of a message apart
}

// view returns what a client knows, when a voter is about to speak, or did.
func (s *scene) view(sender int) view {
	v := view{number: s.header.Number, epoch: s.header.Epoch, locks: len(s.locks), handed: len(s.call.got)}
	if l := s.locks["x"]; l != nil {
		v.votes = l.Votes()
	}
	for i, p := range s.peers[:3] {
		known := &v.others
		if i == sender {
			known = &v.sender
		}
		known[i] = fmt.Sprint(p.identity, p.run, p.start, p.mark, s.leases.Of[i], s.stamps[i], p.requests, p.closed, p.noted,
			*s.asked[0].of(i), *s.asked[1].of(i), s.asked[0].said["x"][i], s.asked[1].said["x"][i])
	}
	return v
}

// Whatever one message says: it ends no session, as that takes a quorum. It brings no vote but the
// sender's, hands out no lock of which a vote is missing, and changes nothing that is known of
// another voter. It changes nothing at all if it is not of a voter of this cluster.
func FuzzReply(f *testing.F) {
	if _, err := os.Stat("/dev/shm"); err == nil {
		f.Setenv("TMPDIR", "/dev/shm") // three states are written for each scene
	}
	for voter := uint8(0); voter < 3; voter++ {
		for _, lines := range []string{"", ". taken 0 1\n", ". closed 0 1\n", ". opened 0 1 0 99999999 3 0\n",
			". opened 0 1 99999999 3 0\n", ". number 5 7 1\n", ". leaving\n", ". claimed 0 1 0 4096\n",
			". claimed 5 7 0 64\n. number 6 7 1\n. claimed 5 7 0 64\n. claimed 5 18446744073709551615 9 9\n", ". claimed 0 0 0 0\n",
			". refused 0 1\n", ". gone x 1\n", ". gone y 1\n", ". unknown 0 1\n", ". generation 9 000000000000 9\n", ". full x 1\n",
			". generation 1 abcdefabcdef 0\n. plan 1 dg== dg==\n", "x locked 0 0 1 1 1\n", "x inquire 0 0 1\n",
			"x failed 0 0 1\n", "z locked 0 0 9 9 9\n", "x y\n\n", ". noted\n", ". has 1 x 0 5 1 900 - m 1 r a\n", ". has 0 x 6 5 1 0 jobs\n",
			". has 2 x-1 0\n. has 2 x 4\n. listed 2 0 0\n", ". listed 2 0 77\n", ". has 1 y 0\n"} {
			f.Add(voter, uint8(0), lines)
			f.Add(voter, uint8(1), lines)
		}
		f.Add(voter, uint8(2), "x locked\n")
		f.Add(voter, uint8(3), ". gone x 1\n")
		f.Add(voter, uint8(4), ". gone x 1\n")
	}
	var s *scene
	f.Fuzz(func(t *testing.T, voter, how uint8, lines string) {
		if s == nil {
			s = newScene(t)
		}
		at, sender := s, int(voter)%3
		h := at.marks[sender]
		message, isForeign := append(h.Append(nil), at.filled(sender, how%5, lines)...), how%5 >= 3
		switch how % 5 {
		case 3:
			h.Cluster = "another"
			message = append(h.Append(nil), lines...)
		case 4:
			message = []byte(lines)
		}
		if !isForeign {
			s = nil // the next message meets a client that heard nothing yet
		}
		before := at.view(sender)
		at.message(came(at.Client, sender, message))
		after := at.view(sender)
		if at.why != nil {
			t.Fatalf("one message of voter %d ends the session: %v: %q", sender, at.why, message)
		}
		if after.epoch != before.epoch || after.number != before.number || after.others != before.others {
			t.Fatalf("%q: %+v, then %+v", message, before, after)
		}
		if won := after.votes &^ before.votes; won&^(1<<sender) != 0 || after.handed > 0 && sender != at.missed {
			t.Fatalf("%q: voter %d brings votes %b, and hands out %d locks", message, sender, won, after.handed)
		}
		for _, q := range at.asked {
			if at.isAnsweredBy(q, time.Now()) || len(q.said) > len(lines) {
				t.Fatalf("%q: one voter answers %+v", message, q)
			}
		}
		if at.waits() > mostReplies+4*len(message) || after.locks > before.locks+len(lines) {
			t.Fatalf("%d bytes leave for a message of %d, and %d locks are known", at.waits(), len(message),
				after.locks)
		}
		if isForeign && (after != before || at.waits() > 0) {
			t.Fatalf("a foreign message changes %+v to %+v", before, after)
		}
	})
}

// filled returns lines as a voter says them to this session: with its number, its epoch and the
// stamp of its request.
func (s *scene) filled(voter int, how uint8, lines string) string {
	if how != 1 && how != 2 {
		return lines
	}
	if how == 2 {
		return s.locked("x", voter) + lines
	}
	own := fmt.Sprintf("%d %d", s.header.Number, s.header.Epoch)
	replaced := ""
	for _, line := range strings.SplitAfter(lines, "\n") {
		var word string
		var a, b, stamp uint64
		n, _ := fmt.Sscanf(line, ". %s %d %d", &word, &a, &b)
		if rest := strings.TrimPrefix(line, ". "+word+" 0 1"); n == 3 && rest != line {
			line = ". " + word + " " + own + rest
		} else if n, _ := fmt.Sscanf(line, ". gone %s %d", &word, &stamp); n == 2 && s.locks[word] != nil {
			line = fmt.Sprintf(". gone %s %d\n", word, s.locks[word].shown.Stamp)
		}
		replaced += line
	}
	return replaced
}
