package voter

import (
	"fmt"
	"io"
	"math/rand"
	"os"
	"path/filepath"
	"reflect"
	"testing"
	"time"

	"calvundek.example/service/internal/config"
	"calvundek.example/service/internal/event"
	"calvundek.example/service/internal/wire"
	"calvundek.example/service/qlock"
	"calvundek.example/service/transport"
)

// starter is a voter that a test starts again and again, at times of its own.
type starter struct {
	mail *post // where all is put that leaves
	*Daemon
	now     time.Time
	isEager bool // all its votes go on above the floor as it starts
}

// starters returns two voters with one state: of the first one a vote goes on above the floor as it is used, of the second one as it starts.
func starters(t *testing.T, seed int64) (both [2]*starter) {
	t.Helper()
	first, _ := alone(t, 100)
	first.store.disk.Close()
	text, err := os.ReadFile(file(first.own.Data))
	for i := range both {
		own := *first.own
		own.Data = filepath.Join(t.TempDir(), fmt.Sprint(i))
		if err == nil {
			err = os.MkdirAll(own.Data, 0o700)
		}
		if err == nil {
			err = os.WriteFile(file(own.Data), text, 0o600)
		}
		if err != nil {
			t.Fatal(err)
		}
		both[i] = &starter{now: time.Unix(1000, 0), isEager: i == 1}
		both[i].opens(t, &own, first.cluster, seed)
		for number := 1; number <= 3; number++ {
			both[i].says(number, fmt.Sprintf(". claim %d 1 1000\n", number))
		}
		both[i].commits(t)
	}
	return both
}

// opens opens the state of a voter that may give few grants at first, and starts it.
func (s *starter) opens(t *testing.T, own *config.Voter, cluster *config.Cluster, seed int64) {
	t.Helper()
	around := Surroundings{Now: func() time.Time { return s.now }, Random: rand.New(rand.NewSource(seed)), Block: 8}
	var err error
	s.mail = &post{}
	if s.Daemon, err = OpenIn(around, own, cluster, s.mail, event.To(io.Discard)); err != nil {
		t.Fatal(err)
	}
	if s.start(s.now); !s.join.done {
		t.Fatal("it waits for somebody")
	}
	if s.isEager {
		s.raisesAll()
	}
}

// raisesAll lets all votes go on at once.
func (s *starter) raisesAll() {
	for _, v := range s.votes {
		voter := new(qlock.Voter)
		readVoter(voter, v.packed)
		_ = voter.Extend(s.ceiling)
		_ = voter.Raise(s.floor)
		v.packed = shortOf(voter, nil)
		v.needs().skipped = greatest(v.number, s.floor)
	}
	s.raised = raised{}
}

// opensAgain ends a voter, or kills it, and starts it again. It is quiet then, or not.
func (s *starter) opensAgain(t *testing.T, seed int64, isKilled, isQuiet bool) {
	t.Helper()
	if !isKilled {
		if err := s.End(); err != nil {
			t.Fatal(err)
		}
	}
	s.store.disk.Close()
	if s.opens(t, s.own, s.cluster, seed); !isQuiet {
		s.leases.quiet = quiet{}
	}
}

// says lets the session of a number say lines.
func (s *starter) says(number int, lines string) {
	h := wire.Header{Cluster: "test", Coterie: s.mark, Kind: wire.FromClient, Number: number, Epoch: 1, Reserved: 1000,
		Name: fmt.Sprint("session-", number)}
	s.sort(transport.Message{Mailbox: wire.VoterBox("test", 0, "jobs"), Data: append(h.Append(nil), lines...)})
	s.work()
}

// commits saves what changed, and sends.
func (s *starter) commits(t *testing.T) {
	t.Helper()
	if err := s.commit(s.now); err != nil {
		t.Fatal(err)
	}
}

// does lets something happen to a vote by chance, and returns what that was.
func (s *starter) does(t *testing.T, random *rand.Rand, stamp int) string {
	t.Helper()
	lock, number := fmt.Sprint("lock-", random.Intn(6)), 1+random.Intn(3)
	v, held := s.votes[lock], qlock.Grant{}
	if v != nil {
		held = v.held()
	}
	holder := int(held.Client)
	switch what := random.Intn(20); {
	case what < 6:
		word := []string{"", inside, try}[random.Intn(3)]
		s.says(number, fmt.Sprintf("%s request %d 0 %d%s\n", lock, number, stamp, word))
		return "request" + word
	case what < 10:
		s.says(holder, fmt.Sprintf("%s release %d 0 %d\n", lock, holder, held.Stamp))
		return "release"
	case what < 12:
		s.says(holder, fmt.Sprintf(". turn %s %d %d %d\n", lock, held.Stamp, held.Number, s.ceiling-uint64(random.Intn(12))))
		return "turn"
	case what < 13:
		return fmt.Sprint("unlock ", s.unlock(lock, held.Number, "alice", s.now).LetGo)
	case what < 14 && v != nil && !v.isBusy() && !s.mustBeSaved(v):
		s.forgetVote(v)
		return "forget"
	case what < 18:
		s.now = s.now.Add(time.Duration(random.Intn(2000)) * time.Millisecond)
		s.round(s.now)
		return "round"
	}
	s.commits(t)
	return "commit"
}

// shows returns what others see of a voter and its votes: what it saves and saved, what leaves, and up to which numbers it gave grants.
func (s *starter) shows(t *testing.T) map[string]interface{} {
	t.Helper()
	out := map[string]string{}
	for session, lines := range s.out {
		out[session] = string(lines)
	}
	shown := map[string]interface{}{"out": out, "floor": s.floor, "ceiling": s.ceiling, "reach": s.reach, "most": s.m.most, "turns": len(s.skips),
		"old": len(s.old.all), "rows": s.rows(t), "sent": s.mail.sent}
	for name, v := range s.votes {
		isDirty, isSilent := s.draft.Has(v)
		shown[name] = []interface{}{v.held(), s.highestOf(v), s.view(v, s.now), v.isOld, v.isAwaited(), isDirty, isSilent, s.goesOn(v)}
	}
	return shown
}

// goesOn returns the state by which a vote goes on.
func (s *starter) goesOn(v *vote) (packed []byte) {
	v.look(func(voter *qlock.Voter) {
		raised := *voter
		if v.isRaised {
			s.raised.raise(&raised)
		}
		packed = pack(raised.State())
	})
	return packed
}

// rows returns the rows of votes as they are saved.
func (s *starter) rows(t *testing.T) map[string]string {
	t.Helper()
	saved := map[string]string{}
	if err := s.store.disk.View(func(rows Rows) error {
		return rows.Each(voteBucket, func(key, row []byte) error {
			saved[string(key)] = string(row)
			return nil
		})
	}); err != nil {
		t.Fatal(err)
	}
	return saved
}

// unraised returns how many votes are packed that go on above the floor when they are used.
func (s *starter) unraised() (count int) {
	for _, v := range s.votes {
		if v.isRaised && v.packed != "" {
			count++
		}
	}
	return count
}

// The first step of a vote after a start is saved, and with it above which numbers the vote goes on: also if the step changed nothing else,
// and if the vote was unpacked and packed again before.
func TestRaisedVotesAreSaved(t *testing.T) {
	d, _ := alone(t, 100)
	holds(t, d, 1, "lock", 2, time.Now())
	if err := d.save(); err != nil {
		t.Fatal(err)
	}
	again, now := reopened(t, d), time.Now()
	again.proved(again.votes["lock-000001"])
	now = again.packsAll(now)
	for i := 0; i < 2; i++ {
		v := again.votes[fmt.Sprintf("lock-%06d", i)]
		says(again, v, 1, fmt.Sprintf("request 1 0 %d", i+1), now)
		if err := again.save(); err != nil {
			t.Fatal(err)
		}
		var saved *qlock.Voter
		if err := again.store.disk.View(func(rows Rows) (err error) {
			saved, err = Saved{rows}.Vote(v.name)
			return err
		}); err != nil {
			t.Fatal(err)
		}
		if *saved != *v.extras.voter || saved.Raise(again.floor-1) == nil {
			t.Errorf("%s is saved as it was before the start", v.name)
		}
	}
}

// Votes go on above the floor as they are used. It seems to all others as if they did so as the voter starts: whatever is asked, saved, packed
// and forgotten, and however often the voter starts.
func TestVotesAreRaisedAsTheyAreUsed(t *testing.T) {
	counts := map[string]int{}
	for world := int64(1); world <= 16; world++ {
		both := starters(t, world)
		for step := 1; step < 150; step++ {
			seed := world<<32 + int64(step)
			var what [2]string
			counts["packed"] += both[0].unraised()
			for i, s := range both {
				if step%40 == 0 {
					s.opensAgain(t, seed, world%2 == 0, world%3 == 0)
				}
				what[i] = s.does(t, rand.New(rand.NewSource(seed)), step)
			}
			counts[what[0]]++
			got, want := both[0].shows(t), both[1].shows(t)
			for name := range want {
				if what[0] != what[1] || !reflect.DeepEqual(got[name], want[name]) {
					t.Fatalf("world %d, step %d, %v: %s is %v, and %v", world, step, what, name, got[name], want[name])
				}
			}
		}
		for _, s := range both {
			s.store.disk.Close()
		}
	}
	for _, what := range []string{"packed", "request", "request inside", "request try", "release", "turn", "unlock 1", "forget", "round", "commit"} {
		if counts[what] < 15 {
			t.Errorf("%d times %s: these runs show little", counts[what], what)
		}
	}
}
