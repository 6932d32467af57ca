package qlock_test

import (
	"errors"
	"testing"

	"calvundek.example/service/qlock"
)

// A voter keeps a process that starts, refuses others in its place and older ones, and keeps the greater ceiling.
func TestPeer(t *testing.T) {
	one, other := qlock.Identity{1}, qlock.Identity{15: 2}
	first := qlock.Peer{Identity: one, Start: 3, Process: 7, Ceiling: 100, Ended: 5}
	for i, row := range []struct {
		known, now, next qlock.Peer
		err              error
	}{
		{qlock.Peer{}, first, first, nil},
		{first, qlock.Peer{Identity: one, Start: 3, Process: 7}, first, nil},
		{first, qlock.Peer{Identity: one, Start: 3, Process: 8}, first, qlock.Older},
		{first, qlock.Peer{Identity: one, Start: 4, Process: 7, Ceiling: 9}, qlock.Peer{Identity: one, Start: 4, Process: 7, Ceiling: 100}, nil},
		{first, qlock.Peer{Identity: other, Start: 9, Process: 9}, first, qlock.Place},
		{first, qlock.Peer{Identity: other, Run: 1, Start: 1, Process: 9}, qlock.Peer{Identity: other, Run: 1, Start: 1, Process: 9, Ceiling: 100}, nil},
	} {
		if next, err := row.known.Meets(row.now); next != row.next || !errors.Is(err, row.err) {
			t.Errorf("row %d: %+v, %v", i, next, err)
		}
	}
	if later := first.Later(qlock.Peer{Identity: one, Start: 2, Ceiling: 300}); later.Start != 3 || later.Ceiling != 300 {
		t.Errorf("the later one: %+v", later)
	}
	if ended := first.EndedWith(one, 3, 8); ended.Ended != 8 || !ended.IsClean(one, 8) || ended.IsClean(one, 7) || ended.IsClean(other, 8) {
		t.Errorf("ended: %+v", ended)
	}
	if first.EndedWith(other, 3, 8) != first || first.EndedWith(one, 4, 8) != first {
		t.Error("another one ended")
	}
}

// A process asks for a ceiling once so many answered, serves above all that is known, and asks for the next one in time.
func TestStart(t *testing.T) {
	s := qlock.NewStart(100, 64)
	if err := s.Hears(1, 500, false); err != nil {
		t.Fatal(err)
	}
	for _, patient := range []bool{false, true} {
		s.Begins(qlock.Answers{Others: 6, HaveSilentQuorum: true, HaveQuorums: true, IsPatient: patient})
		if shown := s.Shows(); shown.Asked > 0 != patient || patient && (shown.Asked != 564 || shown.Floor != 500) {
			t.Fatalf("%+v", shown)
		}
	}
	if err := s.IsKeptBy(1, 564, false, 0); err != nil {
		t.Fatal(err)
	}
	if err := s.IsKeptBy(2, 564, true, 900); err != nil {
		t.Fatal(err)
	}
	if turn := s.Turns(false); turn != qlock.Waits {
		t.Errorf("too few voters: turn %d", turn)
	}
	if turn := s.Turns(true); turn != qlock.AsksAgain {
		t.Errorf("a higher ceiling: turn %d", turn)
	}
	if shown := s.Shows(); shown.Floor != 900 || shown.Asked != 1028 || shown.Kept != 0 || shown.Counted != 6 || shown.Answered != 2 {
		t.Fatalf("%+v", shown)
	}
	if err := s.IsKeptBy(1, 564, false, 0); err != nil || s.Shows().Kept != 0 {
		t.Errorf("a ceiling that was asked for before: %v, %+v", err, s.Shows())
	}
	if turn := s.Turns(true); turn != qlock.ServesQuietly {
		t.Errorf("turn %d", turn)
	}
	if s.Needs(964); s.Shows().IsWaiting() {
		t.Error("it asks before half is used")
	}
	if s.Needs(965); s.Shows().Asked != 1028+256 || s.Shows().Floor != 900 {
		t.Errorf("%+v", s.Shows())
	}
	if turn := s.Turns(true); turn != qlock.Raises || s.Shows().Ceiling != 1284 {
		t.Errorf("turn %d, %+v", turn, s.Shows())
	}
	if err := s.Hears(64, 1, false); !errors.Is(err, qlock.BadArgument) {
		t.Errorf("voter 64: %v", err)
	}
	anew := qlock.NewStart(0, 64)
	anew.Begins(qlock.Answers{})
	if turn := anew.Turns(true); turn != qlock.Serves {
		t.Errorf("a new voter: turn %d", turn)
	}
}
