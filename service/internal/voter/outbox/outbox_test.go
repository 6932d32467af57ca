package outbox

import (
	"errors"
	"fmt"
	"strings"
	"testing"
	"time"

	"calvundek.example/service/internal/wire"
	"calvundek.example/service/transport"
)

// state is what a voter saves, and a transport that sees whether all was saved when something leaves.
type state struct {
	must, may bool
	fails     bool
	saves     int
	rows      int // of the last save
	sent      []string
	loses     bool
}

func (s *state) MustSave() bool { return s.must }
func (s *state) MaySave() bool  { return s.may }

func (s *state) Save(rows map[int]struct{}) error {
	s.rows = len(rows)
	if s.fails {
		return errors.New("full")
	}
	s.must, s.may, s.saves = false, false, s.saves+1
	return nil
}

func (s *state) Listen(string) (<-chan transport.Message, error) { return nil, nil }

func (s *state) Send(box string, message []byte) error {
	s.sent = append(s.sent, fmt.Sprintf("%s %s unsaved=%v", box, message, s.must))
	if s.loses {
		return errors.New("away")
	}
	return nil
}

// What leaves is saved before, if it may depend on what changed. What nothing depends on waits, and not for long.
func TestSaveThenSend(t *testing.T) {
	now := time.Unix(1000, 0)
	var d Draft[int]
	s := &state{}
	sender := NewSender(s)
	commits := func() {
		t.Helper()
		saved, err := d.Commit(now, s)
		if err != nil {
			t.Fatal(err)
		}
		if lost := sender.Deliver(saved); lost != 0 {
			t.Fatal(lost)
		}
	}
	for i, one := range []struct {
		must, may, says bool
		after           time.Duration
		saves           int
	}{
		{false, false, false, 0, 0},
		{false, false, true, 0, 0}, // it says nothing of what is not saved
		{true, false, false, 0, 0}, // nothing leaves
		{true, false, true, 0, 1},
		{true, true, true, 0, 1},
		{false, true, true, 0, 0},
		{false, true, false, longest, 0},
		{false, true, false, longest + 1, 1},
		{true, false, false, longest + 1, 1},
		{false, false, true, 1000 * longest, 0},
	} {
		commits() // all is saved
		s.must, s.may, s.saves, s.sent = one.must, one.may, 0, nil
		now = now.Add(one.after)
		if one.says {
			d.Say("box", []byte(fmt.Sprint("message ", i)))
			d.Say("box", []byte("another"))
		}
		commits()
		want := map[bool]string{true: fmt.Sprintf("[box message %d unsaved=false box another unsaved=false]", i), false: "[]"}[one.says]
		if got := fmt.Sprint(s.sent); got != want || s.saves != one.saves {
			t.Errorf("%+v: %s leaves, %d saves", one, got, s.saves)
		}
		d.Hasten()
	}
	s.must, s.may, s.saves = false, true, 0
	commits()
	if d.Hasten(); s.may {
		commits()
	}
	if s.saves != 1 {
		t.Errorf("a voter that ends saves %d times", s.saves)
	}
}

// If a save fails nothing leaves, then or later.
func TestNothingLeavesUnsaved(t *testing.T) {
	var d Draft[int]
	s := &state{must: true, fails: true}
	d.Say("box", []byte("message"))
	saved, err := d.Commit(time.Unix(1000, 0), s)
	if NewSender(s).Deliver(saved); err == nil || len(s.sent) > 0 {
		t.Errorf("%v: %v leaves", err, s.sent)
	}
	s.fails = false
	if saved, err = d.Commit(time.Unix(1000, 0), s); err != nil || len(saved.letters) > 0 {
		t.Errorf("%v: %d messages leave later", err, len(saved.letters))
	}
}

// Messages that can't leave are counted. A marker goes to the voter itself, and to nobody else.
func TestMarker(t *testing.T) {
	var d Draft[int]
	s := &state{loses: true}
	d.Say("box", nil)
	d.Say("box", nil)
	saved, _ := d.Commit(time.Unix(1000, 0), s)
	sender := NewSender(s)
	if lost := sender.Deliver(saved); lost != 2 {
		t.Errorf("%d messages are lost", lost)
	}
	s.must = true
	err := sender.Marker(wire.Header{Cluster: "test", Coterie: "mark", Kind: wire.FromVoter, Number: 3, Name: "identity"}, ". marker 7\n")
	if last := s.sent[len(s.sent)-1]; err == nil || !strings.HasPrefix(last, "qlock.test.v.3.3 ") || !strings.Contains(last, "\n. marker 7\n") {
		t.Errorf("%v: %q", err, last)
	}
}

// A row that changed may wait, until something leaves that depends on it. It is saved once, with all others.
func TestRows(t *testing.T) {
	now := time.Unix(1000, 0)
	var d Draft[int]
	s := &state{}
	has := func(row int, must, may bool) {
		t.Helper()
		if a, b := d.Has(row); a != must || b != may {
			t.Errorf("row %d: must %v, may %v", row, a, b)
		}
	}
	commits := func(saves, rows int) {
		t.Helper()
		before := s.saves
		if _, err := d.Commit(now, s); err != nil || s.saves != before+saves || saves > 0 && s.rows != rows {
			t.Errorf("%d saves, the last one of %d rows, %v", s.saves-before, s.rows, err)
		}
	}
	commits(0, 0)
	d.May(1)
	d.Tells(2) // it did not change
	d.Say("box", nil)
	has(1, false, true)
	has(2, false, false)
	commits(0, 0) // what leaves depends on no row
	d.Tells(1)
	has(1, true, false)
	d.May(1)
	has(1, true, false)
	d.May(3)
	d.May(4)
	d.Must(4)
	d.Must(5)
	d.Forget(5)
	d.May(6)
	d.Forget(6)
	has(4, true, false)
	commits(0, 0) // nothing leaves
	d.Say("box", nil)
	commits(1, 3)
	for row := 1; row < 7; row++ {
		has(row, false, false)
	}
	d.May(7)
	now = now.Add(longest)
	commits(0, 0)
	now = now.Add(1)
	commits(1, 1)
}
