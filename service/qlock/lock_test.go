package qlock

import (
	"bytes"
	"errors"
	"fmt"
	"math/rand"
	"testing"
)

// sessionAt returns a session that has a number.
func sessionAt(number, epoch int) Session { return Session{byte(number + 1), byte(epoch)} }

// beside is a lock by the single calls, with the rules of rows written again: what the calls of a lock are compared with.
type beside struct {
	*Voter
	rows [MaxClients]RowShown
}

// mayHear returns whether a reply goes to the session that its number has.
func (b *beside) mayHear(line []byte) bool {
	var word string
	var from, to int
	var stamp uint64
	fmt.Sscan(string(line), &word, &from, &to, &stamp)
	if word == "inquire" {
		held, err := b.Held()
		if err != nil || held.Client != uint64(to) {
			return false
		}
		stamp = held.Stamp
	}
	return b.rows[to].IsHeld && stamp > b.rows[to].Base
}

func (b *beside) heard(lines []byte) (kept []byte) {
	for _, line := range bytes.SplitAfter(lines, []byte("\n")) {
		if len(line) > 0 && b.mayHear(line) {
			kept = append(kept, line...)
		}
	}
	return kept
}

// shown returns what a call of a lock has to show after a step.
func (b *beside) shown(t *testing.T, before *Voter, client int) LockShown {
	known, err := b.Knows(uint8(client))
	held, err2 := b.Held()
	if err != nil || err2 != nil {
		t.Fatal(err, err2)
	}
	return LockShown{IsTaken: true, MustSave: b.MustSave(before), Stamp: known.Stamp, Finished: known.Finished, Held: held}
}

// take takes a line by the single calls.
func (b *beside) take(t *testing.T, from Speaker, client int, word string, stamp uint64) ([]byte, LockShown, error) {
	row := b.rows[client]
	isHis := row.IsHeld && row.Session == from.Session && row.Epoch == from.Epoch
	switch word {
	case "request":
		isHis = isHis && stamp > row.Base && stamp <= row.Reserved
	case "release":
		isHis = isHis && stamp <= row.Reserved
	}
	if !isHis {
		return nil, LockShown{}, nil
	}
	before := *b.Voter
	lines, err := b.Take([]byte(fmt.Sprintf("%s %d 3 %d", word, client, stamp)), nil)
	if err != nil {
		return nil, LockShown{}, err
	}
	return b.heard(lines), b.shown(t, &before, client), nil
}

// A call of a lock does what the single calls do one after the other, and the rules of rows beside them.
func TestLockAsSingleCalls(t *testing.T) {
	random := rand.New(rand.NewSource(1))
	words := []string{"request", "request", "release", "relinquish"}
	spent := 0
	for run := 0; run < 40; run++ {
		one, err := NewVoter(3, 12)
		if err != nil {
			t.Fatal(err)
		}
		two := beside{Voter: new(Voter)}
		*two.Voter = *one
		var table Table
		taken, heard := 0, 0
		for step := 0; step < 400; step++ {
			client := random.Intn(4)
			switch kind := random.Intn(12); kind {
			case 0: // the number has another session, or nobody
				row := RowShown{Epoch: two.rows[client].Epoch + 1, Base: two.rows[client].Reserved, IsHeld: random.Intn(4) > 0}
				row.Reserved = row.Base + uint64(random.Intn(6))
				if row.IsHeld {
					row.Session = sessionAt(client, int(row.Epoch))
				}
				table.Put(client, row)
				two.rows[client] = row
			case 1:
				held, _ := one.Held()
				grant := held.Number + uint64(random.Intn(2))
				before := *two.Voter
				lines, err := two.Evict(grant, nil)
				got, shown, err2 := one.LetGo(&table, grant, uint8(client), nil)
				if err != err2 || err == nil && (!bytes.Equal(got, two.heard(lines)) || shown != two.shown(t, &before, client)) {
					t.Fatalf("let go: %q %+v %v", got, shown, err2)
				}
			case 2:
				lines, err := two.Remind(nil)
				got, err2 := one.RemindHolder(&table, nil)
				if err != nil || err2 != nil || !bytes.Equal(got, two.heard(lines)) {
					t.Fatalf("remind: %q, not %q: %v %v", got, two.heard(lines), err, err2)
				}
			default:
				row := two.rows[client]
				from := Speaker{Session: row.Session, Epoch: row.Epoch}
				if random.Intn(8) == 0 {
					from.Epoch--
				}
				if random.Intn(8) == 0 {
					from.Session[5]++
				}
				word, stamp := words[random.Intn(len(words))], row.Base+uint64(random.Intn(7))
				if random.Intn(6) == 0 && row.Base > 0 {
					stamp = 1 + uint64(random.Int63n(int64(row.Base))) // of an earlier session
				}
				if word == "relinquish" {
					held, _ := one.Held()
					stamp = held.Number
				}
				if stamp == 0 {
					stamp = 1
				}
				want, wantShown, err := two.take(t, from, client, word, stamp)
				got, shown, err2 := one.TakeFrom(&table, new(SinceStart), false, from, []byte(fmt.Sprintf("%s %d 3 %d", word, client, stamp)), nil)
				if !errors.Is(err2, err) || !bytes.Equal(got, want) || shown != wantShown {
					t.Fatalf("run %d, step %d, %s %d %d: %q %+v %v, not %q %+v %v", run, step, word, client, stamp, got, shown, err2, want, wantShown, err)
				}
				if shown.IsTaken {
					taken++
				}
				if len(got) > 0 {
					heard++
				}
				if errors.Is(err, GrantsSpent) {
					spent++
				}
			}
			if one.state != two.state {
				t.Fatalf("run %d, step %d: the states differ", run, step)
			}
		}
		if taken == 0 || heard == 0 {
			t.Fatalf("run %d: %d taken, %d heard", run, taken, heard)
		}
	}
	if spent == 0 {
		t.Error("no voter gave all its grants")
	}
}

// What is no voter, no message and no row is refused, and nothing is written.
func TestLockRefusals(t *testing.T) {
	voter, err := NewVoter(3, 10)
	if err != nil {
		t.Fatal(err)
	}
	var table, bad Table
	for i := range bad.rows {
		bad.rows[i] = 0xff
	}
	from := Speaker{Session: sessionAt(1, 1), Epoch: 1}
	before := *voter
	for what, call := range map[string]func() error{
		"no voter": func() error {
			_, _, err := new(Voter).TakeFrom(&table, new(SinceStart), false, from, []byte("request 1 3 5"), nil)
			return err
		},
		"no message": func() error {
			_, _, err := voter.TakeFrom(&table, new(SinceStart), false, from, []byte("request 1 2 5"), nil)
			return err
		},
		"no row": func() error {
			_, _, err := voter.TakeFrom(&bad, new(SinceStart), false, from, []byte("request 1 3 5"), nil)
			return err
		},
		"no client": func() error { _, _, err := voter.LetGo(&table, 1, 64, nil); return err },
	} {
		want := map[string]error{"no message": BadMessage, "no client": BadArgument}[what]
		if want == nil {
			want = BadState
		}
		if err := call(); !errors.Is(err, want) || *voter != before {
			t.Errorf("%s: %v", what, err)
		}
	}
	lines, shown, err := voter.TakeFrom(&table, new(SinceStart), false, from, []byte("request 1 3 5"), nil)
	if err != nil || shown != (LockShown{}) || len(lines) > 0 || *voter != before {
		t.Errorf("a number that nobody has: %q %+v %v", lines, shown, err)
	}
}

// A REQUEST and its RELEASE, by one call each and by the single calls of before.
func BenchmarkLine(b *testing.B) {
	shown := RowShown{Epoch: 1, Base: 0, Reserved: MaxStamp, IsHeld: true, Session: sessionAt(1, 1)}
	row, err := shown.Row()
	if err != nil {
		b.Fatal(err)
	}
	from := Speaker{Session: sessionAt(1, 1), Epoch: 1}
	line := func(word string, i int) []byte { return []byte(fmt.Sprintf("%s 1 3 %d", word, i+1)) }
	b.Run("one call", func(b *testing.B) {
		voter, _ := NewVoter(3, MaxStamp)
		var table Table
		table.Put(1, shown)
		room := make([]byte, 0, 1024)
		for i := 0; i < b.N; i++ {
			word := "request"
			if i%2 == 1 {
				word = "release"
			}
			if _, shown, err := voter.TakeFrom(&table, new(SinceStart), false, from, line(word, i/2), room[:0]); err != nil || !shown.IsTaken {
				b.Fatal(shown, err)
			}
		}
	})
	b.Run("single calls", func(b *testing.B) {
		voter, _ := NewVoter(3, MaxStamp)
		room := make([]byte, 0, 1024)
		var before Voter
		for i := 0; i < b.N; i++ {
			word := "request"
			if i%2 == 1 {
				word = "release"
			} else if takes, err := row.Takes(from.Session, 1, uint64(i/2+1)); err != nil || !takes {
				b.Fatal(takes, err)
			}
			before = *voter
			if _, err := voter.Take(line(word, i/2), room[:0]); err != nil {
				b.Fatal(err)
			}
			voter.MustSave(&before)
			_, _ = voter.Knows(1)
			_, _ = voter.Held()
		}
	})
}

// In the quiet time a REQUEST is put off, unless its client says that it is inside. A grant from before the start goes at the end, unless
// its client says so.
func TestQuietTime(t *testing.T) {
	for _, renews := range []bool{false, true} {
		var table Table
		sessions := [3]Speaker{}
		for number := range sessions {
			sessions[number] = Speaker{Session: Session{byte(number + 1)}, Epoch: 1}
			table.Put(number, RowShown{Epoch: 1, Reserved: 9, IsHeld: true, Session: sessions[number].Session})
		}
		voter, err := NewVoter(3, 9)
		if err != nil {
			t.Fatal(err)
		}
		none := new(SinceStart)
		if _, shown, err := voter.TakeFrom(&table, none, false, sessions[0], []byte("request 0 3 1"), nil); err != nil || shown.Held.Number != 1 {
			t.Fatal(shown, err)
		}
		if err := voter.Forget(); err != nil {
			t.Fatal(err)
		}
		since := NewSinceStart(1)
		stands := func(wantOld, wantAwaited bool) {
			t.Helper()
			if isOld, isAwaited, err := voter.Stands(since); err != nil || isOld != wantOld || isAwaited != wantAwaited {
				t.Errorf("renews %v: old %v, awaited %v, %v", renews, isOld, isAwaited, err)
			}
		}
		stands(true, false)
		if _, shown, err := voter.TakeFrom(&table, since, true, sessions[1], []byte("request 1 3 1"), nil); err != nil || !shown.IsPutOff || shown.IsTaken {
			t.Errorf("it is not put off: %+v, %v", shown, err)
		}
		inside := sessions[2]
		inside.Inside = true
		if _, shown, err := voter.TakeFrom(&table, since, true, inside, []byte("request 2 3 5"), nil); err != nil || !shown.IsTaken || shown.Stamp != 5 {
			t.Errorf("who is inside is put off: %+v, %v", shown, err)
		}
		stands(true, true)
		if renews {
			holder := sessions[0]
			holder.Inside = true
			if _, shown, err := voter.TakeFrom(&table, since, true, holder, []byte("request 0 3 1"), nil); err != nil || !shown.IsTaken {
				t.Errorf("the holder does not renew: %+v, %v", shown, err)
			}
			stands(false, true)
		}
		_, shown, err := voter.EndQuiet(&table, since, 0, nil)
		if want := map[bool]uint64{false: 2, true: 1}[renews]; err != nil || shown.Held.Number != want {
			t.Errorf("renews %v: %+v, %v", renews, shown, err)
		}
		stands(false, renews)
		// the vote is closed to others as long as somebody waits who said that he is inside
		if _, shown, err = voter.TakeFrom(&table, since, false, sessions[1], []byte("request 1 3 1"), nil); err != nil || shown.IsPutOff != renews {
			t.Errorf("renews %v: afterwards %+v, %v", renews, shown, err)
		}
		if err := since.Forget(2); err != nil {
			t.Error(err)
		}
		stands(false, false)
	}
	if err := new(SinceStart).Forget(64); !errors.Is(err, BadArgument) {
		t.Error(err)
	}
}
