package voter

import (
	"bytes"
	"calvundek.example/service/qlock"
	"encoding/json"
	"fmt"
	"io"
	"os"
	"strings"
	"testing"
	"time"

	"calvundek.example/service/internal/event"
	"calvundek.example/service/internal/wire"
)

// reopened returns a voter that starts again from the state of one that was killed, and is not quiet.
func reopened(t *testing.T, d *Daemon) *Daemon {
	t.Helper()
	d.store.disk.Close()
	again, err := Open(d.own, d.cluster, &post{}, event.To(io.Discard))
	if err != nil {
		t.Fatal(err)
	}
	t.Cleanup(func() { again.store.disk.Close() })
	again.start(time.Now())
	again.leases.quiet = quiet{}
	return again
}

// A session's name is said to nobody, and is not stored. Its hash is, and nobody speaks by it.
func TestNameOfASessionIsSecret(t *testing.T) {
	d, _ := alone(t, 10)
	d.repliesTo("jobs", 1, ". claim 1 1 100\n")
	const name = "session-1"
	hash := hashed("jobs." + name)
	d.meet(wire.Header{Number: 1, Name: identity("other"), Start: 1}, word{Word: "start", Process: process("other")})
	letter, err := json.Marshal(d.letters[0].word)
	if err != nil {
		t.Fatal(err)
	}
	seen := map[string][]byte{"another voter": letter}
	for _, question := range []string{"sessions 0", "knows"} {
		seen[question] = written(d.obey(strings.Fields(question), "alice", time.Now()))
	}
	if err := d.save(); err != nil {
		t.Fatal(err)
	}
	if seen["the file"], err = os.ReadFile(file(d.own.Data)); err != nil {
		t.Fatal(err)
	}
	for who, text := range seen {
		if bytes.Contains(text, []byte(name)) || !bytes.Contains(text, []byte(hash)) {
			t.Errorf("%s does not see the hash alone", who)
		}
	}
	_, by, _ := strings.Cut(hash, ".")
	for _, one := range []*Daemon{d, reopened(t, d)} {
		if one.shard(0).judge(1, wire.SessionName("jobs", by), 1) != qlock.SessionOver || one.shard(0).judge(1, "jobs."+name, 1) != qlock.SessionKnown ||
			one.shard(0).judge(1, "web."+name, 1) != qlock.SessionOver {
			t.Error("another one is taken for the session")
		}
	}
}

// A line says how often grants of its session were let go when it was said, also if it leaves later: so no acknowledgement counts for a
// vote that was let go after it was told.
func TestLinesSayTheLapsesOfThen(t *testing.T) {
	d, _ := alone(t, 10)
	d.repliesTo("jobs", 1, ". claim 1 1 100\n")
	said := d.repliesTo("jobs", 1, "orders request 1 0 5\n")
	if !strings.Contains(said, "orders locked 0 1 5 ") {
		t.Fatalf("it is told %q", said)
	}
	d.out["jobs.session-1"] = []byte(said) // it did not leave yet
	carrier := d.posts()
	later := time.Now().Add(time.Minute)
	passes(&d.shard(0).table, later)
	if !d.expire(d.votes["orders"], later) {
		t.Fatal("the grant is not let go")
	}
	d.deliver()
	var told []string
	for _, message := range carrier.sent {
		h, lines, err := wire.Read(message)
		if err != nil {
			t.Fatal(err)
		}
		told = append(told, fmt.Sprintf("%d: %s", h.Lapses, lines))
	}
	if len(told) != 2 || !strings.HasPrefix(told[0], "0: orders locked 0 1 5 ") || !strings.Contains(told[1], "1: . gone orders 5\n") {
		t.Errorf("the messages are %q", told)
	}
}

// After a start a voter can write to no session that it did not hear since. A reminder repeats what it would have written.
func TestWhoWasNotHeardSinceTheStart(t *testing.T) {
	first, _ := alone(t, 10)
	first.repliesTo("jobs", 1, ". claim 1 1 100\n")
	first.repliesTo("jobs", 1, "orders request 1 0 5\n")
	first.shard(0).lapse(1)
	if err := first.save(); err != nil {
		t.Fatal(err)
	}
	d := reopened(t, first)
	d.repliesTo("web", 2, ". claim 2 1 100\n")
	d.repliesTo("web", 2, "orders request 2 0 3\n")
	if len(d.out) != 0 || d.shard(0).lapses("jobs.session-1") != 1 {
		t.Errorf("%d sessions are written to, and the lapses are %d", len(d.out), d.shard(0).lapses("jobs.session-1"))
	}
	if reply := d.repliesTo("jobs", 1, ". open 0\n"); !strings.Contains(reply, ". opened 1 1 ") {
		t.Errorf("the session: %q", reply)
	}
	d.round(time.Now().Add(2 * time.Second))
	if reply := string(d.out["jobs.session-1"]); !strings.Contains(reply, "orders inquire ") {
		t.Errorf("the reminder: %q", reply)
	}
}

// An older row has the session's name. It is read as its hash, in a state and in what another voter says. After the next
// save no row has the name.
func TestRowsWithNames(t *testing.T) {
	first, _ := alone(t, 10)
	row := []byte(`{"name":"jobs.session-1","epoch":1,"base":0,"reserved":100,"open":true,"used":true}`)
	err := first.store.update(first.store.saves, func(b *batch) error { return b.put(sessionBucket, []byte{1}, row) })
	if err != nil {
		t.Fatal(err)
	}
	d := reopened(t, first)
	if d.shard(0).judge(1, "jobs.session-1", 1) != qlock.SessionKnown {
		t.Errorf("the session is not known: %+v", d.shard(0).row(1))
	}
	if err := d.save(); err != nil {
		t.Fatal(err)
	}
	if err := d.store.disk.View(func(rows Rows) error {
		return each(rows, sessionBucket, func(_, value []byte) error {
			if bytes.Contains(value, []byte("session-1")) {
				t.Errorf("saved: %s", value)
			}
			return nil
		})
	}); err != nil {
		t.Fatal(err)
	}
	again := reopened(t, d)
	if len(again.leases.later) != 0 || again.shard(0).judge(1, "jobs.session-1", 1) != qlock.SessionKnown {
		t.Errorf("after a save: %+v", again.leases.later)
	}
	var theirs Knows
	if err := json.Unmarshal([]byte(`{"sessions":{"1":`+string(row)+`}}`), &theirs); err != nil {
		t.Fatal(err)
	}
	if again.learnAll(theirs, time.Now()); again.shard(0).judge(1, "jobs.session-1", 1) != qlock.SessionKnown {
		t.Errorf("a word of another voter ends the session: %+v", again.shard(0).row(1))
	}
}

// odd are names and hashes that are not made of a user and digits, or of digits that are not those of the shard 4711.
var odd = []string{"jobs.session-1", "a", "jobs.", ".x", "jobs.0123456789ABCDEF0123456789abcdef", "jobs.0123456789abcdef0123456789abcde",
	"jobs.0123456789abcdef0123456789abcdef0", "jobs.0123456789abcdef0123456789abcdeg", "jobs.4712-0123456789abcdef0123456789",
	"jobs.04711-0123456789abcdef0123456789", "jobs.4711-0123456789abcdef012345678", "jobs.4711-0123456789abcdef01234567890",
	"jobs.4711-0123456789abcdef012345678z", "jobs.-0123456789abcdef0123456789", "jobs.0123456789abcdef-0123456789abcde"}

// usual are such as nearly all are.
var usual = []string{"jobs.0123456789abcdef0123456789abcdef", "web.0123456789abcdef0123456789abcdef", "-.0123456789abcdef0123456789abcdee",
	"jobs.4711-0123456789abcdef0123456789", "web.4711-0123456789abcdef0123456789", "jobs.4711-0123456789abcdef0123456788",
	"jobs.0123456789abcdef0123456789000000", "jobs.00000000000000000000000000000000", "jobs.4711-00000000000000000000000000"}

// Whatever the name of a session is, it is kept as it was said, and nobody with another name speaks as the session. Usual names need no more
// than a seat has.
func TestNamesAreKeptAsTheyAre(t *testing.T) {
	table := tableAt(time.Unix(1000, 0))
	table.number = 4711
	all := append(append([]string{}, usual...), odd...)
	for i, name := range all {
		table.set(5, of(name, 1, 0, 10))
		if table.isHeard(5) || table.name(5) != "" || table.judge(5, name, 1) != qlock.SessionKnown {
			t.Errorf("%q was not heard: %q, %v", name, table.name(5), table.judge(5, name, 1))
		}
		table.named(5, name)
		if !table.isHeard(5) || table.name(5) != name || table.user(5) != userOf(name) || table.row(5).Hash != hashed(name) {
			t.Errorf("%q is %q, of %q, with the hash %q", name, table.name(5), table.user(5), table.row(5).Hash)
		}
		if isUsual := i < len(usual); isUsual != (table.rarities == nil) {
			t.Errorf("%q needs %+v", name, table.rare(5))
		}
		for _, other := range all {
			if isIt := table.judge(5, other, 1) == qlock.SessionKnown; isIt != (other == name) || isIt != table.isOf(5, table.called(other)) {
				t.Errorf("%q speaks as %q: %v", other, name, isIt)
			}
		}
		if table.isOf(5, table.called("")) {
			t.Errorf("%q is nobody", name)
		}
	}
}

// The hash in a row is kept as it was read, whatever it is. Two sessions have one name in proved rows only if they have one hash.
func TestHashesAreKeptAsTheyAre(t *testing.T) {
	table, seen := tableAt(time.Unix(1000, 0)), map[qlock.Session]string{}
	for _, hash := range append(append([]string{"", "x"}, usual...), odd...) {
		row := Session{Hash: hash, Epoch: 1, Open: true}
		if table.set(5, row); table.row(5) != row || !table.hasHash(5, hash) || table.hasHash(5, hash+"0") || table.user(5) != userOf(hash) {
			t.Errorf("%q is %q, of %q", hash, table.row(5).Hash, table.user(5))
		}
		session := table.owner(5)
		if before, is := seen[session]; is || session != sessionOf(hash) {
			t.Errorf("%q has the name of %q", hash, before)
		}
		seen[session] = hash
	}
	if table.set(5, Session{}); len(table.rolls) > 0 || table.rarities != nil {
		t.Errorf("of nobody stay %v and %+v", table.rolls, table.rare(5))
	}
}

// Of the session that a number had before nothing stays with the next one, also if that has the same epoch.
func TestNextSessionBeginsAnew(t *testing.T) {
	for _, names := range [][2]string{{usual[0], usual[7]}, {usual[0], usual[1]}, {odd[0], odd[1]}, {usual[3], odd[0]}, {odd[0], usual[3]}, {usual[0], ""}} {
		table := tableAt(time.Unix(1000, 0))
		table.set(5, of(names[0], 1, 0, 10))
		table.named(5, names[0])
		table.setNote(5, "a note")
		if table.saysProcess(5, "p"); table.noteOf(5) != "a note" || table.saidProcess(5) != "p" {
			t.Fatalf("%q, %q", table.noteOf(5), table.saidProcess(5))
		}
		table.brings(5, 7)
		next := of(names[1], 1, 0, 10)
		if names[1] == "" {
			next.Hash = ""
		}
		table.set(5, next)
		if table.isHeard(5) || table.name(5) != "" || table.noteOf(5) != "" || table.saidProcess(5) != "" || table.isBrought(5) || table.row(5) != next {
			t.Errorf("%q is behind %q, and has %q, %q, %q", names[1], names[0], table.name(5), table.noteOf(5), table.saidProcess(5))
		}
	}
}
