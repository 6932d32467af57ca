package voter

import (
	"encoding/json"
	"fmt"
	"testing"
	"time"

	"calvundek.example/service/qlock"
)

// same returns two voters that have the same rows and floors of some shards.
func same(t *testing.T, shards int) (one, other *Daemon) {
	t.Helper()
	one, _ = sharded(t, shards)
	other, _ = sharded(t, shards)
	for _, d := range []*Daemon{one, other} {
		for shard := 1; shard < shards; shard += 2 {
			for number := 3; number < 6; number++ {
				d.shard(shard).set(number, of(fmt.Sprint("jobs.", shard, "-", number), uint64(number), 5, 70))
			}
			d.floors[shard+1] = Floor{Stamp: 7, Epochs: []uint64{0, uint64(shard)}}
		}
	}
	return one, other
}

// tells returns what a voter tells one that asks with sums, by one question after the other, and how many these are.
func tells(t *testing.T, asked, asks *Daemon) (sessions, floors, questions int) {
	t.Helper()
	for from := 0; ; questions++ {
		told := asked.knows(from, asks.sums(from))
		sessions, floors = sessions+len(told.Sessions), floors+len(told.Floors)
		if told.Next == 0 {
			return sessions, floors, questions + 1
		}
		if told.Next <= from {
			t.Fatalf("behind %d comes %d", from, told.Next)
		}
		from = told.Next
	}
}

// A voter that asks hears of the shards alone of which the other one has something else, whatever that is. What only the other one counts is
// nothing else.
func TestSumsTellWhatDiffers(t *testing.T) {
	one, other := same(t, 16)
	first, _, _ := tells(t, one, other) // the number that each of them has in the first shard is of another session
	if sessions, floors, _ := tells(t, one, other); sessions != first || first > 1 || floors != 0 {
		t.Fatalf("%d sessions and %d floors are told", sessions, floors)
	}
	for name, change := range map[string]func(row *Session){
		"session":  func(row *Session) { row.Hash = "jobs.another" },
		"epoch":    func(row *Session) { row.Epoch++ },
		"base":     func(row *Session) { row.Base++ },
		"reserved": func(row *Session) { row.Reserved++ },
		"open":     func(row *Session) { row.Open = !row.Open },
		"used":     func(row *Session) { row.Used = !row.Used },
		"dropped":  func(row *Session) { row.Dropped = !row.Dropped },
	} {
		before := one.shard(5).row(4)
		row := before
		change(&row)
		one.shard(5).set(4, row)
		if sessions, _, _ := tells(t, one, other); sessions != first+3 {
			t.Errorf("another %s: %d sessions are told", name, sessions-first)
		}
		one.shard(5).set(4, before)
	}
	row := one.shard(5).row(4)
	row.Lapses++
	one.shard(5).set(4, row)
	if sessions, _, _ := tells(t, one, other); sessions != first {
		t.Error("the lapses of one voter are told to another one")
	}
	one.shard(5).set(9, of("jobs.new", 1, 0, 64))
	if sessions, _, _ := tells(t, one, other); sessions != first+4 {
		t.Error("a new number is not told")
	}
	for _, floor := range []Floor{{Stamp: 8, Epochs: []uint64{0, 5}}, {Stamp: 7, Epochs: []uint64{0, 6}}, {Stamp: 7, Epochs: []uint64{5}}} {
		one.floors[6] = floor
		if _, floors, _ := tells(t, one, other); floors != 1 {
			t.Errorf("%+v is not told", floor)
		}
	}
	delete(other.floors, 6)
	if _, floors, _ := tells(t, one, other); floors != 1 {
		t.Error("a floor is not told to who has none")
	}
}

// Who asks with no sums, as an older program does, hears all. With those of a part of the shards it hears of these, and asks for the others.
func TestQuestionsWithSums(t *testing.T) {
	one, other := same(t, 4*mostSummed)
	rows := 0
	for from := 0; ; {
		told := one.knows(from, nil)
		if rows += len(told.Sessions); told.Next == 0 {
			break
		}
		from = told.Next
	}
	if rows < 3*2*mostSummed {
		t.Fatalf("%d rows are told", rows)
	}
	if sessions, _, questions := tells(t, one, other); questions != 4 || sessions > 1 {
		t.Errorf("%d questions, %d rows", questions, sessions)
	}
	fresh, _ := sharded(t, 4*mostSummed)
	if sessions, floors, _ := tells(t, one, fresh); sessions < 3*2*mostSummed || floors < 2*mostSummed-1 {
		t.Errorf("who has nothing hears of %d rows, and %d floors", sessions, floors)
	}
	for _, wrong := range [][]byte{{}, {1, 2, 3}, make([]byte, sumOfShard*8*mostSummed), make([]byte, 7)} {
		for from := -5; from < one.cluster.Numbers()+2*qlock.MaxClients; from += 777 {
			if told := one.knows(from, wrong); told.Next != 0 && told.Next <= from {
				t.Fatalf("behind %d comes %d", from, told.Next)
			}
		}
	}
}

// An answer makes some sums, and rounds make those that changed: so that few are left when somebody asks. A start makes all.
func TestSumsAreMadeBeforeSomebodyAsks(t *testing.T) {
	const shards = 3 * mostRowsRead / qlock.MaxClients
	d, _ := sharded(t, shards)
	changed := func() {
		for shard := 0; shard < shards; shard++ {
			for number := 0; number < qlock.MaxClients; number++ {
				d.shard(shard).set(number, of(fmt.Sprint("jobs.", shard, "-", number), 1, 5, 70))
			}
		}
	}
	unsummed := func(of *Daemon) (rows int) {
		for _, s := range of.inTurn {
			rows += s.unsummed()
		}
		return rows
	}
	changed()
	sums := append([]byte(nil), d.sums(0)...)
	changed()
	for from, left := 0, shards*qlock.MaxClients; ; {
		told := d.knows(from, sums[from/qlock.MaxClients*sumOfShard:])
		before := left
		if left = unsummed(d); before-left > mostRowsRead || len(told.Sessions) > 0 {
			t.Fatalf("one answer reads %d rows, and tells %d", before-left, len(told.Sessions))
		}
		if from = told.Next; from == 0 {
			if left > 0 {
				t.Errorf("%d rows are left", left)
			}
			break
		}
	}
	changed()
	for left := unsummed(d); left > 0; {
		before := left
		d.round(time.Now())
		if left = unsummed(d); before == left || before-left > rowsOfRound+qlock.MaxClients {
			t.Fatalf("one round reads %d rows of %d", before-left, before)
		}
	}
	if told := d.knows(0, sums); told.Next != 0 || len(told.Sessions) > 0 {
		t.Errorf("%d rows are told, and then those from %d on are to be asked for", len(told.Sessions), told.Next)
	}
	for _, s := range d.inTurn {
		for number := 0; number < qlock.MaxClients; number++ {
			s.put(number, s.row(number))
		}
	}
	if err := d.save(); err != nil {
		t.Fatal(err)
	}
	if again := reopened(t, d); len(again.inTurn) != shards || unsummed(again) > 0 {
		t.Errorf("after a start there are %d shards, and %d rows without sums", len(again.inTurn), unsummed(again))
	}
}

// What a question with the sums of 8,192 shards takes, each of which has 31 sessions.
func BenchmarkSums(b *testing.B) {
	d := measured(time.Unix(1000, 0), mostSummed)
	for shard := 0; shard < mostSummed; shard++ {
		for number := 0; number < 31; number++ {
			d.shard(shard).set(number, of(fmt.Sprint("jobs.", shard, "-", number), 1, 0, 64))
		}
	}
	for _, isKept := range []bool{false, true} {
		b.Run(fmt.Sprint("kept ", isKept), func(b *testing.B) {
			b.ReportAllocs()
			for i := 0; i < b.N; i++ {
				if !isKept {
					for _, s := range d.inTurn {
						s.isSummed = false
					}
				}
				if sums := d.sums(0); len(sums) != mostSummed*sumOfShard {
					b.Fatal(len(sums))
				}
			}
		})
	}
	sums := d.sums(0)
	question, _ := json.Marshal(word{Word: "start", Sums: sums})
	b.Run("answer", func(b *testing.B) {
		for i := 0; i < b.N; i++ {
			var w word
			if err := json.Unmarshal(question, &w); err != nil {
				b.Fatal(err)
			}
			if known := d.knows(0, w.Sums); len(known.Sessions) > 0 {
				b.Fatal(known.Sessions)
			}
		}
	})
}
