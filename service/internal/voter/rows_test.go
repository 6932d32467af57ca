package voter

import (
	"errors"
	"fmt"
	"math/rand"
	"os"
	"path/filepath"
	"reflect"
	"testing"

	"calvundek.example/service/qlock"
	"go.etcd.io/bbolt"
)

// content is what a state has.
type content struct {
	meta   Meta
	saves  uint64
	votes  map[string]string
	rows   map[int]Session
	floors map[int]Floor
	peers  map[int]Peer
}

// aState makes a state with votes and sessions, and returns its folder and its owner.
func aState(t *testing.T, votes int) (folder string, meta Meta) {
	t.Helper()
	folder, meta = filepath.Join(t.TempDir(), "a"), Meta{Format: firstFormat, Cluster: "test", Identity: "identity"}
	if err := Create(folder, meta, Generations{Now: texts(t, two)}, Knows{}, 0); err != nil {
		t.Fatal(err)
	}
	s, err := openStore(folder, meta)
	if err != nil {
		t.Fatal(err)
	}
	defer s.disk.Close()
	for i := 0; i < votes; i++ {
		one, err := qlock.NewVoter(0, 100)
		if err != nil {
			t.Fatal(err)
		}
		if _, err := one.Take([]byte(fmt.Sprintf("request %d 0 17", i%64)), nil); err != nil {
			t.Fatal(err)
		}
		if err := s.save(changes{votes: map[*vote]struct{}{{extras: &extras{voter: one}, name: fmt.Sprint("orders-", i)}: {}},
			sessions: map[int]Session{i % 64: of(fmt.Sprint("session-", i), 5, 100, 9000)},
			peers:    map[int]Peer{i % 64: {Identity: identity("other"), Start: uint64(i), Process: process("p")}}}); err != nil {
			t.Fatal(err)
		}
	}
	return folder, meta
}

// read opens a state, and returns what it has.
func read(folder string, meta Meta) (content, error) {
	s, err := openStore(folder, meta)
	if err != nil {
		return content{}, err
	}
	defer s.disk.Close()
	return contentOf(s)
}

// contentOf returns what an open state has.
func contentOf(s *store) (content, error) {
	c := content{meta: s.meta, saves: s.saves, votes: map[string]string{}, rows: map[int]Session{}, floors: map[int]Floor{},
		peers: map[int]Peer{}}
	err := s.load(func(shard int, floor Floor) { c.floors[shard] = floor },
		func(one savedSession) error { c.rows[one.key] = one.row; return nil },
		func(one savedVote) error { c.votes[one.name] = string(one.packed); return nil }, func(place int, p Peer) { c.peers[place] = p })
	return c, err
}

// All rows of a save are as they were put, also of one that takes more room than the one before.
func TestLargeSaves(t *testing.T) {
	folder, meta := aState(t, 1)
	s, err := openStore(folder, meta)
	if err != nil {
		t.Fatal(err)
	}
	want := map[int]Session{}
	for _, rows := range []int{1, 100, 20_000, 3} {
		some := map[int]Session{}
		for i := 0; i < rows; i++ {
			key := i * 7
			some[key] = of(fmt.Sprint("jobs.", rows, "-", i), uint64(rows), uint64(i), 1<<20)
			want[key] = some[key]
		}
		if err := s.save(changes{sessions: some}); err != nil {
			t.Fatal(err)
		}
		if cap(s.room) > mostRoom {
			t.Errorf("after %d rows there is room for %d bytes", rows, cap(s.room))
		}
	}
	s.disk.Close()
	got, err := read(folder, meta)
	if err != nil {
		t.Fatal(err)
	}
	if !reflect.DeepEqual(got.rows, want) {
		t.Error("other rows are read")
	}
}

// Whatever bit of a state is changed, what is read is what was saved, or it is damaged.
func TestEachChangedBitIsFound(t *testing.T) {
	folder, meta := aState(t, 40)
	want, err := read(folder, meta)
	if err != nil || len(want.votes) != 40 || len(want.rows) != 40 {
		t.Fatal(len(want.votes), len(want.rows), err)
	}
	right, err := os.ReadFile(file(folder))
	if err != nil {
		t.Fatal(err)
	}
	random, found := rand.New(rand.NewSource(1)), 0
	for run := 0; run < 500; run++ {
		wrong := append([]byte(nil), right...)
		for at := 0; ; { // a bit of what is there
			if at = random.Intn(len(wrong)); right[at] != 0 {
				wrong[at] ^= 1 << random.Intn(8)
				break
			}
		}
		if err := os.WriteFile(file(folder), wrong, 0o600); err != nil {
			t.Fatal(err)
		}
		if got, err := read(folder, meta); err != nil {
			found++
		} else if !reflect.DeepEqual(got, want) {
			t.Fatalf("run %d: another state is served", run)
		}
	}
	if found < 50 {
		t.Errorf("%d are found", found)
	}
}

// A state whose newest root is damaged is not served as it was one save before.
func TestDamagedRoot(t *testing.T) {
	folder, meta := aState(t, 3)
	right, err := os.ReadFile(file(folder))
	if err != nil {
		t.Fatal(err)
	}
	for page := 0; page < 2; page++ {
		wrong := append([]byte(nil), right...)
		wrong[page*os.Getpagesize()+64] ^= 1 // of the number of its transaction
		if err := os.WriteFile(file(folder), wrong, 0o600); err != nil {
			t.Fatal(err)
		}
		if _, err := read(folder, meta); !errors.Is(err, ErrDamaged) {
			t.Errorf("root %d: %v", page, err)
		}
	}
}

// A row that is gone is missed, and one that is older than the others is found: of a vote, of a
// number, of a place, and of the plans.
func TestRowsOfOneTransaction(t *testing.T) {
	for row, bucket := range map[string][]byte{"orders-1": voteBucket, "\x01": sessionBucket, "\x02": peerBucket, "plans": metaBucket} {
		folder, meta := aState(t, 3)
		s, err := openStore(folder, meta)
		if err != nil {
			t.Fatal(err)
		}
		var older []byte
		_ = s.disk.View(func(rows Rows) error {
			older = append(older, rows.Get(bucket, []byte(row))...)
			return nil
		})
		changed, err := qlock.NewVoter(0, 100)
		if err != nil {
			t.Fatal(err)
		}
		if err := s.save(changes{votes: map[*vote]struct{}{{extras: &extras{voter: changed}, name: "orders-1"}: {}},
			sessions: map[int]Session{1: of("another", 7, 200, 9000)}, peers: map[int]Peer{2: {Identity: identity("other"), Start: 9, Process: process("p")}},
			plans: &Generations{Now: texts(t, all)}}); err != nil {
			t.Fatal(err)
		}
		s.disk.Close()
		for _, value := range [][]byte{older, nil} {
			db, err := bbolt.Open(file(folder), 0o600, nil)
			if err != nil {
				t.Fatal(err)
			}
			if err := db.Update(func(tx *bbolt.Tx) error {
				if value == nil {
					return tx.Bucket(bucket).Delete([]byte(row))
				}
				return tx.Bucket(bucket).Put([]byte(row), value)
			}); err != nil {
				t.Fatal(err)
			}
			db.Close()
			if _, err := read(folder, meta); !errors.Is(err, ErrDamaged) {
				t.Errorf("%s, row %q, %d bytes: %v", bucket, row, len(value), err)
			}
		}
	}
}

// A row is that of its key in its bucket, and no other one.
func TestRowsAreOfTheirPlaces(t *testing.T) {
	row := rowOf(voteBucket, []byte("orders-1"), []byte("value"))
	for _, place := range [][2]string{{"votes", "orders-1"}, {"votes", "orders-2"}, {"votes", "orders-1v"}, {"sessions", "orders-1"}} {
		_, err := value([]byte(place[0]), []byte(place[1]), row)
		if isIts := place[0] == "votes" && place[1] == "orders-1"; isIts != (err == nil) || !isIts && !errors.Is(err, ErrDamaged) {
			t.Errorf("%v: %v", place, err)
		}
	}
}

// transaction returns the number of a file's last transaction.
func transaction(t *testing.T, folder string) (number int) {
	t.Helper()
	db, err := bbolt.Open(file(folder), 0o600, &bbolt.Options{ReadOnly: true})
	if err != nil {
		t.Fatal(err)
	}
	defer db.Close()
	_ = db.View(func(tx *bbolt.Tx) error { number = tx.ID(); return nil })
	return number
}

// A start writes both root pages: the last transaction that it reads may be one whose sync failed.
func TestStartWrites(t *testing.T) {
	folder, meta := aState(t, 1)
	before := transaction(t, folder)
	if _, err := read(folder, meta); err != nil {
		t.Fatal(err)
	}
	if after := transaction(t, folder); after < before+2 {
		t.Errorf("transaction %d after %d", after, before)
	}
}

// A state of another version is refused by name.
func TestOtherFormats(t *testing.T) {
	folder, meta := aState(t, 1)
	db, err := bbolt.Open(file(folder), 0o600, nil)
	if err != nil {
		t.Fatal(err)
	}
	if err := db.Update(func(tx *bbolt.Tx) error {
		return tx.Bucket(metaBucket).Put(metaBucket, []byte(`{"format":1,"cluster":"test"}`))
	}); err != nil {
		t.Fatal(err)
	}
	db.Close()
	if _, err := read(folder, meta); !errors.Is(err, ErrFormat) {
		t.Error(err)
	}
}
