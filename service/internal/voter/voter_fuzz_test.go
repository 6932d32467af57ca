package voter

import (
	"bytes"
	"context"
	"encoding/json"
	"fmt"
	"io"
	"os"
	"path/filepath"
	"reflect"
	"sort"
	"strings"
	"testing"
	"time"

	"calvundek.example/service/internal/config"
	"calvundek.example/service/internal/event"
	"calvundek.example/service/internal/operator"
	"calvundek.example/service/internal/wire"
	"calvundek.example/service/qlock"
	"calvundek.example/service/transport"
	"go.etcd.io/bbolt"
)

// What one message may ask for at most: the bytes of replies beside those that its own length pays
// for, and how far it may bring a number's epoch and stamps.
const (
	mostReplies = 6 << 10
	farthest    = 1 << 20
)

// stage is the state of a voter of which a fuzzed daemon is made again and again. Number 0 has the
// session "me", which has the lock "orders", and number 1 has the session "other".
type stage struct {
	own     *config.Voter
	cluster *config.Cluster
	mark    string // what messages say of the plan
	state   []byte
}

func newStage(f *testing.F) *stage {
	f.Helper()
	coterie := "voters = [\"a\", \"b\", \"c\"]\nquorums = [[\"a\", \"b\"], [\"a\", \"c\"], [\"b\", \"c\"]]\n"
	plan, err := qlock.FindPlan(coterie)
	if err != nil {
		f.Fatal(err)
	}
	cluster := &config.Cluster{ID: "test", Servers: []string{"none"}, TTL: config.Duration{Duration: time.Hour},
		Coterie: coterie, Plan: plan.Text}
	if err := cluster.Check(); err != nil {
		f.Fatal(err)
	}
	second := config.Duration{Duration: time.Second}
	own := &config.Voter{Voter: "a", Data: memory(f), MaxLocks: 100, First: second, Most: second}
	s := &stage{cluster: cluster, own: own}
	if _, err := Init(s.own, cluster); err != nil {
		f.Fatal(err)
	}
	d := s.open(f)
	s.mark = markOf(f, d)
	for number, name := range []string{"me", "other"} {
		hand(d, s.said(0, 0, 0, name, fmt.Sprintf(". claim %d 1\n", number)))
		hand(d, s.said(number, 1, 100, name, ". open 0\n"))
	}
	hand(d, s.said(0, 1, 100, "me", "orders request 0 0 1\n"))
	if d.votes["orders"] == nil || d.votes["orders"].held().Number != 1 || d.shard(0).row(1).Reserved != 100 {
		f.Fatalf("%+v, %+v", d.shard(0).row(0), d.shard(0).row(1))
	}
	if err := d.commit(time.Now()); err != nil {
		f.Fatal(err)
	}
	d.store.disk.Close()
	s.state = s.read(f)
	return s
}

// markOf returns the mark in what a voter sends.
func markOf(f *testing.F, d *Daemon) string {
	f.Helper()
	link := d.posts()
	d.tell("anybody", "hello")
	d.deliver()
	h, _, err := wire.Read(link.sent[len(link.sent)-1])
	if err != nil {
		f.Fatal(err)
	}
	return h.Coterie
}

// memory returns a new folder, in memory where there is such a file system: a state is written for
// each run.
func memory(f *testing.F) string {
	folder, err := os.MkdirTemp("/dev/shm", "qlock-fuzz-")
	if err != nil {
		return f.TempDir()
	}
	f.Cleanup(func() { os.RemoveAll(folder) })
	return filepath.Join(folder, "state")
}

// header returns the header of a session's messages.
func (s *stage) header(number int, epoch, reserved uint64, name string) wire.Header {
	return wire.Header{Cluster: "test", Coterie: s.mark, Kind: wire.FromClient, Number: number, Epoch: epoch,
		Reserved: reserved, Name: name}
}

// said returns a message of a session.
func (s *stage) said(number int, epoch, reserved uint64, name, lines string) []byte {
	return append(s.header(number, epoch, reserved, name).Append(nil), lines...)
}

// open opens the state that is there.
func (s *stage) open(t testing.TB) *Daemon {
	t.Helper()
	d, err := Open(s.own, s.cluster, &post{}, event.To(io.Discard))
	if err != nil {
		t.Fatal(err)
	}
	d.join.done, d.ceiling = true, 1<<20 // as if the others had answered
	return d
}

func (s *stage) read(t testing.TB) []byte {
	t.Helper()
	state, err := os.ReadFile(file(s.own.Data))
	if err != nil {
		t.Fatal(err)
	}
	return state
}

// put puts the state back with which the stage begins.
func (s *stage) put(t testing.TB) {
	t.Helper()
	if err := os.WriteFile(file(s.own.Data), s.state, 0o600); err != nil {
		t.Fatal(err)
	}
}

// again opens the state with which the stage begins.
func (s *stage) again(t testing.TB) *Daemon {
	t.Helper()
	s.put(t)
	d := s.open(t)
	t.Cleanup(func() { d.store.disk.Close() })
	return d
}

// hand hands a message of a client to the loop.
func hand(d *Daemon, message []byte) {
	box := make(chan transport.Message, 1)
	box <- transport.Message{Mailbox: wire.VoterBox("test", 0, wire.NoUser), Data: message}
	d.messages, d.writes = box, nil
	for i := 0; i < 3; i++ { // a long message takes several turns
		d.wait(context.Background(), time.Now().Add(time.Duration(len(box))*time.Second))
	}
}

// order hands a message of an operator to the loop, and returns the replies.
func order(d *Daemon, message []byte) map[string]answer {
	box := make(chan transport.Message, 1)
	box <- transport.Message{Mailbox: wire.WriteBox("test", 0, "alice"), Data: message}
	d.messages, d.writes = nil, box
	d.wait(context.Background(), time.Now().Add(time.Second))
	replies := d.replies
	d.replies = map[string]answer{}
	return replies
}

// sent returns how many bytes leave.
func sent(d *Daemon) (total int) {
	for _, lines := range d.out {
		total += len(lines)
	}
	return total
}

// mustGrow fails if an epoch or a stamp goes back, or far ahead.
func mustGrow(t *testing.T, before, after Session, number int) {
	t.Helper()
	if after.Epoch < before.Epoch || after.Base < before.Base || after.Reserved < before.Reserved ||
		after.Base > after.Reserved {
		t.Fatalf("number %d goes back from %+v to %+v", number, before, after)
	}
	if after.Epoch-before.Epoch > farthest || after.Reserved-before.Reserved > farthest {
		t.Fatalf("number %d goes from %+v to %+v by one message", number, before, after)
	}
}

// Whatever a message says: it changes nothing unless it is of this protocol, and of others'
// sessions it changes nothing at all. What it costs is bounded, and nobody ends a voter by it.
func FuzzMessage(f *testing.F) {
	s := newStage(f)
	saved := s.header(2, 1<<40, 1<<63, "evil")
	for _, lines := range []string{"", ". hello\n", strings.Repeat(". hello\n", 100), ". claim 5 1\n", ". claim 0 2\n",
		". drop 1 1\n", ". open 0\n", ". close\n", ". plan\n", "orders request 1 0 2\n", "orders request 0 0 1\n",
		"stock request 1 0 9\nstock release 1 0 9\n", "orders release 0 0 1\n", "orders relinquish 0 0 1 1\n",
		"x y\n\n", "orders request 1 0 1099511627775\n", "no end", ". note m 1 r a\n. who 1 orders\n. list 2 0\n",
		". about orders 1 a note\n" + strings.Repeat(". who 1 orders\n", 15), ". list 1 1 ord\n. list 1 1\n", ". note\n. who x\n", ". for orders\n. hello\n",
		". for orders\n. hello\n. claim 5 1 9\n. for stock\n. hello\n. for x y\n", ". want 64 orders\n. hello\n", ". want 64\n. hello\n. want 0\n. hello\n",
		". want 0\n. want 18446744073709551615\n. hello\n. claim 5 9 9\n",
		". watch 1 orders\n. watch 1 stock\n. who 2 orders\n. watch x\n", ". process p\n. roll p 5\n. roll q 65535\n. roll p 6\n",
		". beat 0 96 1\n. beat 65472 9223372036854775808 18446744073709551615\n", ". beat 0 32 4294967297\n"} {
		f.Add(s.said(0, 0, 0, "nobody", lines))
		f.Add(s.said(1, 1, 200, "other", lines))
		f.Add(s.said(0, 1, 1<<40, "me", lines))
		f.Add(s.said(0, 7, 1<<50, "evil", lines))
		f.Add(s.said(0, 1, 150, "evil", lines)) // under another one's number and epoch
		f.Add(append(saved.Append(nil), lines...))
	}
	f.Fuzz(func(t *testing.T, message []byte) {
		if end := bytes.Index(message, []byte("\n\n")); end >= 0 && bytes.Contains(message[end:], []byte("qlock2 ")) {
			message = message[:end+2] // it is a bundle (FuzzBundle)
		}
		d := s.again(t)
		rows, held := d.shard(0).all(), d.votes["orders"].held()
		locks := [2]string{d.shard(0).seat(0).lock, d.shard(0).seat(1).lock}
		hand(d, message)
		if sent(d) > mostReplies+4*len(message) {
			t.Fatalf("%d bytes leave for a message of %d", sent(d), len(message))
		}
		h, _, err := wire.Read(message)
		ours := err == nil && h.Cluster == "test" && h.Coterie == s.mark && h.Kind == wire.FromClient
		if !ours && (d.shard(0).all() != rows || len(d.votes) != 1 || d.changed()+len(d.leases.changed) > 0) {
			t.Fatalf("a foreign message changes %v", d.leases.changed)
		}
		for number, row := range d.shard(0).all() {
			mustGrow(t, rows[number], row, number)
			if rows[number].Open && row != rows[number] && (!ours || hashed(wire.SessionName(wire.NoUser, h.Name)) != rows[number].Hash) {
				t.Fatalf("%q changes the session of number %d from %+v to %+v", h.Name, number, rows[number], row)
			}
		}
		for number, name := range []string{"me", "other"} {
			if d.shard(0).noteOf(number) != "" && (!ours || h.Name != name) {
				t.Fatalf("%q notes %q for another session", h.Name, d.shard(0).noteOf(number))
			}
			if now := d.shard(0).seat(number).lock; now != locks[number] && (!ours || h.Name != name) {
				t.Fatalf("%q says that another session wants %q", h.Name, now)
			}
		}
		if one := d.votes["orders"].ask(0); one.note != "" && h.Name != "me" {
			t.Fatalf("%q says something of another one's request", h.Name)
		}
		if now := d.votes["orders"].held(); now != held && h.Name != "me" {
			t.Fatalf("%q takes a lock from its holder: %+v", h.Name, now)
		}
		if len(d.votes) > 1 && h.Name != "me" && h.Name != "other" {
			t.Fatalf("%q, which has no number, makes %d votes", h.Name, len(d.votes)-1)
		}
	})
}

// player is a session of FuzzSessions.
type player struct {
	name            string
	epoch, reserved uint64
}

// Whatever sessions say, one after the other: an epoch of a number has one session, no two of a
// number get a grant for one stamp, and no grant has a stamp that was not reserved before.
func FuzzSessions(f *testing.F) {
	s := newStage(f)
	for _, script := range []string{"", "claim", "\x00\x10\x20\x30\x40\x50",
		"\x01\x11\x21\x31\x41\x51\x61\x02\x12\x22\x32", "\x00\x60\x01\x11\x21\x70\x02\x12\x22\x31",
		"\x00\x90\xa0\xc0\x21"} {
		f.Add([]byte(script))
	}
	f.Fuzz(func(t *testing.T, script []byte) {
		if len(script) > 64 {
			script = script[:64]
		}
		d, stamp := s.again(t), uint64(1)
		players := []player{{name: "one"}, {name: "two"}, {name: "three"}}
		owners, granted := map[string]string{}, map[string]string{}
		for step, op := range script {
			rows := d.shard(0).all()
			p := &players[int(op&15)%len(players)]
			lines := ""
			switch op >> 4 & 7 {
			case 0:
				p.epoch = d.shard(0).row(3).Epoch + 1 + uint64(op>>7)
				lines = fmt.Sprintf(". claim 3 %d\n", p.epoch)
			case 1:
				p.reserved = d.shard(0).row(3).Reserved + uint64(op>>7)*100
				lines = ". open 0\n"
			case 2, 3:
				stamp += uint64(op >> 7)
				lines = fmt.Sprintf("orders%d request 3 0 %d\n", op&1, d.shard(0).row(3).Base+stamp)
			case 4:
				lines = fmt.Sprintf("orders%d release 3 0 %d\n", op&1, d.shard(0).row(3).Base+stamp)
			case 5:
				lines = fmt.Sprintf(". drop 3 %d\n", p.epoch)
			case 6:
				lines = ". close\n"
			case 7:
				reading, _ := d.shard(0).clock.Shows()
				passes(&d.shard(0).table, d.leases.began.Add(reading+2*d.leases.ttl)) // silent for two TTL
			}
			hand(d, s.said(3, p.epoch, p.reserved, p.name, lines))
			mustGrow(t, rows[3], d.shard(0).row(3), 3)
			for name, text := range d.out {
				for _, line := range strings.Split(string(text), "\n") {
					noteReply(t, step, name, strings.Fields(line), owners, granted)
				}
			}
			for _, v := range d.votes {
				if v.held().Number > 0 && v.held().Stamp > d.shard(0).row(int(v.held().Client)).Reserved {
					t.Fatalf("step %d: stamp %d is granted, and %d is reserved", step, v.held().Stamp,
						d.shard(0).row(int(v.held().Client)).Reserved)
				}
			}
			mustCount(t, d)
			d.out = map[string][]byte{}
		}
	})
}

// mustCount fails unless each user is counted to have the votes that its sessions have or wait for.
func mustCount(t *testing.T, d *Daemon) {
	t.Helper()
	votes := map[string]int{}
	for _, v := range d.votes {
		asks := map[string]int{}
		v.asks(func(one ask) {
			if one.user != nil && one.user != d.users[one.user.user] {
				t.Fatalf("%s: %+v, of %v", v.name, one.user, one)
			} else if one.user != nil {
				asks[one.user.user]++
			}
		})
		for user := range asks {
			votes[user]++
		}
	}
	for user, u := range d.users {
		if u.votes != votes[user] || len(d.users) != len(votes) {
			t.Fatalf("%q has %d votes, and is counted to have %d", user, votes[user], u.votes)
		}
	}
}

// noteReply notes who is told to have an epoch of a number, and who gets a grant for a stamp of it.
func noteReply(t *testing.T, step int, name string, words []string, owners, granted map[string]string) {
	t.Helper()
	switch {
	case len(words) > 4 && words[0] == "." && words[1] == "opened":
		mustBeOne(t, step, owners, "epoch "+words[3]+" of number "+words[2], name)
	case len(words) > 4 && words[1] == "locked" && words[3] == "3":
		mustBeOne(t, step, granted, "stamp "+words[4]+" of number 3", name)
	}
}

// mustBeOne fails if a thing has another owner already.
func mustBeOne(t *testing.T, step int, owners map[string]string, what, name string) {
	t.Helper()
	if owner := owners[what]; owner != "" && owner != name {
		t.Fatalf("step %d: %s is of %q and of %q", step, what, owner, name)
	}
	owners[what] = name
}

// orders are the words that change something.
var orders = map[string]bool{"evict": true, "unlock": true, "exchange": true, "retire": true, "settle": true,
	"inform": true}

// Whatever an operator says: the reply is one of JSON, no longer than a message may be. Words that
// are none of his change nothing, and an order that comes twice is done once.
func FuzzOperator(f *testing.F) {
	s := newStage(f)
	plan := "0 " + config.Mark(0, s.cluster.Coterie)
	for _, words := range []string{"status", "sessions 0", "sessions 70", "votes 0", "votes 1", "votes x", "knows", "lock orders", "lock x y", "evict 0", "evict 0 now", "evict 64",
		"unlock orders 1", "unlock orders 2", "ready " + plan, "retire " + plan, "retire 1 " + plan[2:],
		"settle " + plan + " {\"sessions\":{\"3\":{\"name\":\"x\",\"epoch\":9,\"base\":1,\"reserved\":7,\"open\":true}}}",
		"inform " + plan + " {\"sessions\":{\"3\":{\"name\":\"x\",\"epoch\":9,\"base\":1,\"reserved\":7,\"open\":true}}}",
		"settle " + plan + " {\"sessions\":{\"99\":{}},\"peers\":{\"99\":{},\"2\":{\"identity\":\"x\",\"ceiling\":7}}}", "would 1 dm90ZXJz cGxhbg==", "exchange 1 dm90ZXJz cGxhbg==", "", "evict"} {
		f.Add(words + "\n")
	}
	f.Fuzz(func(t *testing.T, lines string) {
		d := s.again(t)
		rows, plans, held := d.shard(0).all(), d.plans, d.votes["orders"].held()
		h := wire.Header{Cluster: "test", Coterie: s.mark, Kind: wire.FromOperator, Name: "0123"}
		replies := order(d, append(h.Append(nil), lines...))
		reply, one := replies[wire.ReplyBox("test", "alice.0123", 0)]
		if text := reply.body; len(replies) != 1 || !one || !json.Valid(text) || len(text) > 900<<10 {
			t.Fatalf("%q: %d replies: %q", lines, len(replies), text)
		}
		words := append(strings.Fields(lines), "")
		if !orders[words[0]] && (d.shard(0).all() != rows || !reflect.DeepEqual(d.plans, plans) ||
			d.votes["orders"].held() != held || sent(d) > 0) {
			t.Fatalf("%q changes something", lines)
		}
		for number, row := range d.shard(0).all() {
			mustGrow(t, rows[number], row, number)
		}
		if words[0] == "evict" || words[0] == "unlock" {
			rows := d.shard(0).all()
			twice := order(d, append(h.Append(nil), lines...))[wire.ReplyBox("test", "alice.0123", 0)]
			if !bytes.Equal(twice.body, reply.body) || d.shard(0).all() != rows {
				t.Fatalf("%q is done twice: %q, then %q", lines, reply.body, twice.body)
			}
		}
	})
}

// A state of which a row has other bytes than it was written with does not start, whichever row it
// is.
func FuzzRows(f *testing.F) {
	s := newStage(f)
	d := s.open(f)
	rows, held := d.shard(0).all(), d.votes["orders"].held()
	places := rowsOf(f, d.store.disk.(*fileDisk).db)
	d.store.disk.Close()
	s.state = s.read(f) // each start changes a row
	for i, place := range places {
		f.Add(uint8(i), uint16(0), []byte{})
		f.Add(uint8(i), uint16(bytes.LastIndexByte(place[2], '0')), []byte{1})
		f.Add(uint8(i), uint16(len(place[2])), []byte{0})
	}
	f.Add(uint8(255), uint16(0), []byte{})
	f.Fuzz(func(t *testing.T, which uint8, at uint16, change []byte) {
		s.put(t)
		place := places[int(which)%len(places)]
		value := changed(place[2], int(at), change)
		same := bytes.Equal(place[2], value)
		if int(which) >= 200 { // a row that was never there
			place, same = [3][]byte{place[0], append([]byte{which}, place[1]...)}, false
		}
		db, err := bbolt.Open(file(s.own.Data), 0o600, nil)
		if err != nil {
			t.Fatal(err)
		}
		err = db.Update(func(tx *bbolt.Tx) error { return tx.Bucket(place[0]).Put(place[1], value) })
		if closed := db.Close(); err != nil || closed != nil {
			t.Fatal(err, closed)
		}
		d, err := Open(s.own, s.cluster, &post{}, event.To(io.Discard))
		if err != nil {
			if same {
				t.Fatalf("the state as it was does not start: %v", err)
			}
			return
		}
		defer d.store.disk.Close()
		if !same || d.shard(0).all() != rows || len(d.votes) != 1 || d.votes["orders"].held() != held {
			t.Fatalf("%q starts as row %q of %s", value, place[1], place[0])
		}
	})
}

// changed returns bytes of which some bits from a place on are others, and behind which there may
// be more. Each process of a fuzzer has a state of its own, so a change says more than a value.
func changed(value []byte, at int, change []byte) []byte {
	value = append([]byte(nil), value...)
	for i, bits := range change {
		if at+i < len(value) {
			value[at+i] ^= bits
		} else {
			value = append(value, bits)
		}
	}
	return value
}

// rowsOf returns the bucket, the key and the value of each row, in their order.
func rowsOf(f *testing.F, db *bbolt.DB) (places [][3][]byte) {
	f.Helper()
	copied := func(b []byte) []byte { return append([]byte(nil), b...) }
	err := db.View(func(tx *bbolt.Tx) error {
		return tx.ForEach(func(name []byte, bucket *bbolt.Bucket) error {
			return bucket.ForEach(func(k, v []byte) error {
				places = append(places, [3][]byte{copied(name), copied(k), copied(v)})
				return nil
			})
		})
	})
	if err != nil || len(places) < 5 {
		f.Fatal(len(places), err)
	}
	sort.Slice(places, func(i, j int) bool {
		return string(places[i][0])+string(places[i][1]) < string(places[j][0])+string(places[j][1])
	})
	return places
}

// What voters reply brings nothing back: of each number it has the highest epoch, and a
// stamp as high as any of them; of each place the last run, and the highest ceiling.
func FuzzMerge(f *testing.F) {
	one := Knows{Peers: map[int]Peer{2: {Identity: identity("v"), Run: 1, Start: 4, Process: process("p"), Ceiling: 900}}, Sessions: map[int]Session{
		3:  {Hash: "x", Epoch: 4, Base: 9, Reserved: 100, Open: true, Used: true},
		63: {Epoch: 1, Reserved: 7}}}
	first, _ := json.Marshal(one)
	second, _ := json.Marshal(Knows{Peers: map[int]Peer{2: {Identity: identity("w"), Process: process("q"), Ceiling: 950}}, Sessions: map[int]Session{
		3: {Hash: "y", Epoch: 4, Base: 9, Reserved: 50, Open: true}}})
	f.Add(first, second)
	f.Add(first, []byte("{}"))
	f.Add([]byte("{\"error\":\"no\"}"), second)
	dropped, _ := json.Marshal(Knows{Sessions: map[int]Session{}, Floors: map[int]Floor{0: {120, []uint64{0, 0, 0, 3, 9}}, 7: {5, []uint64{1}}}})
	f.Add(first, dropped)
	f.Add(dropped, dropped)
	f.Fuzz(func(t *testing.T, first, second []byte) {
		replies := []operator.Reply{{Voter: 0, Name: "a", Body: first}, {Voter: 1, Name: "b", Body: second}}
		all, heard, err := Merge(replies)
		if err != nil {
			return
		}
		if heard != 0b11 || len(all.Sessions) > config.MostShards*qlock.MaxClients {
			t.Fatalf("%b, %d sessions", heard, len(all.Sessions))
		}
		for _, body := range [][]byte{first, second} {
			var one Knows
			if err := json.Unmarshal(body, &one); err != nil {
				t.Fatal(err)
			}
			for place, p := range one.Peers {
				if got := all.Peers[place]; place >= 0 && place < places && (p.Ceiling > got.Ceiling || p.Run > got.Run) {
					t.Fatalf("place %d: %+v of %+v", place, got, p)
				}
			}
			for shard, floor := range one.Floors {
				if shard < 0 || shard >= config.MostShards || all.Floors[shard].isAbove(floor) {
					continue
				}
				for number := range floor.Epochs {
					row, got := floor.row(number), all.Sessions[shard*qlock.MaxClients+number]
					if row.Epoch > 0 && (got.Reserved < row.Reserved || got.Epoch < row.Epoch && !got.Used) {
						t.Fatalf("shard %d, number %d: %+v of %+v", shard, number, got, row)
					}
				}
			}
			for number, row := range one.Sessions {
				if number < 0 || number >= qlock.MaxClients || row.Epoch == 0 {
					continue
				}
				got := all.Sessions[number]
				if got.Reserved < row.Reserved || got.Epoch < row.Epoch && !got.Used {
					t.Fatalf("number %d: %+v of %+v", number, got, row)
				}
			}
		}
	})
}

// A saved vote is read as what was saved, or not at all.
func FuzzUnpack(f *testing.F) {
	voter, err := qlock.NewVoter(3, qlock.MaxStamp)
	if err != nil {
		f.Fatal(err)
	}
	f.Add(pack(voter.State()))
	if _, err := voter.Take([]byte("request 5 3 17"), nil); err != nil {
		f.Fatal(err)
	}
	f.Add(pack(voter.State()))
	f.Fuzz(func(t *testing.T, packed []byte) {
		state, ok := unpack(packed)
		if !ok {
			return
		}
		if len(state) != qlock.VoterBytes {
			t.Fatalf("a state of %d bytes", len(state))
		}
		if again, ok := unpack(pack(state)); !ok || !bytes.Equal(again, state) {
			t.Fatalf("%x is saved as another one", state)
		}
	})
}
