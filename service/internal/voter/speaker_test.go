package voter

import (
	"bytes"
	"fmt"
	"strings"
	"testing"
	"time"

	"calvundek.example/service/internal/config"
	"calvundek.example/service/internal/event"
	"calvundek.example/service/internal/wire"
	"calvundek.example/service/transport"
	"github.com/prometheus/client_golang/prometheus/testutil"
)

// from returns a message of a session of number 2 and epoch 1 that came from a user.
func from(user, name, lines string) transport.Message {
	m := message(2, 1, name, lines)
	m.Mailbox = wire.VoterBox("test", 0, user)
	return m
}

// takeAll lets a voter take all lines that wait.
func (d *Daemon) takeAll() {
	for l := d.inbox.next(); l != nil; l = d.inbox.next() {
		if _, ended := d.read(l, time.Now()); ended {
			d.inbox.done()
		}
	}
}

// A user that knows the name of another one's session does not speak as it. The reply is the user's own.
func TestUserOwnsItsSessions(t *testing.T) {
	d := reader()
	d.shard(0).claim(2, "jobs.s2", 1, 0, time.Now())
	d.sort(from("web", "s2", ". close\n"))
	if d.takeAll(); !d.shard(0).row(2).Open || len(d.out) != 1 || d.out["web.s2"] == nil {
		t.Errorf("%+v, and these are replied to: %d", d.shard(0).row(2), len(d.out))
	}
	d.sort(from("jobs", "s2", ". close\n"))
	if d.takeAll(); d.shard(0).row(2).Open || d.out["jobs.s2"] == nil {
		t.Errorf("the user itself: %+v", d.shard(0).row(2))
	}
}

// Who is no user, as a voter by its number, speaks as no session.
func TestWhoIsNoUser(t *testing.T) {
	d := reader()
	for _, user := range []string{"", "0", "1", "*", ">", "a b", "-x", "jobs/s2"} {
		d.sort(from(user, "s2", ". hello\n"))
	}
	for _, name := range []string{"a.b", "*", ">", "a:b"} {
		m := from("jobs", "s2", ". hello\n")
		m.Data = bytes.Replace(m.Data, []byte(" s2 "), []byte(" "+name+" "), 1) // no header is written with such a name
		d.sort(m)
	}
	if d.inbox.count != 0 || len(d.out) != 0 {
		t.Errorf("%d messages wait, and these are replied to: %d", d.inbox.count, len(d.out))
	}
	for i, user := range []string{"jobs", wire.NoUser} {
		if d.sort(from(user, fmt.Sprint("s-", i), ". hello\n")); d.inbox.count != i+1 {
			t.Errorf("%s is no user", user)
		}
	}
}

// A voter speaks to another one in its own mailbox only.
func TestVoterSpeaksAsItself(t *testing.T) {
	d := reader()
	d.own, d.newPeers = &config.Voter{}, map[int]Peer{}
	h := wire.Header{Cluster: "test", Coterie: "mark", Kind: wire.FromVoter, Number: 1, Start: 1, Name: identity("one")}
	word := append(h.Append(nil), fmt.Sprintf("{\"word\":\"start\",\"process\":%q,\"ttl\":\"0s\"}\n", process("p"))...)
	for from, isHeard := range map[int]bool{0: false, 2: false, 11: false, 1: true} {
		d.peers, d.letters = [places]Peer{}, nil
		before := testutil.ToFloat64(d.m.foreign)
		d.hearPeer(transport.Message{Mailbox: wire.PeerBox("test", 0, from), Data: word}, time.Now())
		if heard := d.peers[1].Identity == identity("one") && len(d.letters) == 1; heard != isHeard ||
			heard == (testutil.ToFloat64(d.m.foreign) > before) {
			t.Errorf("voter 1 in the mailbox of voter %d: %v", from, heard)
		}
	}
}

// Who may only look evicts nobody. A voter sees what the others know. The log says who evicted, and not that somebody evicted nobody.
func TestWhoMayWrite(t *testing.T) {
	var log bytes.Buffer
	for _, one := range []struct {
		by, words string
		mayWrite  bool
		want      string
	}{
		{"bob", "status", false, `"open":1`},
		{"bob", "sessions 0", false, `"sessions":[{"session":"2"`},
		{"bob", "votes 0", false, `"votes":[]`},
		{"bob", "lock x", false, `"lock":"x"`},
		{"bob", "evict 2", false, `"error"`},
		{"bob", "status evict 2", false, `"error"`},
		{"bob", "knows", false, `"error"`},
		{"99", "knows", false, ""},
		{"01", "knows", false, ""},
		{"1", "evict 2", false, `"error"`},
		{"1", "knows", false, fmt.Sprintf(`"hash":%q`, hashed("jobs.s2"))},
		{"alice", "knows", true, fmt.Sprintf(`"hash":%q`, hashed("jobs.s2"))},
		{"bob", "evict 2 now", false, `"error"`},
		{"alice", "evict 2 soon", true, `"error"`},
		{"alice", "evict 2", true, `{"let_go":0}`},
		{"alice", "evict 2 now", true, `{"let_go":0}`},
		{"alice", "evict 3", true, `{"let_go":0,"nobody":true}`},
	} {
		d := reader()
		d.replies, d.log = map[string]answer{}, event.To(&log)
		d.shard(0).claim(2, "jobs.s2", 1, 0, time.Now())
		h := wire.Header{Cluster: "test", Coterie: "mark", Kind: wire.FromOperator, Name: "q"}
		box := wire.ReadBox("test", 0, one.by)
		d.operate(transport.Message{Mailbox: box, Data: append(h.Append(nil), one.words+"\n"...)}, one.mayWrite, time.Now())
		reply, is := d.replies[wire.ReplyBox("test", one.by+".q", 0)]
		if is != (one.want != "") || is && !strings.Contains(string(reply.body), one.want) {
			t.Errorf("%s asks %s: %q", one.by, one.words, reply.body)
		}
		if d.shard(0).row(2).Open == (one.by == "alice" && (one.words == "evict 2" || one.words == "evict 2 now")) {
			t.Errorf("%s asks %s: %+v", one.by, one.words, d.shard(0).row(2))
		}
	}
	if said := log.String(); strings.Count(said, "event=evicted") != 2 || !strings.Contains(said, "by=alice") {
		t.Error(said)
	}
}
