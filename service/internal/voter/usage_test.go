package voter

import (
	"fmt"
	"io"
	"strings"
	"testing"
	"time"

	"calvundek.example/service/internal/event"
	"calvundek.example/service/internal/wire"
	"calvundek.example/service/transport"
	"github.com/prometheus/client_golang/prometheus/testutil"
)

// repliesTo hands lines of a number's first session to a voter, and returns what it replies.
func (d *Daemon) repliesTo(user string, number int, lines string) string {
	h := wire.Header{Cluster: "test", Coterie: d.mark, Kind: wire.FromClient, Number: number, Epoch: 1, Reserved: 1000,
		Name: fmt.Sprint("session-", number)}
	d.sort(transport.Message{Mailbox: wire.VoterBox("test", 0, user), Data: append(h.Append(nil), lines...)})
	d.takeAll()
	session := wire.SessionName(user, h.Name)
	reply := string(d.out[session])
	delete(d.out, session)
	return reply
}

// A user gets as many votes as it may have, by any number of sessions. It may ask again for a lock that it has or waits for,
// and others get theirs.
func TestLocksOfAUser(t *testing.T) {
	d, _ := alone(t, 100)
	d.own.MaxLocksUser = 3
	for number, user := range []string{"", "jobs", "jobs", "web"} {
		if number > 0 {
			d.repliesTo(user, number, fmt.Sprintf(". claim %d 1 1000\n", number))
		}
	}
	for i, one := range []struct {
		user   string
		number int
		lines  string
		isFull bool
		votes  int // of jobs, afterwards
	}{
		{"jobs", 1, "a request 1 0 1\nb request 1 0 2\nc request 1 0 3\n", false, 3},
		{"jobs", 1, "d request 1 0 4\n", true, 3},
		{"jobs", 1, "a request 1 0 1\nb request 1 0 2\n", false, 3},
		{"jobs", 2, "d request 2 0 4\n", true, 3},
		{"jobs", 2, "a request 2 0 11\n", false, 3},
		{"web", 3, "d request 3 0 4\ne request 3 0 5\n", false, 3},
		{"web", 3, "a request 3 0 12\nf request 3 0 13\n", true, 3},
		{"jobs", 1, "a release 1 0 1\n", false, 3},
		{"jobs", 2, "a release 2 0 11\n", false, 2},
		{"jobs", 1, "d request 1 0 14\n", false, 3},
		{"jobs", 1, "g request 1 0 15\n", true, 3},
	} {
		reply := d.repliesTo(one.user, one.number, one.lines)
		if isFull := strings.Contains(reply, ". full "); isFull != one.isFull || d.users["jobs"].votes != one.votes {
			t.Errorf("%d: %q, and jobs has %d votes", i, reply, d.users["jobs"].votes)
		}
	}
	if d.votes["g"] != nil || d.votes["f"] != nil || testutil.ToFloat64(d.m.fullUser) != 4 || testutil.ToFloat64(d.m.full) != 0 {
		t.Errorf("%d locks, and %v requests are refused", len(d.votes), testutil.ToFloat64(d.m.fullUser))
	}
	if d.measure(time.Now()); testutil.ToFloat64(d.m.userLocks) != 3 {
		t.Errorf("the user with most has %v", testutil.ToFloat64(d.m.userLocks))
	}
	if err := d.save(); err != nil {
		t.Fatal(err)
	}
	d.store.disk.Close()
	again, err := Open(d.own, d.cluster, &post{}, event.To(io.Discard))
	if err != nil {
		t.Fatal(err)
	}
	defer again.store.disk.Close()
	if again.users["jobs"].votes != 2 || again.users["web"].votes != 3 { // who waits asks again
		t.Errorf("after a start jobs has %v, web %v", again.users["jobs"], again.users["web"])
	}
	again.start(time.Now())
	again.repliesTo("jobs", 1, "b release 1 0 2\nc release 1 0 3\n")
	if again.users["jobs"] != nil {
		t.Errorf("jobs has %v", again.users["jobs"])
	}
}

// A grant that nobody waits for stays while its session is silent, and goes once its user is refused another lock, or a voter
// has no room for any. If the session is over it goes at once.
func TestDeadSessionsMakeRoom(t *testing.T) {
	for _, one := range []struct {
		name            string
		ofVoter, ofUser int
		left, lapses    int
	}{{"of the user", 100, 2, 1, 1}, {"of the voter", 2, 100, 0, 2}} {
		d, _ := alone(t, one.ofVoter)
		d.own.MaxLocksUser = one.ofUser
		for number := 1; number <= 2; number++ {
			d.repliesTo("jobs", number, fmt.Sprintf(". claim %d 1 1000\n", number))
		}
		d.repliesTo("jobs", 1, "a request 1 0 1\nb request 1 0 2\n")
		later := time.Now().Add(2 * d.leases.ttl)
		passes(&d.shard(0).table, later)
		held := func() (count int) {
			d.round(later)
			for _, v := range d.votes {
				if v.held().Number > 0 {
					count++
				}
			}
			return count
		}
		if count := held(); count != 2 {
			t.Errorf("%s: of a session that is silent %d are left", one.name, count)
		}
		if reply := d.repliesTo("jobs", 2, "c request 2 0 1\n"); !strings.Contains(reply, ". full ") {
			t.Errorf("%s: %q", one.name, reply)
		}
		if count, lapses := held(), d.shard(0).row(1).Lapses; count != one.left || lapses != uint64(one.lapses) {
			t.Errorf("%s: %d are left, and %d lapses", one.name, count, lapses)
		}
	}
	d, _ := alone(t, 100)
	d.repliesTo("jobs", 1, ". claim 1 1 1000\n")
	d.repliesTo("jobs", 1, "a request 1 0 1\n")
	d.shard(0).end(1, d.shard(0).name(1), d.shard(0).row(1).Epoch)
	if d.round(time.Now()); d.votes["a"].held().Number > 0 {
		t.Error("a session that is over keeps its vote")
	}
}

// A REQUEST that is not the session's says nothing of its user, though that is at its bound.
func TestForeignRequestAtTheBound(t *testing.T) {
	d, _ := alone(t, 100)
	d.own.MaxLocksUser = 1
	d.repliesTo("jobs", 1, ". claim 1 1 1000\n")
	d.repliesTo("jobs", 1, "a request 1 0 1\n")
	if reply := d.repliesTo("jobs", 1, "b request 1 0 5000\n"); strings.Contains(reply, "full") || d.users["jobs"].isFull {
		t.Errorf("%q, and jobs is %+v", reply, d.users["jobs"])
	}
	if reply := d.repliesTo("jobs", 1, "b request 1 0 2\n"); !strings.Contains(reply, ". full b 2") || !d.users["jobs"].isFull {
		t.Errorf("%q, and jobs is %+v", reply, d.users["jobs"])
	}
}
