package voter

import (
	"fmt"
	"io"
	"net/http/httptest"
	"path/filepath"
	"strings"
	"testing"
	"time"

	"calvundek.example/service/internal/bus"
	"calvundek.example/service/internal/config"
	"calvundek.example/service/internal/event"
	"calvundek.example/service/internal/moment"
)

// certified is a link with a certificate, which lost some messages that it took.
type certified struct{ *bus.Port }

func (certified) CertificateEnd() time.Time { return time.Unix(1900000000, 0) }
func (certified) Unsent() uint64            { return 5 }

// What alarms are made of is there, and read when it is asked for: the loop does not go round here.
func TestNumbersOfAVoter(t *testing.T) {
	plan := texts(t, two)
	cluster := &config.Cluster{ID: "test", Servers: []string{"none"}, TTL: config.Duration{Duration: 2 * time.Second},
		Coterie: plan.Coterie, Plan: plan.Plan}
	if err := cluster.Check(); err != nil {
		t.Fatal(err)
	}
	own := &config.Voter{Voter: "a", Data: filepath.Join(t.TempDir(), "a"), MaxLocks: 77, MaxLocksUser: 7}
	if _, err := Init(own, cluster); err != nil {
		t.Fatal(err)
	}
	port := certified{bus.New(1).Port()}
	d, err := Open(own, cluster, port, event.To(io.Discard))
	if err != nil {
		t.Fatal(err)
	}
	defer d.store.disk.Close()
	d.ceiling = 100
	voter, err := d.newVoter()
	if err != nil {
		t.Fatal(err)
	}
	v := d.add("orders", voter)
	d.shard(0).set(1, of(".s", 1, 0, 10)) // of no user
	says(d, v, 1, "request 1 0 5", time.Now().Add(-time.Hour))
	d.lookAround(time.Now())
	d.shard(0).set(1, Session{})
	d.measure(time.Now())
	for i := 0; i < 3; i++ {
		_ = port.Send("qlock.test.v.0.-", []byte("x"))
	}
	d.noRoom.Add("web")
	d.noRoom.Add("web")
	d.m.unsent.Add(2)
	page := httptest.NewRecorder()
	d.Handler().ServeHTTP(page, httptest.NewRequest("GET", "/metrics", nil))
	for _, line := range []string{"qlock_voter_queue_messages 3", "qlock_voter_messages_dropped_total 2", `qlock_voter_user_messages_dropped_total{user="web"} 2`,
		"qlock_voter_messages_unsent_total 7",
		"qlock_voter_locks_most 77", "qlock_voter_user_locks_most 7", "qlock_voter_user_locks 0", "qlock_voter_numbers_free 64",
		"qlock_voter_plan 0", "qlock_voter_file_bytes ", "qlock_voter_build_info{", "go_goroutines ",
		"process_open_fds ", "qlock_voter_certificate_end_timestamp_seconds 1.9e+09",
		"qlock_voter_grants_left 99",
		"qlock_voter_held_oldest_seconds 3600.", "qlock_voter_waiting_oldest_seconds 0",
		fmt.Sprintf("qlock_voter_locks_busy %d", d.status(time.Now()).Busy), "qlock_voter_locks_held 1",
		"qlock_voter_requests_full_total 0", "qlock_voter_requests_full_user_total 0", "qlock_voter_broker_reconnects_total 0"} {
		if !strings.Contains(page.Body.String(), "\n"+line) {
			t.Errorf("there is no %q", line)
		}
	}
	d.lively.Store(int64(moment.Of(time.Now())))
	for marked, want := range map[time.Duration]int{0: 200, time.Minute: 503} {
		d.marked.Store(int64(time.Since(d.started) - marked))
		page := httptest.NewRecorder()
		if d.Handler().ServeHTTP(page, httptest.NewRequest("GET", "/healthz", nil)); page.Code != want {
			t.Errorf("a marker of %v ago: status %d", marked, page.Code)
		}
	}
}
