package voter

import (
	"encoding/json"
	"errors"
	"fmt"
	"io"
	"os"
	"path/filepath"
	"testing"
	"time"

	"calvundek.example/service/internal/config"
	"calvundek.example/service/internal/event"
	"calvundek.example/service/internal/wire"
	"go.etcd.io/bbolt"
)

// A state of format 1 goes on: its grants and stamps above all that were given, and no session is left.
func TestUpgrade(t *testing.T) {
	plan := texts(t, "voters = [\"a\"]\nquorums = [[\"a\"]]\n")
	cluster := &config.Cluster{ID: "test", Servers: []string{"none"}, TTL: config.Duration{Duration: 2 * time.Second},
		Coterie: plan.Coterie, Plan: plan.Plan}
	if err := cluster.Check(); err != nil {
		t.Fatal(err)
	}
	second := config.Duration{Duration: time.Second}
	own := &config.Voter{Voter: "a", Data: filepath.Join(t.TempDir(), "a"), MaxLocks: 10, First: second, Most: second}
	if err := os.Mkdir(own.Data, 0o700); err != nil {
		t.Fatal(err)
	}
	db, err := bbolt.Open(file(own.Data), 0o600, nil)
	if err != nil {
		t.Fatal(err)
	}
	row := []byte(`{"name":"old","epoch":7,"base":100,"reserved":9000,"open":true,"used":true}`)
	plans, _ := json.Marshal(NewGenerations(cluster))
	if err := db.Update(func(tx *bbolt.Tx) error {
		for _, name := range []string{"meta", "votes", "sessions"} {
			if _, err := tx.CreateBucket([]byte(name)); err != nil {
				return err
			}
		}
		if err := tx.Bucket(metaBucket).Put(metaBucket,
			[]byte(`{"format":1,"cluster":"test","voter":0,"block":2,"identity":"old"}`)); err != nil {
			return err
		}
		if err := tx.Bucket(metaBucket).Put(plansKey, plans); err != nil {
			return err
		}
		return tx.Bucket(sessionBucket).Put([]byte{0}, row)
	}); err != nil {
		t.Fatal(err)
	}
	db.Close()
	if _, err := Open(own, cluster, &post{}, event.To(io.Discard)); !errors.Is(err, ErrFormat) {
		t.Fatalf("a start: %v", err)
	}
	another := *cluster
	another.ID = "another"
	if _, err := Upgrade(own, &another); !errors.Is(err, ErrOther) {
		t.Errorf("as another cluster's: %v", err)
	}
	if _, err := Upgrade(own, cluster); err != nil {
		t.Fatal(err)
	}
	if _, err := Upgrade(own, cluster); !errors.Is(err, ErrFormat) {
		t.Errorf("again: %v", err)
	}
	if _, err := os.Stat(file(own.Data) + ".1"); err != nil {
		t.Error(err)
	}
	d, err := Open(own, cluster, &post{}, event.To(io.Discard))
	if err != nil {
		t.Fatal(err)
	}
	defer d.store.disk.Close()
	d.start(time.Now())
	if d.quietLeft(time.Now()) == 0 {
		t.Error("it is not quiet, though nobody knows how it ended")
	}
	d.leases.quiet = quiet{}
	if row := d.shard(0).row(0); row.Open || row.Base != 9000 || row.Reserved != 9000 || row.Epoch != 7 {
		t.Errorf("a session is %+v", row)
	}
	h := wire.Header{Cluster: "test", Coterie: d.mark, Kind: wire.FromClient, Epoch: 8, Reserved: 9100, Name: "me"}
	for _, stamp := range []int{9000, 9001} {
		hand(d, append(h.Append(nil), fmt.Sprintf(". claim 0 8 50\norders request 0 0 %d\n", stamp)...))
	}
	if v := d.votes["orders"]; v == nil || v.held().Stamp != 9001 || v.held().Number <= 3*oldBlock {
		t.Errorf("%+v", v)
	}
}
