package voter

import (
	"os"
	"path/filepath"
	"testing"
	"time"

	"calvundek.example/service/internal/bus"
	"calvundek.example/service/internal/config"
	"calvundek.example/service/internal/event"
)

// A voter that starts takes no session for dead: it could hear nobody before.
func TestStartEndsNoLease(t *testing.T) {
	plan := texts(t, two)
	cluster := &config.Cluster{ID: "test", Servers: []string{"none"}, TTL: config.Duration{Duration: 2 * time.Second},
		Coterie: plan.Coterie, Plan: plan.Plan}
	if err := cluster.Check(); err != nil {
		t.Fatal(err)
	}
	own := &config.Voter{Voter: "a", Data: filepath.Join(t.TempDir(), "a"), MaxLocks: 10}
	meta := Owner(own, cluster)
	meta.Identity = "identity"
	if err := Create(own.Data, meta, NewGenerations(cluster), Knows{Sessions: map[int]Session{3: of("s", 1, 0, 100)}}, 0); err != nil {
		t.Fatal(err)
	}
	d, err := Open(own, cluster, bus.New(1).Port(), event.To(testWriter{t}))
	if err != nil {
		t.Fatal(err)
	}
	defer d.store.disk.Close()
	now := time.Now()
	if d.shard(0).isDead(3) || claimAt(&d.shard(0).table, 3, "another", 2, now) || d.shard(0).isOver(3, 1) {
		t.Error("a session is dead at once")
	}
	if !isDeadAt(&d.shard(0).table, 3, now.Add(3*time.Second)) {
		t.Error("it lives for ever")
	}
}

// testWriter writes to a test's log.
type testWriter struct{ *testing.T }

func (w testWriter) Write(text []byte) (int, error) { w.Logf("%s", text); return len(text), nil }

// A state that was made is there after a power cut: its folder, and the one that this is in, are synced once it has its name.
func TestMadeStateIsSyncedInItsFolder(t *testing.T) {
	folder, synced := filepath.Join(t.TempDir(), "a"), map[string]bool{}
	defer func(before func(*os.File) error) { syncFolder = before }(syncFolder)
	syncFolder = func(f *os.File) error {
		_, err := os.Stat(file(folder))
		synced[f.Name()] = err == nil
		return nil
	}
	if err := Create(folder, Meta{}, Generations{}, Knows{}, 0); err != nil {
		t.Fatal(err)
	}
	if !synced[folder] || !synced[filepath.Dir(folder)] {
		t.Errorf("%v", synced)
	}
}
