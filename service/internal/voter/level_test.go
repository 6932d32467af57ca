package voter

import (
	"encoding/json"
	"errors"
	"io"
	"testing"

	"calvundek.example/service/internal/event"
	"calvundek.example/service/internal/level"
)

// A level is raised by one, and only if this program and all sessions know it. A program that does not
// know the cluster's level does not start.
func TestLevels(t *testing.T) {
	d, says := alone(t, 10)
	if err := d.mayLevel(level.Oldest); err != nil {
		t.Error(err)
	}
	if err := d.mayLevel(level.Oldest + 2); err == nil {
		t.Error("a level is left out")
	}
	if err := d.mayLevel(level.Newest + 1); err == nil {
		t.Error("a level that nobody knows")
	}
	says(". open 0\n") // of a session that says no level
	if level.Newest > level.Oldest {
		if err := d.mayLevel(level.Oldest + 1); err == nil {
			t.Error("a session of an older program is left behind")
		}
		d.shard(0).seat(0).level = level.Newest
		if err := d.mayLevel(level.Oldest + 1); err != nil {
			t.Error(err)
		}
	}
	if err := d.learnsLevel(level.Newest + 1); !errors.Is(err, ErrLevel) {
		t.Errorf("another voter is at a newer level: %v", err)
	}
	d.setLevel(level.Newest + 1)
	if err := d.save(); err != nil {
		t.Fatal(err)
	}
	own, cluster := d.own, d.cluster
	d.store.disk.Close()
	if _, err := Open(own, cluster, &post{}, event.To(io.Discard)); !errors.Is(err, ErrNewer) {
		t.Errorf("a state of a newer level: %v", err)
	}
}

// formatIn returns the format of a voter's file, and the number of its last transaction.
func formatIn(t *testing.T, d *Daemon) (format, transaction int) {
	t.Helper()
	if err := d.store.disk.View(func(rows Rows) error {
		var meta Meta
		value, err := get(rows, metaBucket, metaBucket)
		if err != nil {
			return err
		}
		err = json.Unmarshal(value, &meta)
		format, transaction = meta.Format, rows.(fileRows).tx.ID()
		return err
	}); err != nil {
		t.Fatal(err)
	}
	return format, transaction
}

// A state keeps the older format until the level is raised, also in a program that knows the next one. It changes in the
// transaction that saves the level. From then on an older program refuses it.
func TestFormatFollowsTheLevel(t *testing.T) {
	first, says := alone(t, 10)
	says("orders request 0 0 1\n")
	d := reopened(t, first)
	before, was := formatIn(t, d)
	if before != firstFormat || d.store.own.Raised != 0 {
		t.Fatalf("format %d, %+v", before, d.store.own)
	}
	d.setLevel(level.Greets)
	if err := d.save(); err != nil {
		t.Fatal(err)
	}
	if after, is := formatIn(t, d); after != raisedFormat || is != was+1 || d.store.meta.Format != raisedFormat {
		t.Errorf("format %d, and %d transactions", after, is-was)
	}
	own, cluster := d.own, d.cluster
	d.store.disk.Close()
	again, err := Open(own, cluster, &post{}, event.To(io.Discard))
	switch {
	case level.Newest < level.Greets && !errors.Is(err, ErrNewer):
		t.Errorf("an older program: %v", err)
	case level.Newest >= level.Greets && err != nil:
		t.Error(err)
	case err == nil:
		defer again.store.disk.Close()
		if v := again.votes["orders"]; v == nil || v.held().Stamp != 1 || again.store.own.Raised != d.store.own.Start {
			t.Errorf("%+v, %+v", v, again.store.own)
		}
	}
}

// Older and newer formats than those that this program reads are refused by name.
func TestFormatsThatAreRefused(t *testing.T) {
	d, _ := alone(t, 10)
	for format, want := range map[int]error{firstFormat - 1: ErrFormat, firstFormat: nil, raisedFormat + 1: ErrNewer} {
		meta := d.store.meta
		meta.Format = format
		if err := d.store.update(d.store.saves, func(b *batch) error { return b.putMeta(meta) }); err != nil {
			t.Fatal(err)
		}
		if err := d.store.disk.View((&store{}).read); !errors.Is(err, want) {
			t.Errorf("format %d: %v", format, err)
		}
	}
}

// An unknown word of control is ignored, and what is behind it is taken.
func TestUnknownWords(t *testing.T) {
	d, says := alone(t, 10)
	says(". something new\norders request 0 0 1\n")
	if d.votes["orders"] == nil {
		t.Error("a newer program is not heard")
	}
}
