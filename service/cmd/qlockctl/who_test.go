package main

import (
	"bufio"
	"bytes"
	"context"
	"encoding/json"
	"errors"
	"io"
	"os"
	"strings"
	"testing"
	"time"

	"calvundek.example/service/internal/view"
	"calvundek.example/service/internal/worlds"
	"calvundek.example/service/locks"
)

// A command that runs under a lock is seen by its name, unless it has another note. Locks are listed in lines and as JSON.
func TestWhoRuns(t *testing.T) {
	w := worlds.New(t, worlds.Majority, 20*time.Second)
	path := fileOf(t, w)
	looker, err := locks.Look(locks.Config{Cluster: path, Transport: w.Bus.Port()})
	if err != nil {
		t.Fatal(err)
	}
	ctx, cancel := context.WithTimeout(context.Background(), 30*time.Second)
	defer cancel()
	ended := make(chan error, 1)
	running, stop := context.WithCancel(ctx)
	go func() {
		ended <- run(running, locks.Config{Cluster: path, Transport: w.Bus.Port(), Note: "sleep"}, taking{lock: "x", wait: 10 * time.Second},
			100*time.Millisecond, []string{"sleep", "60"})
	}()
	var holder locks.Holder
	for holder.Note != "sleep" && ctx.Err() == nil {
		if holder, err = looker.Who(ctx, "x"); err != nil {
			t.Fatal(err)
		}
	}
	host, _ := os.Hostname()
	if v := view.Of("x", holder); !v.Held || v.Asked || v.Host != host || v.Pid != os.Getpid() || v.Note != "sleep" || v.Client == nil ||
		v.Since == nil {
		t.Errorf("%+v", v)
	}
	var text bytes.Buffer
	if err := listLocks(ctx, looker, "x", false, &text); err != nil || !strings.HasPrefix(text.String(), "x          ") ||
		!strings.Contains(text.String(), `note="sleep"`) || strings.Count(text.String(), "\n") != 1 {
		t.Errorf("%v: %q", err, text.String())
	}
	text.Reset()
	var views []view.Holder
	if err := listLocks(ctx, looker, "", true, &text); err != nil {
		t.Fatal(err)
	}
	if err := json.Unmarshal(text.Bytes(), &views); err != nil || len(views) != 1 || views[0].Lock != "x" || views[0].Note != "sleep" {
		t.Errorf("%v: %s", err, text.String())
	}
	stop()
	<-ended
	text.Reset()
	if err := listLocks(ctx, looker, "none", true, &text); err != nil || text.String() != "[]\n" {
		t.Errorf("%v: %q", err, text.String())
	}
	if text, err := json.Marshal(view.Of("x", locks.Holder{})); err != nil || string(text) != `{"lock":"x","held":false}` {
		t.Errorf("%v: %s", err, text)
	}
}

// A name that no lock has is refused before anybody is asked.
func TestWhoName(t *testing.T) {
	for _, name := range []string{"who", "watch"} {
		root := command(context.Background())
		root.SetArgs([]string{name, "--cluster", "/there/is/none", "a b"})
		if err := root.Execute(); !errors.Is(err, locks.ErrName) {
			t.Error(err)
		}
	}
}

// Who watches a lock gets a line for who has it, and one for each change, until he ends. Without a quorum of voters he hears so.
func TestWatchLock(t *testing.T) {
	w := worlds.New(t, worlds.Majority, 20*time.Second)
	path := fileOf(t, w)
	port := w.Bus.Port()
	looker, err := locks.Look(locks.Config{Cluster: path, Transport: port})
	if err != nil {
		t.Fatal(err)
	}
	defer looker.Close(context.Background())
	ctx, cancel := context.WithTimeout(context.Background(), 60*time.Second)
	defer cancel()
	for _, inJSON := range []bool{false, true} {
		in, out := io.Pipe()
		lines, ended := bufio.NewScanner(in), make(chan error, 1)
		watching, stop := context.WithCancel(ctx)
		go func() { ended <- watchLock(watching, looker, "x", 20*time.Second, inJSON, out); _ = out.Close() }()
		next := func(want string) {
			t.Helper()
			for lines.Scan() && !strings.Contains(lines.Text(), want) { // it may be asked for first
				if !strings.Contains(lines.Text(), "asked") {
					t.Errorf("%q, not %q", lines.Text(), want)
				}
			}
		}
		nobody := map[bool]string{false: "nobody", true: `{"lock":"x","held":false}`}[inJSON]
		next(nobody)
		client, err := locks.Open(ctx, locks.Config{Cluster: path, Transport: w.Bus.Port(), NoNote: true})
		if err != nil {
			t.Fatal(err)
		}
		held, err := client.Lock(ctx, "x")
		if err != nil {
			t.Fatal(err)
		}
		next(map[bool]string{false: "client ", true: `"held":true,`}[inJSON])
		if err := held.Unlock(); err != nil {
			t.Error(err)
		}
		next(nobody)
		_ = client.Close(ctx)
		stop()
		if err := <-ended; !errors.Is(err, context.Canceled) {
			t.Error(err)
		}
	}
	port.Cut(true)
	if err := watchLock(ctx, looker, "x", 100*time.Millisecond, false, io.Discard); !errors.Is(err, locks.ErrNoQuorum) {
		t.Error(err)
	}
}
