package main

import (
	"bytes"
	"context"
	"errors"
	"fmt"
	"io"
	"math/rand"
	"net"
	"net/http"
	"os"
	"path/filepath"
	"strings"
	"testing"
	"time"

	"calvundek.example/service/internal/bounded"
	"calvundek.example/service/internal/bus"
	"calvundek.example/service/internal/config"
	"calvundek.example/service/internal/event"
	"calvundek.example/service/internal/voter"
	"calvundek.example/service/internal/worlds"
)

// TestMain lets this program be qlock-voter where a test, or a start, runs it as that.
func TestMain(m *testing.M) {
	switch os.Getenv("VOTER_MAIN") {
	case "":
	case "panics":
		panic("what is damaged ends whoever reads it")
	default:
		main()
		return
	}
	os.Exit(m.Run())
}

// files writes the files of a voter, whose state is in a folder beside them.
func files(t *testing.T) (voterFile, data string) {
	t.Helper()
	folder := t.TempDir()
	text, err := worlds.NewCluster(t, worlds.Majority, time.Second).Text()
	if err != nil {
		t.Fatal(err)
	}
	cluster := filepath.Join(folder, "cluster.toml")
	voterFile, data = filepath.Join(folder, "a.toml"), filepath.Join(folder, "a")
	own := fmt.Sprintf("cluster = %q\nvoter = \"a\"\ndata = %q\n", cluster, data)
	for path, text := range map[string]string{cluster: string(text), voterFile: own} {
		if err := os.WriteFile(path, []byte(text), 0o600); err != nil {
			t.Fatal(err)
		}
	}
	return voterFile, data
}

// execute runs a command, and returns why it failed.
func execute(words ...string) error {
	root := command(context.Background())
	root.SetArgs(words)
	return root.Execute()
}

// What no restart mends has the exit status for which the unit starts nothing again.
func TestExitStatus(t *testing.T) {
	t.Setenv("VOTER_MAIN", "1")
	file, data := files(t)
	want := func(what string, status int, err error, is error) {
		t.Helper()
		if err == nil || exitStatus(err) != status || !errors.Is(err, is) {
			t.Errorf("%s: status %d, %v", what, exitStatus(err), err)
		}
	}
	want("no state", exitHopeless, execute("start", "-c", file), voter.ErrMissing)
	want("no file", exitHopeless, execute("start", "-c", file+".none"), config.ErrConfig)
	if err := execute("init", "-c", file); err != nil {
		t.Fatal(err)
	}
	path := filepath.Join(data, "voter.db")
	state, err := os.ReadFile(path)
	if err != nil {
		t.Fatal(err)
	}
	state = bytes.ReplaceAll(state, []byte(`"voter":0`), []byte(`"voter":1`))
	if err := os.WriteFile(path, state, 0o600); err != nil {
		t.Fatal(err)
	}
	want("a damaged state", exitHopeless, voter.Check(data), voter.ErrDamaged)
	if err := execute("start", "-c", file); exitStatus(err) != exitHopeless ||
		!strings.Contains(err.Error(), voter.ErrDamaged.Error()) {
		t.Errorf("a start with a damaged state: %v", err)
	}
	want("a file of before an exchange", exitHopeless, voter.ErrBefore, voter.ErrBefore)
	want("another error", 1, voter.ErrSave, voter.ErrSave)
}

// A voter whose settings are all in the environment needs no file, and neither does its check.
func TestWithoutFile(t *testing.T) {
	t.Setenv("VOTER_MAIN", "1")
	file, data := files(t)
	before, err := os.Getwd()
	if err != nil {
		t.Fatal(err)
	}
	defer os.Chdir(before)
	if err := os.Chdir(t.TempDir()); err != nil {
		t.Fatal(err)
	}
	for name, value := range map[string]string{"CLUSTER": filepath.Join(filepath.Dir(file), "cluster.toml"), "VOTER": "a",
		"DATA": data} {
		t.Setenv("QLOCK_"+name, value)
	}
	if err := execute("init"); err != nil {
		t.Fatal(err)
	}
	if err := checkApart(context.Background(), "", data); err != nil {
		t.Error(err)
	}
	t.Setenv("QLOCK_VOTR", "b")
	if err := execute("start"); exitStatus(err) != exitHopeless || !strings.Contains(err.Error(), "QLOCK_VOTR") {
		t.Errorf("a slip of the pen: status %d, %v", exitStatus(err), err)
	}
}

// The unit starts no voter again that no restart helps. It waits until the voter has started, and
// watches its loop.
func TestUnit(t *testing.T) {
	unit, err := os.ReadFile("../../systemd/qlock-voter@.service")
	if err != nil {
		t.Fatal(err)
	}
	for _, line := range []string{fmt.Sprintf("RestartPreventExitStatus=%d", exitHopeless), "Type=notify",
		"WatchdogSec=60", "CapabilityBoundingSet=", "SystemCallFilter=@system-service"} {
		if !strings.Contains(string(unit), "\n"+line+"\n") {
			t.Errorf("there is no %s", line)
		}
	}
}

// Whatever is damaged or cut off: a start with it ends with one line and the status that no restart
// helps, also where a read ends the process. Or it is nothing that a voter reads, which starts as before.
func TestDamagedStarts(t *testing.T) {
	t.Setenv("VOTER_MAIN", "1")
	file, data := files(t)
	if err := execute("init", "-c", file); err != nil {
		t.Fatal(err)
	}
	path := filepath.Join(data, "voter.db")
	state, err := os.ReadFile(path)
	if err != nil {
		t.Fatal(err)
	}
	page, used := os.Getpagesize(), int(state[56]) // how many pages the first root says there are
	run := func(what string, wrong []byte, isFound bool) bool {
		t.Helper()
		if err := os.WriteFile(path, wrong, 0o600); err != nil {
			t.Fatal(err)
		}
		err := checkApart(context.Background(), file, data)
		if err == nil && !isFound {
			opens(t, what, file)
			return false
		}
		if err == nil || exitStatus(err) != exitHopeless || strings.Contains(err.Error(), "\n") {
			t.Errorf("%s: status %d, %v", what, exitStatus(err), err)
		}
		return true
	}
	run("an empty file", nil, true)
	for pages := 1; pages < used; pages++ {
		run(fmt.Sprint("a file of which there are pages: ", pages), state[:pages*page], true)
	}
	// the list of free pages that the newer root names gets a count that is far too great
	root := 0
	if state[page+64] > state[64] {
		root = page
	}
	endless := append([]byte(nil), state...)
	free := page * int(state[root+48])
	copy(endless[free+10:], []byte{0xff, 0xff, 0, 0, 0, 0, 0xff, 0xff, 0xff, 0xff, 0xff, 0xff})
	run("a list of free pages without an end", endless, true)
	found, random := 0, rand.New(rand.NewSource(1))
	for n := 0; n < 60; {
		at := random.Intn(len(state))
		if state[at] == 0 {
			continue
		}
		wrong := append([]byte(nil), state...)
		wrong[at] ^= 1 << random.Intn(8)
		if n++; run(fmt.Sprint("a bit of byte ", at), wrong, false) {
			found++
		}
	}
	if found < 10 {
		t.Errorf("%d bits were found", found)
	}
}

// opens opens a state of which the check found nothing, and ends the voter.
func opens(t *testing.T, what, file string) {
	t.Helper()
	own, cluster, err := config.ReadVoter(file)
	if err != nil {
		t.Fatal(err)
	}
	daemon, err := voter.Open(own, cluster, bus.New(1).Port(), event.To(io.Discard))
	if err != nil {
		t.Errorf("%s: nothing is found, and the state can't be opened: %v", what, err)
		return
	}
	ended, end := context.WithCancel(context.Background())
	end()
	if err := daemon.Run(ended); err != nil {
		t.Errorf("%s: nothing is found, and the voter ends: %v", what, err)
	}
}

// A check that ends by a panic, or by what it reads, has found damage: no restart mends that.
func TestCheckThatPanics(t *testing.T) {
	file, data := files(t)
	t.Setenv("VOTER_MAIN", "panics")
	if err := checkApart(context.Background(), file, data); !errors.Is(err, voter.ErrDamaged) || exitStatus(err) != exitHopeless ||
		strings.Contains(err.Error(), "\n") {
		t.Errorf("status %d, %v", exitStatus(err), err)
	}
}

// Who reaches the address of /metrics can't take the voter's files: few connections stay, and the others end at once.
func TestFewConnectionsShow(t *testing.T) {
	listener, err := net.Listen("tcp", "127.0.0.1:0")
	if err != nil {
		t.Fatal(err)
	}
	server := show(listener, http.NotFoundHandler())
	defer server.Close()
	var all []net.Conn
	for n := 0; n < bounded.MostShown+4; n++ {
		one, err := net.Dial("tcp", listener.Addr().String())
		if err != nil {
			t.Fatal(err)
		}
		defer one.Close()
		if _, err := io.WriteString(one, "GET /healthz HTTP/1.1\r\nHost: x\r\nContent-Length: 100000\r\n\r\n"); n < bounded.MostShown && err != nil {
			t.Fatal(err)
		}
		all = append(all, one)
	}
	last := all[bounded.MostShown+3]
	_ = last.SetReadDeadline(time.Now().Add(3 * time.Second)) // before any time of the server is over
	if n, err := last.Read(make([]byte, 1)); n > 0 || errors.Is(err, os.ErrDeadlineExceeded) {
		t.Errorf("connection %d stays: %v", len(all), err)
	}
	if server.ReadTimeout == 0 || server.WriteTimeout == 0 {
		t.Error("a body that never comes may be waited for")
	}
}
