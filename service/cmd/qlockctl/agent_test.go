package main

import (
	"bytes"
	"context"
	"encoding/hex"
	"encoding/json"
	"errors"
	"fmt"
	"io"
	"net"
	"net/http"
	"os"
	"path/filepath"
	"regexp"
	"strings"
	"testing"
	"time"

	"calvundek.example/service/agent"
	"calvundek.example/service/internal/bus"
	"calvundek.example/service/internal/event"
	"calvundek.example/service/internal/qlockd"
	"calvundek.example/service/internal/worlds"
	"calvundek.example/service/locks"
)

// agentIn starts an agent, and returns its socket and its port to the voters.
func agentIn(t *testing.T, ttl time.Duration) (string, *bus.Port) {
	t.Helper()
	w := worlds.New(t, worlds.Majority, ttl)
	port := w.Bus.Port()
	return agentOn(t, w, port), port
}

// agentOn starts an agent of a cluster, and returns its socket.
func agentOn(t *testing.T, w *worlds.World, port *bus.Port) string {
	t.Helper()
	socket := filepath.Join(t.TempDir(), "q.sock")
	listener, err := qlockd.Listen(socket, "")
	if err != nil {
		t.Fatal(err)
	}
	daemon := qlockd.New(qlockd.Config{Log: event.To(io.Discard), Locks: locks.Config{Cluster: fileOf(t, w), Transport: port}})
	ctx, cancel := context.WithCancel(context.Background())
	ended := make(chan error, 1)
	go func() { ended <- daemon.Serve(ctx, listener) }()
	t.Cleanup(func() {
		cancel()
		if err := <-ended; err != nil {
			t.Error(err)
		}
	})
	return socket
}

// runs returns the exit status of a command.
func runs(t *testing.T, words ...string) int {
	t.Helper()
	root := command(context.Background())
	root.SetArgs(words)
	err := root.Execute()
	end := status{code: 1}
	if errors.As(err, &end); err == nil {
		return 0
	}
	return end.code
}

// deletes gives a lock back that another process has, again and again until it is stopped.
func deletes(socket, lock string) (stop func()) {
	client := &http.Client{Transport: &http.Transport{DisableKeepAlives: true,
		DialContext: func(ctx context.Context, _, _ string) (net.Conn, error) {
			return (&net.Dialer{}).DialContext(ctx, "unix", socket)
		}}}
	call := func(method, query string, into interface{}) {
		request, _ := http.NewRequest(method, "http://q/v1/locks/"+lock+query, nil)
		if reply, err := client.Do(request); err == nil {
			_ = json.NewDecoder(reply.Body).Decode(into)
			_ = reply.Body.Close()
		}
	}
	done, stopped := make(chan struct{}), make(chan struct{})
	go func() {
		defer close(stopped)
		for {
			var list struct{ Locks []struct{ ID string } }
			if call("GET", "", &list); len(list.Locks) == 1 && list.Locks[0].ID != "" {
				call("DELETE", "?id="+list.Locks[0].ID, &struct{}{})
			}
			select {
			case <-done:
				return
			case <-time.After(5 * time.Millisecond):
			}
		}
	}()
	return func() { close(done); <-stopped }
}

// By an agent each exit status is the same as without one.
func TestRunByAgent(t *testing.T) {
	t.Setenv("QLOCK_TURN", "7") // of another lock
	socket, port := agentIn(t, 2*time.Second)
	held, err := agent.New(socket).Lock(context.Background(), "held")
	if err != nil {
		t.Fatal(err)
	}
	for _, one := range []struct {
		want  int
		words []string
	}{
		{0, []string{"--wait", "30s", "x", "true"}},
		{7, []string{"x", "sh", "-c", "exit 7"}},
		{0, []string{"x", "sh", "-c", "[ ${#QLOCK_PASS} = 1024 ] && [ -z \"$QLOCK_TURN\" ]"}},
		{0, []string{"--turn", "x", "sh", "-c", "[ \"$QLOCK_TURN\" -gt 0 ]"}},
		{137, []string{"x", "sh", "-c", "kill -9 $$"}},
		{exitNone, []string{"x", "/there/is/none"}},
		{exitNoStart, []string{"x", "/dev/null"}},
		{exitNoLock, []string{"--try", "held", "true"}},
		{exitNoLock, []string{"--wait", "300ms", "held", "true"}},
		{exitSettings, []string{"a b", "true"}},
		{exitSettings, []string{"--grace", "1s", "x", "true"}},
		{exitSettings, []string{"--no-note", "x", "true"}},
		{7, []string{"--grace", "100ms", "x", "sh", "-c", "exit 7"}},
	} {
		if got := runs(t, append([]string{"run", "--agent", socket}, one.words...)...); got != one.want {
			t.Errorf("%q: %d", one.words, got)
		}
	}
	stop := deletes(socket, "x") // that of the run before may still be there
	if got := runs(t, "run", "--agent", socket, "x", "sleep", "60"); got != exitLost {
		t.Error(got)
	}
	stop()
	time.AfterFunc(300*time.Millisecond, func() { port.Cut(true) })
	if got := runs(t, "run", "--agent", socket, "x", "sleep", "60"); got != exitLost {
		t.Error(got)
	}
	if got := runs(t, "run", "--agent", socket, "--wait", "300ms", "x", "true"); got != exitNoLock {
		t.Error(got)
	}
	port.Cut(false)
	if err := held.Unlock(); !errors.Is(err, agent.ErrLost) {
		t.Error(err)
	}
}

// Another try may help where no agent listens, and the message names its socket. It does not help where the path
// is none of a socket, or the user may not connect.
func TestAgentIsDown(t *testing.T) {
	folder := t.TempDir()
	left, locked := filepath.Join(folder, "left.sock"), filepath.Join(folder, "locked.sock")
	for _, path := range []string{left, locked} {
		listener, err := net.ListenUnix("unix", &net.UnixAddr{Name: path, Net: "unix"})
		if err != nil {
			t.Fatal(err)
		}
		listener.SetUnlinkOnClose(false)
		_ = listener.Close()
	}
	if err := os.Chmod(locked, 0); err != nil {
		t.Fatal(err)
	}
	wants := map[string]int{filepath.Join(folder, "none.sock"): exitNoLock, left: exitNoLock,
		filepath.Join(folder, strings.Repeat("long", 40)): exitSettings}
	if os.Getuid() != 0 { // who may do all may connect there, too
		wants[locked] = exitSettings
	}
	for path, want := range wants {
		err := runByAgent(context.Background(), agent.New(path), taking{lock: "x", wait: time.Second}, 0, []string{"true"})
		var end status
		if !errors.As(err, &end) || end.code != want || !errors.Is(err, agent.ErrAbsent) || !strings.Contains(err.Error(), path) ||
			strings.Contains(err.Error(), "try again") != (want == exitNoLock) {
			t.Errorf("%s: %v, %d", path, err, end.code)
		}
	}
}

// Another try may help where the agent has no number, or no quorum. It does not help where the servers of NATS refuse its user.
func TestFaultsOfTheAgent(t *testing.T) {
	socket := filepath.Join(t.TempDir(), "q.sock")
	listener, err := net.Listen("unix", socket)
	if err != nil {
		t.Fatal(err)
	}
	word := make(chan string, 1)
	server := &http.Server{Handler: http.HandlerFunc(func(w http.ResponseWriter, _ *http.Request) {
		w.WriteHeader(http.StatusTeapot)
		_ = json.NewEncoder(w).Encode(map[string]string{"fault": <-word, "why": "because"})
	})}
	go server.Serve(listener)
	defer server.Close()
	for said, want := range map[string]int{"numbers": exitNoLock, "unreachable": exitNoLock, "closing": exitNoLock, "full": exitNoLock,
		"denied": exitSettings, "request": exitSettings, "name": exitSettings} {
		word <- said
		if got := runs(t, "run", "--agent", socket, "x", "true"); got != want {
			t.Errorf("%s: %d", said, got)
		}
	}
}

// The agent's lock is free as soon as the program has ended, and its pass is the agent's.
func TestPassOfTheAgent(t *testing.T) {
	socket, _ := agentIn(t, 20*time.Second)
	began := time.Now()
	for n := 0; n < 3; n++ {
		if got := runs(t, "run", "--agent", socket, "x", "true"); got != 0 {
			t.Error(got)
		}
	}
	held, err := agent.New(socket).TryLock(context.Background(), "x")
	if err != nil || time.Since(began) > 15*time.Second {
		t.Fatal(err, time.Since(began))
	}
	if text := hex.EncodeToString(held.Token()); len(text) != 1024 {
		t.Error(text)
	}
	if err := held.Unlock(); err != nil {
		t.Error(err)
	}
}

// By an agent who has a lock is shown as without one, and no cluster's file is read.
func TestLookByAgent(t *testing.T) {
	w := worlds.New(t, worlds.Majority, 4*time.Second)
	port := w.Bus.Port()
	socket := agentOn(t, w, port)
	held, err := agent.New(socket).Lock(context.Background(), "x-held")
	if err != nil {
		t.Fatal(err)
	}
	t.Setenv("QLOCK_AGENT", socket)
	t.Setenv("QLOCK_CLUSTER", "")
	ctx, cancel := context.WithTimeout(context.Background(), 20*time.Second)
	defer cancel()
	direct, err := locks.Look(locks.Config{Cluster: fileOf(t, w), Transport: port})
	if err != nil {
		t.Fatal(err)
	}
	defer direct.Close(ctx)
	byHand := func(of looks) string {
		var text bytes.Buffer
		if err := listLocks(ctx, of, "x", true, &text); err != nil {
			t.Error(err)
		}
		holder, err := of.Who(ctx, "x-held")
		watching, stop := context.WithCancel(ctx)
		defer stop()
		changes, failed := of.Watch(watching, "x-held")
		if err != nil || failed != nil || (<-changes).Session != holder.Session {
			t.Error(err, failed)
		}
		since := regexp.MustCompile(`"since":"[^"]*"`) // by what each of the voters says
		return since.ReplaceAllString(text.String(), "") + fmt.Sprint(holder.Session, holder.Number, holder.Pid)
	}
	if one, other := byHand(direct), byHand(byAgent{agent.New(socket)}); one != other || !strings.Contains(one, "x-held") {
		t.Errorf("%s\n%s", one, other)
	}
	for _, words := range [][]string{{"who", "x-held"}, {"list"}, {"list", "--json", "x"}} {
		if got := runs(t, words...); got != 0 {
			t.Errorf("%q: %d", words, got)
		}
	}
	for _, words := range [][]string{{"who", "--agent", "none", "x"}, {"list", "-c", "/there/is/none"}, {"watch", "--agent", "/none.sock", "x"}} {
		if got := runs(t, words...); got != 1 {
			t.Errorf("%q: %d", words, got)
		}
	}
	if err := held.Unlock(); err != nil {
		t.Error(err)
	}
}

// An agent is used if it is named, or if it is there and nothing names a cluster or a user. Flags go before the environment.
func TestWhichAgent(t *testing.T) {
	usual := filepath.Join(t.TempDir(), "q.sock")
	which := func(words ...string) string {
		t.Helper()
		command := runCommand(context.Background(), &settings{})
		for _, name := range append([]string{"timeout"}, whoAndWhere...) {
			command.Flags().String(name, "", "")
		}
		if err := command.ParseFlags(words); err != nil {
			t.Fatal(err)
		}
		if err := readEnvironment(command); err != nil {
			t.Fatal(err)
		}
		return agentOf(command.Flags(), command.Flags().Lookup("agent").Value.String(), usual)
	}
	for _, name := range append([]string{"agent"}, whoAndWhere...) {
		t.Setenv("QLOCK_"+strings.ToUpper(name), "")
	}
	if got := which(); got != "" {
		t.Errorf("%q is not there", got)
	}
	listener, err := net.Listen("unix", usual)
	if err != nil {
		t.Fatal(err)
	}
	defer listener.Close()
	for _, one := range []struct {
		environment, words, want string
	}{
		{"", "", usual},
		{"", "--agent=/a", "/a"},
		{"", "--agent=none", ""},
		{"", "--cluster=/c", ""},
		{"", "--user=jobs", ""},
		{"", "--agent=/a --cluster=/c", "/a"},
		{"agent=/e", "", "/e"},
		{"agent=none", "", ""},
		{"agent=/e", "--agent=/a", "/a"},
		{"agent=/e", "--agent=none", ""},
		{"agent=/e", "--cluster=/c", ""},
		{"cluster=/c", "", ""},
		{"user=jobs", "", ""},
		{"cluster=/c agent=/e", "", "/e"},
	} {
		for _, name := range append([]string{"agent"}, whoAndWhere...) {
			t.Setenv("QLOCK_"+strings.ToUpper(name), "")
		}
		for _, pair := range strings.Fields(one.environment) {
			name, value, _ := strings.Cut(pair, "=")
			t.Setenv("QLOCK_"+strings.ToUpper(name), value)
		}
		if got := which(strings.Fields(one.words)...); got != one.want {
			t.Errorf("%q with %q in the environment: %q", one.words, one.environment, got)
		}
	}
}
