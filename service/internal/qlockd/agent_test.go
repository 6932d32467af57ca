package qlockd

import (
	"bufio"
	"context"
	"encoding/hex"
	"encoding/json"
	"errors"
	"fmt"
	"io"
	"net"
	"net/http"
	"os"
	"os/user"
	"path/filepath"
	"strconv"
	"strings"
	"sync"
	"sync/atomic"
	"testing"
	"time"

	"calvundek.example/service/agent"
	"calvundek.example/service/guard"
	"calvundek.example/service/internal/boot"
	"calvundek.example/service/internal/bounded"
	"calvundek.example/service/internal/bus"
	"calvundek.example/service/internal/config"
	"calvundek.example/service/internal/event"
	"calvundek.example/service/internal/local"
	"calvundek.example/service/internal/worlds"
	"calvundek.example/service/locks"
	"golang.org/x/sys/unix"
)

// ttl is that of a cluster in which nothing is to be lost on a busy machine.
const ttl = 20 * time.Second

// host is an agent within a test.
type host struct {
	t      *testing.T
	world  *worlds.World
	file   string // of the cluster
	port   *bus.Port
	socket string
	agent  *Agent
	log    *lines
	stop   func()
	ended  chan error
}

// lines are what was logged.
type lines struct{ path string }

func (l *lines) Write(text []byte) (int, error) {
	file, err := os.OpenFile(l.path, os.O_WRONLY|os.O_CREATE|os.O_APPEND, 0o600)
	if err != nil {
		return 0, err
	}
	defer file.Close()
	return file.Write(text)
}

func (l *lines) text() string {
	text, _ := os.ReadFile(l.path)
	return string(text)
}

// grown has two voters more. Each of its quorums has two of the old ones, and one of the new ones.
const grown = `voters = ["a", "b", "c", "d", "e"]
quorums = [["a", "b", "d"], ["a", "c", "e"], ["b", "c", "d"], ["b", "c", "e"]]
`

// start starts a cluster, and an agent.
func start(t *testing.T, ttl time.Duration) *host {
	t.Helper()
	return startBy(t, ttl, func(l net.Listener) net.Listener { return l })
}

// startBy starts a cluster, and an agent that listens by what it is given.
func startBy(t *testing.T, ttl time.Duration, by func(net.Listener) net.Listener) *host {
	t.Helper()
	w := worlds.New(t, worlds.Majority, ttl)
	text, err := w.Cluster.Text()
	if err != nil {
		t.Fatal(err)
	}
	file := filepath.Join(t.TempDir(), "cluster.toml")
	if err := os.WriteFile(file, text, 0o600); err != nil {
		t.Fatal(err)
	}
	return startInBy(t, w, file, by)
}

// startIn starts an agent of a cluster.
func startIn(t *testing.T, w *worlds.World, file string) *host {
	t.Helper()
	return startInBy(t, w, file, func(l net.Listener) net.Listener { return l })
}

func startInBy(t *testing.T, w *worlds.World, file string, by func(net.Listener) net.Listener) *host {
	t.Helper()
	folder := t.TempDir()
	h := &host{t: t, world: w, file: file, port: w.Bus.Port(), socket: filepath.Join(folder, "q.sock"),
		log: &lines{filepath.Join(folder, "log")}, ended: make(chan error, 1)}
	log := event.To(h.log)
	log.SetLeast(event.Debug)
	h.agent = New(Config{Log: log, Connections: 20,
		Locks: locks.Config{Cluster: file, Transport: h.port, NoNote: true}}) // its own process is that of the tests
	listener, err := Listen(h.socket, "")
	if err != nil {
		t.Fatal(err)
	}
	ctx, cancel := context.WithCancel(context.Background())
	h.stop = cancel
	go func() { h.ended <- h.agent.Serve(ctx, by(listener)) }()
	t.Cleanup(func() {
		cancel()
		if err := <-h.ended; err != nil {
			t.Error(err)
		}
	})
	return h
}

// stream is a connection that asks for a lock, or has it.
type stream struct {
	t          *testing.T
	connection net.Conn
	reply      *http.Response
	lines      *bufio.Scanner
}

// post asks for a lock, and does not wait.
func (h *host) post(path string) *stream {
	h.t.Helper()
	connection, err := net.Dial("unix", h.socket)
	if err != nil {
		h.t.Fatal(err)
	}
	h.t.Cleanup(func() { _ = connection.Close() })
	_ = connection.SetDeadline(time.Now().Add(60 * time.Second))
	if _, err := fmt.Fprintf(connection, "POST /v1/locks/%s HTTP/1.1\r\nHost: q\r\nContent-Length: 0\r\n\r\n", path); err != nil {
		h.t.Fatal(err)
	}
	return &stream{t: h.t, connection: connection}
}

// status waits for the reply's status.
func (s *stream) status() int {
	s.t.Helper()
	reply, err := http.ReadResponse(bufio.NewReader(s.connection), nil)
	if err != nil {
		s.t.Fatal(err)
	}
	s.reply, s.lines = reply, bufio.NewScanner(reply.Body)
	return reply.StatusCode
}

// line returns the next line, nil at the end.
func (s *stream) line() map[string]interface{} {
	s.t.Helper()
	if !s.lines.Scan() {
		return nil
	}
	var line map[string]interface{}
	if err := json.Unmarshal(s.lines.Bytes(), &line); err != nil {
		s.t.Fatalf("%s: %v", s.lines.Text(), err)
	}
	return line
}

// later reads lines until one says that the lock lasts for longer than this one said.
func (s *stream) later(than map[string]interface{}) map[string]interface{} {
	s.t.Helper()
	for end := time.Now().Add(20 * time.Second); time.Now().Before(end); {
		line := s.line()
		switch until, isThere := line["until_ms"].(float64); {
		case !isThere || until < than["until_ms"].(float64):
			s.t.Fatal(line)
		case until > than["until_ms"].(float64):
			return line
		}
	}
	s.t.Fatal("the lock lasts for no longer")
	return nil
}

// last skips the lines that only say for how long the lock lasts, and returns the next one.
func (s *stream) last() map[string]interface{} {
	s.t.Helper()
	for {
		line := s.line()
		if _, more := line["until_ms"]; !more {
			return line
		}
	}
}

// take takes a lock, which has to succeed, and returns the first line.
func (h *host) take(path string) (*stream, map[string]interface{}) {
	h.t.Helper()
	s := h.post(path)
	if status := s.status(); status != http.StatusOK {
		h.t.Fatal(status, s.line())
	}
	return s, s.line()
}

// refused asks for what is refused, and returns status and word.
func (h *host) refused(path string) string {
	h.t.Helper()
	s := h.post(path)
	status := s.status()
	return fmt.Sprint(status, " ", s.line()["fault"])
}

// call calls the agent once, and returns status and body.
func (h *host) call(method, path string) (int, string) {
	h.t.Helper()
	client := &http.Client{Timeout: time.Minute, Transport: &http.Transport{DisableKeepAlives: true,
		DialContext: func(ctx context.Context, _, _ string) (net.Conn, error) {
			return (&net.Dialer{}).DialContext(ctx, "unix", h.socket)
		}}}
	request, err := http.NewRequest(method, "http://q"+path, nil)
	if err != nil {
		h.t.Fatal(err)
	}
	reply, err := client.Do(request)
	if err != nil {
		h.t.Fatal(err)
	}
	defer reply.Body.Close()
	body, _ := io.ReadAll(reply.Body)
	return reply.StatusCode, string(body)
}

// listed returns the list of a path, without times.
func (h *host) listed(path string) (rows []string) {
	h.t.Helper()
	_, body := h.call("GET", path)
	var list struct{ Locks []listed }
	if err := json.Unmarshal([]byte(body), &list); err != nil {
		h.t.Fatal(body, err)
	}
	for _, one := range list.Locks {
		rows = append(rows, fmt.Sprint(one.Lock, " ", one.State))
	}
	return rows
}

// until waits until something holds.
func (h *host) until(what string, holds func() bool) {
	h.t.Helper()
	for end := time.Now().Add(30 * time.Second); !holds(); time.Sleep(5 * time.Millisecond) {
		if time.Now().After(end) {
			h.t.Fatal("never ", what)
		}
	}
}

// The first line has all that a program needs: the pass, which a guard admits, and until when the lock lasts.
func TestFirstLine(t *testing.T) {
	h := start(t, ttl)
	before := boot.Uptime().Milliseconds()
	s, line := h.take("orders?wait=30s")
	defer s.connection.Close()
	pass, err := hex.DecodeString(line["pass"].(string))
	if err != nil {
		t.Fatal(err)
	}
	if _, _, err := guard.Admit(guard.New(), pass); err != nil {
		t.Error(err)
	}
	left, until, most := int64(line["left_ms"].(float64)), int64(line["until_ms"].(float64)), ttl.Milliseconds()
	if line["held"] != true || line["lock"] != "orders" || line["ttl_ms"] != float64(most) || len(line["id"].(string)) != 16 {
		t.Error(line)
	}
	if left <= 0 || left > most*8/10 || until < before+left || until > boot.Uptime().Milliseconds()+most*8/10 {
		t.Error(line, before)
	}
	if asked := int64(line["asked_ms"].(float64)); asked < before || asked > until-left {
		t.Errorf("it was asked at %d: %v, %d", asked, line, before)
	}
	if kind := s.reply.Header.Get("Content-Type"); kind != "application/x-ndjson" {
		t.Error(kind)
	}
}

// The turn of a lock grows from holder to holder. Nobody has it who did not ask for it.
func TestTurns(t *testing.T) {
	h := start(t, ttl)
	last := uint64(0)
	for i := 0; i < 3; i++ {
		s, line := h.take("orders?turn=1&wait=30s")
		text, _ := line["turn"].(string)
		turn, err := strconv.ParseUint(text, 10, 64)
		if err != nil || turn <= last {
			t.Errorf("%v after %d: %v", line["turn"], last, err)
		}
		last = turn
		_ = s.connection.Close()
		h.until("given back", func() bool { return len(h.listed("/v1/locks/orders")) == 0 })
	}
	s, line := h.take("orders?turn=0")
	defer s.connection.Close()
	if line["turn"] != nil {
		t.Error(line)
	}
	if got := h.refused("x?turn=yes"); got != "400 request" {
		t.Error(got)
	}
}

// A lock lasts as long as its connection, whole or half of it. Who closes half of it hears that the lock was given back.
func TestLockLastsAsItsConnection(t *testing.T) {
	h := start(t, ttl)
	for _, closes := range []func(s *stream){
		func(s *stream) { _ = s.connection.Close() },
		func(s *stream) {
			_ = s.connection.(*net.UnixConn).CloseWrite()
			if line := s.last(); line["unlocked"] != true {
				t.Error(line)
			}
		},
	} {
		s, _ := h.take("x")
		if got := h.refused("x?try=1"); got != "409 held" {
			t.Error(got)
		}
		closes(s)
		h.until("given back", func() bool { return len(h.listed("/v1/locks/x")) == 0 })
		again, _ := h.take("x?wait=30s")
		_ = again.connection.Close()
		h.until("given back", func() bool { return len(h.listed("/v1/locks/x")) == 0 })
	}
}

// The lock of a process that closes its connection is kept for a moment: if it died, those that have to die with it do. Who shuts half of it
// down lives.
func TestLockOutlastsTheDeathOfItsProcess(t *testing.T) {
	h := start(t, ttl)
	s, _ := h.take("x")
	w := h.post("x?wait=30s")
	h.until("waiting", func() bool { return len(h.listed("/v1/locks/x")) == 2 })
	closed := time.Now()
	_ = s.connection.Close()
	if status := w.status(); status != http.StatusOK {
		t.Error(status)
	}
	if after := time.Since(closed); after < dies {
		t.Errorf("the next one has the lock after %v", after)
	}
	_ = w.connection.Close()
	for _, closes := range []bool{false, true} {
		files, err := unix.Socketpair(unix.AF_UNIX, unix.SOCK_STREAM, 0)
		if err != nil {
			t.Fatal(err)
		}
		file := os.NewFile(uintptr(files[0]), "socket")
		connection, err := net.FileConn(file)
		if err != nil {
			t.Fatal(err)
		}
		if file.Close(); closes {
			_ = unix.Close(files[1])
		} else {
			_ = unix.Shutdown(files[1], unix.SHUT_WR)
			defer unix.Close(files[1])
		}
		if !events(connection, unix.POLLRDHUP) || events(connection, unix.POLLHUP) != closes {
			t.Errorf("closed: %v", closes)
		}
		_ = connection.Close()
	}
}

// Who sends more on the connection of a lock, and dies, gives it back with the next line at the latest.
func TestConnectionWithMoreOnIt(t *testing.T) {
	h := start(t, 2*time.Second)
	s, _ := h.take("x")
	if _, err := s.connection.Write([]byte("GET /v1/status HTTP/1.1\r\nHost: q\r\n\r\n")); err != nil {
		t.Fatal(err)
	}
	if line := s.line(); line["left_ms"] == nil {
		t.Error(line)
	}
	_ = s.connection.Close()
	h.until("given back", func() bool { return len(h.listed("/v1/locks/x")) == 0 })
}

// Who sends a byte behind the request, and dies or shuts its half down, does not wait any more, and has no lock any more.
func TestByteBehindTheRequest(t *testing.T) {
	h := start(t, ttl)
	send := func(s *stream) *net.UnixConn {
		t.Helper()
		time.Sleep(100 * time.Millisecond) // it comes for itself
		if _, err := s.connection.Write([]byte("G")); err != nil {
			t.Fatal(err)
		}
		time.Sleep(100 * time.Millisecond)
		return s.connection.(*net.UnixConn)
	}
	s, _ := h.take("x")
	w := h.post("x")
	h.until("waiting", func() bool { return len(h.listed("/v1/locks/x")) == 2 })
	_ = send(w).Close()
	h.until("forgotten", func() bool { return len(h.listed("/v1/locks/x")) == 1 })
	_ = send(s).CloseWrite()
	if line := s.last(); line["unlocked"] != true {
		t.Error(line)
	}
}

// Each line says until when the lock lasts, and a later one says no earlier time, and soon a later one.
func TestLinesAtIntervals(t *testing.T) {
	h := start(t, 4*time.Second)
	s, first := h.take("x")
	defer s.connection.Close()
	for n := 0; n < 3; n++ {
		if first = s.later(first); first["left_ms"].(float64) > 3200 {
			t.Error(first)
		}
	}
}

// Who waits for a lock in one agent gets it in the order in which he came.
func TestWaitersQueue(t *testing.T) {
	h := start(t, ttl)
	first, _ := h.take("x")
	var waiters []*stream
	want := []string{"x held"}
	for n := 0; n < 5; n++ {
		waiters = append(waiters, h.post("x"))
		want = append(want, "x waiting")
		h.until("waiting", func() bool { return len(h.listed("/v1/locks/x")) == len(want) })
		time.Sleep(50 * time.Millisecond) // until the session has it in its queue, too
	}
	if got := h.listed("/v1/locks"); fmt.Sprint(got) != fmt.Sprint(want) {
		t.Error(got)
	}
	order := make(chan int, len(waiters))
	for n, w := range waiters {
		go func(n int, w *stream) {
			if w.status() == http.StatusOK {
				w.line()
				order <- n
			}
			_ = w.connection.Close()
		}(n, w)
	}
	_ = first.connection.Close()
	for n := range waiters {
		if got := <-order; got != n {
			t.Errorf("%d is served in the place of %d", got, n)
		}
	}
}

// Who makes too many connections takes no lock away: those that are too many end at once.
func TestTooManyConnections(t *testing.T) {
	h := start(t, 2*time.Second)
	s, first := h.take("x")
	var idle []net.Conn
	for n := 0; n < 25; n++ {
		connection, err := net.Dial("unix", h.socket)
		if err != nil {
			t.Fatal(err)
		}
		idle = append(idle, connection)
		defer connection.Close()
	}
	_ = idle[24].SetReadDeadline(time.Now().Add(20 * time.Second))
	if _, err := idle[24].Read(make([]byte, 1)); err != io.EOF {
		t.Error(err)
	}
	if have := h.agent.connections.Load(); have != 15 {
		t.Errorf("one user has %d of 20 connections, and leaves the others to other users", have)
	}
	s.later(first)
	for _, connection := range idle {
		_ = connection.Close()
	}
	h.until("room again", func() bool { return h.agent.connections.Load() < 5 })
	if got := h.refused("x?try=1"); got != "409 held" {
		t.Error(got)
	}
	if _, body := h.call("GET", "/metrics"); !strings.Contains(body, `qlock_agent_replies_total{fault="connections"}`) {
		t.Error("nobody counts them")
	}
	_ = s.connection.Close()
}

// A request whose body does not come in time is refused, and its connection ends, whatever it asks. A lock that is held lasts on.
func TestBodyThatNeverComes(t *testing.T) {
	defer func(before time.Duration) { bodyTime = before }(bodyTime)
	bodyTime = 300 * time.Millisecond
	h := start(t, ttl)
	s, first := h.take("x")
	for _, request := range []string{"POST /v1/locks/s", "GET /v1/status", "GET /v1/watch/s", "DELETE /v1/locks/s", "GET /healthz", "PUT /nowhere"} {
		connection, err := net.Dial("unix", h.socket)
		if err != nil {
			t.Fatal(err)
		}
		defer connection.Close()
		began := time.Now()
		_, _ = io.WriteString(connection, request+" HTTP/1.1\r\nHost: q\r\nContent-Length: 1000\r\n\r\n{")
		_ = connection.SetReadDeadline(began.Add(20 * time.Second))
		if said, err := io.ReadAll(connection); err != nil || !strings.HasPrefix(string(said), "HTTP/1.1 400 ") ||
			!strings.Contains(string(said), `"fault":"request"`) || time.Since(began) < bodyTime {
			t.Errorf("%s: %q, %v, after %v", request, said, err, time.Since(began))
		}
	}
	h.until("the connections end", func() bool { return h.agent.connections.Load() == 1 })
	s.later(first)
	if got := h.refused("x?try=1"); got != "409 held" {
		t.Error(got)
	}
	_ = s.connection.Close()
}

// A lock of a client with an idle time lasts as long as its holder says that it lives. Others need not say it.
func TestAliveByAgent(t *testing.T) {
	h := start(t, ttl)
	client := agent.New(h.socket)
	idles, err := client.WithIdle(time.Second).WithNote("idles").Lock(h.within(), "x")
	if err != nil {
		t.Fatal(err)
	}
	other, err := client.Lock(h.within(), "y")
	if err != nil {
		t.Fatal(err)
	}
	for n := 0; n < 20; n++ {
		time.Sleep(100 * time.Millisecond)
		idles.Alive()
		other.Alive()
	}
	if idles.Left() == 0 || other.Left() == 0 {
		t.Error("a lock is lost whose holder lives")
	}
	select {
	case <-idles.Lost():
	case <-time.After(20 * time.Second):
		t.Error("who is idle keeps its lock")
	}
	idles.Alive() // too late
	if err := idles.Unlock(); !errors.Is(err, agent.ErrLost) {
		t.Error(err)
	}
	if err := other.Unlock(); err != nil {
		t.Error(err)
	}
	idles.Alive()
}

// If nobody answers /metrics any more the log says so, and it says nothing as the agent ends.
func TestShowFails(t *testing.T) {
	for _, fails := range []bool{false, true} {
		listener, err := net.Listen("tcp", "127.0.0.1:0")
		if err != nil {
			t.Fatal(err)
		}
		log := &lines{filepath.Join(t.TempDir(), "log")}
		a := New(Config{Log: event.To(log)})
		server := bounded.Shows(http.NewServeMux())
		if fails {
			_ = listener.Close()
		} else {
			_ = server.Close()
		}
		a.keepsShowing(server, listener)
		if said := strings.Contains(log.text(), " event=metrics-failed why="); said != fails {
			t.Errorf("it fails: %v, and the log: %q", fails, log.text())
		}
	}
}

// Who reaches the address of /metrics can't use up the agent's files.
func TestTooManyWhoLook(t *testing.T) {
	h := start(t, ttl)
	ports, err := local.FreePorts(1)
	if err != nil {
		t.Fatal(err)
	}
	address := fmt.Sprint("127.0.0.1:", ports[0])
	ctx, cancel := context.WithCancel(context.Background())
	defer cancel()
	if err := h.agent.Show(ctx, address); err != nil {
		t.Fatal(err)
	}
	var idle []net.Conn
	for n := 0; n < bounded.MostShown+4; n++ {
		connection, err := net.Dial("tcp", address)
		if err != nil {
			t.Fatal(err)
		}
		idle = append(idle, connection)
	}
	h.until("too many", func() bool { return h.agent.counts.all()["connections"] > 0 })
	for _, connection := range idle {
		_ = connection.Close()
	}
	h.until("room again", func() bool {
		reply, err := http.Get("http://" + address + "/healthz")
		if err != nil {
			return false
		}
		return reply.Body.Close() == nil
	})
}

// Who waits and dies waits no more.
func TestDeadWaiterIsForgotten(t *testing.T) {
	h := start(t, ttl)
	s, _ := h.take("x")
	w := h.post("x")
	h.until("waiting", func() bool { return len(h.listed("/v1/locks/x")) == 2 })
	_ = w.connection.Close()
	h.until("forgotten", func() bool { return len(h.listed("/v1/locks/x")) == 1 })
	_ = s.connection.Close()
}

// Each fault has its word and its status.
func TestFaults(t *testing.T) {
	h := start(t, ttl)
	s, first := h.take("x")
	for path, want := range map[string]string{
		"x?try=1":          "409 held",
		"x?wait=300ms":     "408 timeout",
		"a%20b":            "400 name",
		"..":               "400 name",
		"":                 "400 name",
		"x?wait=soon":      "400 request",
		"x?wait=0s":        "400 request",
		"x?wait=-1s":       "400 request",
		"x?try=yes":        "400 request",
		"x?tries=1":        "400 request",
		"x?wait=1s;try=1":  "400 request",
		"y?try=1&wait=1ns": "408 timeout",
	} {
		if got := h.refused(path); got != want {
			t.Errorf("%s: %s, not %s", path, got, want)
		}
	}
	for call, want := range map[string]string{
		"PUT /v1/locks/x":         "405 method",
		"POST /v1/locks":          "405 method",
		"POST /v1/status":         "405 method",
		"GET /v2/locks":           "404 unknown",
		"DELETE /v1/locks/x?id=0": "404 unknown",
		"DELETE /v1/locks/x":      "404 unknown",
		"DELETE /v1/locks/y?id=" + first["id"].(string): "404 unknown",
		"GET /v1/locks/none?anything=much":              "200 <nil>",
	} {
		method, path, _ := strings.Cut(call, " ")
		status, body := h.call(method, path)
		var said map[string]interface{}
		if err := json.Unmarshal([]byte(body), &said); err != nil {
			t.Error(call, body)
		}
		if got := fmt.Sprint(status, " ", said["fault"]); got != want {
			t.Errorf("%s: %s, not %s", call, got, want)
		}
	}
	_ = s.connection.Close()
}

// groupOf returns a group of this process.
func groupOf(t *testing.T) string {
	t.Helper()
	group, err := user.LookupGroupId(strconv.Itoa(os.Getgid()))
	if err != nil {
		t.Skip(err)
	}
	return group.Name
}

// A DELETE with its id gives a lock back, for its user and for root. Its holder hears that it is lost, also one that gives it
// back a moment later.
func TestDelete(t *testing.T) {
	h := start(t, ttl)
	s, first := h.take("x")
	path := "/v1/locks/x?id=" + first["id"].(string)
	if status, body := h.call("DELETE", path); status != http.StatusOK || !strings.Contains(body, `"unlocked":true`) {
		t.Error(status, body)
	}
	_ = s.connection.(*net.UnixConn).CloseWrite()
	if line := s.last(); line["lost"] != true || line["why"] != "unlocked" {
		t.Error(line)
	}
	if text := h.log.text(); strings.Count(text, "event=lost") != 1 || !strings.Contains(text, "why=unlocked") {
		t.Error(text)
	}
	h.until("given back", func() bool { return len(h.listed("/v1/locks/x")) == 0 })
	if status, body := h.call("DELETE", path); status != http.StatusNotFound {
		t.Error(status, body)
	}
	s, first = h.take("x")
	defer s.connection.Close()
	for _, one := range []struct {
		uid  int
		want error
	}{{nobody, errOther}, {os.Getuid() + 1, errOther}, {0, nil}} {
		if err := h.agent.giveBack("x", first["id"].(string), peer{UID: one.uid}); !errors.Is(err, one.want) {
			t.Errorf("%d: %v", one.uid, err)
		}
	}
}

// The list names the process that has a lock, and so does the log.
func TestListNamesTheProcess(t *testing.T) {
	h := start(t, ttl)
	s, first := h.take("x")
	_, body := h.call("GET", "/v1/locks/x")
	var list struct{ Locks []listed }
	if err := json.Unmarshal([]byte(body), &list); err != nil || len(list.Locks) != 1 {
		t.Fatal(body, err)
	}
	one := list.Locks[0]
	if one.Pid != os.Getpid() || one.UID != os.Getuid() || one.ID != first["id"] || one.Left <= 0 || one.Command == "" {
		t.Errorf("%+v", one)
	}
	_ = s.connection.Close()
	h.until("given back", func() bool { return len(h.listed("/v1/locks/x")) == 0 })
	for _, name := range []string{"held", "unlocked"} {
		want := fmt.Sprintf("level=debug event=%s lock=x id=%s pid=%d uid=%d", name, first["id"], os.Getpid(), os.Getuid())
		if !strings.Contains(h.log.text(), want) {
			t.Errorf("%s is not in %s", want, h.log.text())
		}
	}
}

// looksUp lets a function look up users during a test, as if for the first time.
func looksUp(t *testing.T, f func(uid string) (*user.User, error)) {
	forget := func() { names.Range(func(uid, _ interface{}) bool { names.Delete(uid); return true }) }
	before := lookUp
	lookUp = f
	forget()
	t.Cleanup(func() { lookUp = before; forget() })
}

// Users that take long to be looked up hold nobody else up. A name that was not to be had is looked up again, and a user that
// has none is shown by its number.
func TestUsersThatAreLookedUp(t *testing.T) {
	fails := make(chan error)
	looksUp(t, func(uid string) (*user.User, error) {
		if err := <-fails; err != nil {
			return nil, err
		}
		return &user.User{Uid: uid, Username: "jobs"}, nil
	})
	h := start(t, ttl)
	for _, one := range []struct {
		err  error
		want string
	}{{errors.New("nobody replies"), ""}, {nil, "jobs"}} {
		s := h.post("x?wait=50s")
		if status, body := h.call("GET", "/v1/status"); status != http.StatusOK {
			t.Error(status, body)
		}
		select {
		case fails <- one.err:
		case <-time.After(20 * time.Second):
			t.Fatal("nobody looks the user up")
		}
		if status := s.status(); status != http.StatusOK {
			t.Fatal(status, s.line())
		}
		if got := h.agent.list("x"); len(got) != 1 || got[0].User != one.want {
			t.Errorf("%+v", got)
		}
		_ = s.connection.Close()
		h.until("given back", func() bool { return len(h.listed("/v1/locks/x")) == 0 })
	}
	go func() { fails <- user.UnknownUserIdError(4711) }()
	for n := 0; n < 2; n++ { // that it has none is kept
		if name := nameOf(4711); name != "" {
			t.Error(name)
		}
	}
	if got := (peer{UID: 4711}).login(); got != "4711" {
		t.Error(got)
	}
}

// Others see the process that has the lock, and its note, not those of the agent.
func TestWhoNamesTheProcess(t *testing.T) {
	h := start(t, ttl)
	other, err := locks.Open(context.Background(), locks.Config{Cluster: h.file, Transport: h.world.Bus.Port()})
	if err != nil {
		t.Fatal(err)
	}
	defer other.Close(context.Background())
	comm, _ := os.ReadFile("/proc/self/comm")
	for path, want := range map[string]string{
		"x?note=nightly%20import": "nightly import",
		"x?try=1&note=import":     "import",
		"x":                       strings.TrimSpace(string(comm)),
	} {
		s, _ := h.take(path)
		var is locks.Holder
		h.until("named", func() bool {
			is, err = other.Who(context.Background(), "x")
			return err == nil && is.Note == want
		})
		if is.Pid != os.Getpid() || is.Login != (peer{UID: os.Getuid(), User: nameOf(os.Getuid())}).login() || is.Asked {
			t.Errorf("%s: %+v", path, is)
		}
		_ = s.connection.Close()
		h.until("given back", func() bool { return len(h.listed("/v1/locks/x")) == 0 })
	}
}

// Who has a lock of an agent that is cut off hears that it is lost, before the TTL is over. It is kept until the
// connection ends. Who asks meanwhile hears that no quorum is reached.
func TestCutOff(t *testing.T) {
	h := start(t, 3*time.Second)
	s, _ := h.take("x")
	if status, body := h.call("GET", "/healthz"); status != http.StatusOK {
		t.Error(status, body)
	}
	h.port.Cut(true)
	cut := time.Now()
	line := s.last()
	if line["lost"] != true || line["why"] != "lease" || time.Since(cut) > 3*time.Second {
		t.Error(line, time.Since(cut))
	}
	time.Sleep(300 * time.Millisecond)
	if got := fmt.Sprint(h.listed("/v1/locks/x")); got != "[x lost]" {
		t.Error(got)
	}
	h.until("cut off", func() bool { status, _ := h.call("GET", "/healthz"); return status == http.StatusGatewayTimeout })
	if got := h.refused("y?wait=100ms"); got != "504 unreachable" {
		t.Error(got)
	}
	if !strings.Contains(h.log.text(), "level=warning event=lost lock=x") {
		t.Error(h.log.text())
	}
	_ = s.connection.Close()
	h.until("given back", func() bool { return len(h.listed("/v1/locks/x")) == 0 })
	h.port.Cut(false)
	again, _ := h.take("x?wait=30s")
	_ = again.connection.Close()
}

// evict ends the session of the agent, and lets what it has go at once. It returns the session.
func (h *host) evict() *session {
	h.t.Helper()
	s, _, _ := h.agent.current()
	console := h.world.Console()
	ctx, cancel := context.WithTimeout(context.Background(), 20*time.Second)
	defer cancel()
	if _, err := console.Ask(ctx, fmt.Sprintf("evict %d now", s.Number()), console.All()...); err != nil {
		h.t.Fatal(err)
	}
	return s
}

// deaf is a connection whose other end reads no more than the first thing that is written: the next write waits.
type deaf struct {
	*net.UnixConn
	writes atomic.Int64
	ended  chan struct{}
	once   sync.Once
}

func (d *deaf) Write(text []byte) (int, error) {
	if d.writes.Add(1) > 1 {
		<-d.ended
	}
	return d.UnixConn.Write(text)
}

func (d *deaf) Close() error {
	d.once.Do(func() { close(d.ended) })
	return d.UnixConn.Close()
}

// deafListener lets the first connection that comes be deaf.
type deafListener struct {
	net.Listener
	first *deaf
}

func (l *deafListener) Accept() (net.Conn, error) {
	connection, err := l.Listener.Accept()
	if err != nil || l.first != nil {
		return connection, err
	}
	l.first = &deaf{UnixConn: connection.(*net.UnixConn), ended: make(chan struct{})}
	return l.first, nil
}

// A lock whose client reads nothing is lost as any other: the list, the numbers and the log say so, and what is left of its
// votes is given back a TTL later, also while its client stands still.
func TestClientThatDoesNotRead(t *testing.T) {
	listener := &deafListener{}
	h := startBy(t, 2*time.Second, func(l net.Listener) net.Listener { listener.Listener = l; return listener })
	s, _ := h.take("x")
	h.until("stuck", func() bool { return listener.first.writes.Load() > 1 })
	h.port.Cut(true)
	h.until("lost", func() bool { return fmt.Sprint(h.listed("/v1/locks/x")) == "[x lost]" })
	if _, body := h.call("GET", "/metrics"); !strings.Contains(body, "\nqlock_agent_lost_total 1\n") {
		t.Error("nobody counts it")
	}
	h.port.Cut(false)
	h.until("given back", func() bool { return strings.Contains(h.log.text(), "event=unlocked lock=x") })
	again, _ := h.take("x?wait=30s")
	if text := h.log.text(); strings.Count(text, "event=lost lock=x") != 1 {
		t.Error(text)
	}
	_ = again.connection.Close()
	_ = s.connection.Close()
	_ = listener.first.Close() // its write fails
	h.until("forgotten", func() bool { return len(h.listed("/v1/locks/x")) == 0 })
}

// If the session is over, holders are told, who waits goes on waiting, and the agent opens another session.
func TestAnotherSession(t *testing.T) {
	h := start(t, ttl)
	s, _ := h.take("x")
	w := h.post("x?wait=50s")
	h.until("waiting", func() bool { return len(h.listed("/v1/locks/x")) == 2 })
	before := h.evict()
	if line := s.last(); line["lost"] != true || line["why"] != "session" && line["why"] != "lease" {
		t.Error(line)
	}
	_ = s.connection.Close()
	if status := w.status(); status != http.StatusOK {
		t.Fatal(status, w.line())
	}
	after, _, _ := h.agent.current()
	if after == nil || after == before {
		t.Error("there is no other session")
	}
	_ = w.connection.Close()
}

// Who waits is not let in by the next session while a process of this host may still work that had the lock in the last one.
func TestOneOfTwoSessions(t *testing.T) {
	h := start(t, ttl)
	s, _ := h.take("x")
	w := h.post("x?wait=50s")
	h.until("waiting", func() bool { return len(h.listed("/v1/locks/x")) == 2 })
	h.evict()
	if line := s.last(); line["lost"] != true {
		t.Error(line)
	}
	y, _ := h.take("y?wait=50s") // there is another session
	_ = y.connection.Close()
	if got := h.refused("x?try=1"); got != "409 held" {
		t.Error(got)
	}
	if got := h.refused("x?wait=300ms"); got != "408 timeout" {
		t.Error(got)
	}
	if got := fmt.Sprint(h.listed("/v1/locks/x")); got != "[x lost x waiting]" {
		t.Error(got)
	}
	_ = s.connection.Close()
	if status := w.status(); status != http.StatusOK {
		t.Fatal(status, w.line())
	}
	_ = w.connection.Close()
}

// Without voters there is no session, and who asks hears so. It has one once they are there.
func TestWithoutVoters(t *testing.T) {
	w := worlds.New(t, worlds.Majority, ttl)
	text, err := w.Cluster.Text()
	if err != nil {
		t.Fatal(err)
	}
	file := filepath.Join(t.TempDir(), "cluster.toml")
	h := startIn(t, w, file) // a file that is not there yet
	if got := h.refused("x?wait=100ms"); got != "504 unreachable" {
		t.Error(got)
	}
	if status, body := h.call("GET", "/v1/status"); status != http.StatusOK || !strings.Contains(body, `"session":null`) {
		t.Error(status, body)
	}
	if err := os.WriteFile(file, text, 0o600); err != nil {
		t.Fatal(err)
	}
	s, _ := h.take("x?wait=50s")
	_ = s.connection.Close()
	status, body := h.call("GET", "/v1/status")
	if status != http.StatusOK || !strings.Contains(body, `"cluster":"test","ttl_ms":20000,"session":`) {
		t.Error(status, body)
	}
}

// Whether a quorum is heard goes by the plan that is in use, not by the one with which the session began.
func TestCutOffAfterAnExchange(t *testing.T) {
	h := start(t, ttl)
	h.until("there", func() bool { status, _ := h.call("GET", "/healthz"); return status == http.StatusOK })
	h.world.Exchange(grown)
	h.until("given", func() bool { return h.world.Install() == nil })
	h.until("retired", func() bool { return h.world.Retire() == nil })
	h.until("healthy", func() bool { status, _ := h.call("GET", "/healthz"); return status == http.StatusOK })
	h.world.Kill(3)
	h.world.Kill(4)
	h.until("cut off", func() bool { status, _ := h.call("GET", "/healthz"); return status == http.StatusGatewayTimeout })
	if got := h.refused("x?wait=300ms"); got != "504 unreachable" {
		t.Error(got)
	}
}

// An agent that ends tells who has a lock, lets nobody in, and waits until the lock is given back.
func TestAgentEnds(t *testing.T) {
	h := start(t, ttl)
	s, _ := h.take("x")
	w := h.post("x")
	h.until("waiting", func() bool { return len(h.listed("/v1/locks/x")) == 2 })
	h.stop()
	if line := s.last(); line["lost"] != true || line["why"] != "closing" {
		t.Error(line)
	}
	if status := w.status(); status != http.StatusServiceUnavailable || w.line()["fault"] != "closing" {
		t.Error(status)
	}
	if got := h.refused("y"); got != "503 closing" {
		t.Error(got)
	}
	select {
	case err := <-h.ended:
		t.Fatal("it ended before its holder", err)
	case <-time.After(2 * pause):
	}
	// a holder has a TTL to end its work, so the session goes on
	own, _, _ := h.agent.current()
	if other, err := own.TryLock(context.Background(), "z"); err != nil {
		t.Error("the session ends before its holder", err)
	} else if err := other.Unlock(); err != nil {
		t.Error(err)
	}
	_ = s.connection.Close()
	if err := <-h.ended; err != nil {
		t.Error(err)
	}
	h.ended <- nil
	if _, err := os.Stat(h.socket); !errors.Is(err, os.ErrNotExist) {
		t.Error("the socket is left behind")
	}
	// nothing has to wait for a TTL
	next := startIn(t, h.world, h.file)
	began := time.Now()
	again, _ := next.take("x?wait=50s")
	if time.Since(began) > ttl/2 {
		t.Error(time.Since(began))
	}
	_ = again.connection.Close()
}

// The numbers count locks, replies, sessions and connections, and have those of the session.
func TestMetrics(t *testing.T) {
	h := start(t, ttl)
	s, _ := h.take("x")
	if got := h.refused("x?try=1"); got != "409 held" {
		t.Error(got)
	}
	_, body := h.call("GET", "/metrics")
	for _, want := range []string{`qlock_agent_locks{state="held"} 1`, `qlock_agent_locks{state="waiting"} 0`, "qlock_agent_session 1",
		"qlock_agent_sessions_total 1", "qlock_agent_lost_total 0", `qlock_agent_replies_total{fault="held"} 1`,
		`qlock_agent_replies_total{fault="none"} 1`, "qlock_agent_connections ", "qlock_agent_build_info{go=", "qlock_client_requests_total ",
		"go_goroutines ", "process_open_fds "} {
		if !strings.Contains(body, "\n"+want) {
			t.Errorf("there is no %s", want)
		}
	}
	_ = s.connection.Close()
}

// The socket is its user's alone, or also its group's. It takes the place of one that is left behind, and of nothing else.
func TestSocket(t *testing.T) {
	path := filepath.Join(t.TempDir(), "q.sock")
	mode := func() os.FileMode {
		info, err := os.Stat(path)
		if err != nil {
			t.Fatal(err)
		}
		return info.Mode().Perm()
	}
	left, err := Listen(path, "")
	if err != nil || mode() != 0o600 {
		t.Fatal(err, mode())
	}
	if _, err := Listen(path, ""); !errors.Is(err, ErrInUse) {
		t.Error(err)
	}
	if err := os.Remove(path + ".lock"); err != nil { // somebody cleans up
		t.Fatal(err)
	}
	if _, err := Listen(path, ""); !errors.Is(err, ErrInUse) {
		t.Error(err)
	}
	left.(*socket).SetUnlinkOnClose(false)
	_ = left.Close()
	again, err := Listen(path, groupOf(t))
	if err != nil || mode() != 0o660 {
		t.Fatal(err, mode())
	}
	_ = again.Close()
	if _, err := Listen(path, "there-is-none"); !errors.Is(err, config.ErrConfig) {
		t.Error(err)
	}
	other, err := lockOf(path) // an agent that starts just now
	if err != nil {
		t.Fatal(err)
	}
	if _, err := Listen(path, ""); !errors.Is(err, ErrInUse) {
		t.Error(err)
	}
	_ = other.Close()
	if err := os.WriteFile(path, nil, 0o600); err != nil {
		t.Fatal(err)
	}
	if _, err := Listen(path, ""); !errors.Is(err, config.ErrConfig) {
		t.Error(err)
	}
}

// The client of package agent: a lock that is held and given back, tried, waited for, and lost.
func TestClient(t *testing.T) {
	h := start(t, 4*time.Second)
	client := agent.New(h.socket)
	ctx, cancel := context.WithTimeout(context.Background(), 60*time.Second)
	defer cancel()
	held, err := client.Lock(ctx, "x")
	if err != nil {
		t.Fatal(err)
	}
	if _, _, err := guard.Admit(guard.New(), held.Token()); err != nil {
		t.Error(err)
	}
	if left := held.Left(); left <= 0 || left > 3200*time.Millisecond || held.TTL() != 4*time.Second {
		t.Error(left)
	}
	if _, err := client.TryLock(ctx, "x"); !errors.Is(err, agent.ErrHeld) {
		t.Error(err)
	}
	brief, done := context.WithTimeout(ctx, 200*time.Millisecond)
	if _, err := client.Lock(brief, "x"); !errors.Is(err, agent.ErrTimeout) || !errors.Is(err, context.DeadlineExceeded) {
		t.Error(err)
	}
	done()
	gone, leave := context.WithCancel(ctx)
	time.AfterFunc(100*time.Millisecond, leave)
	if _, err := client.Lock(gone, "x"); !errors.Is(err, context.Canceled) {
		t.Error(err)
	}
	if _, err := client.Lock(ctx, "a b"); !errors.Is(err, agent.ErrName) {
		t.Error(err)
	}
	if _, err := agent.New(h.socket+".none").Lock(ctx, "x"); !errors.Is(err, agent.ErrAbsent) {
		t.Error(err)
	}
	if err := held.Unlock(); err != nil {
		t.Error(err)
	}
	if err := held.Unlock(); !errors.Is(err, agent.ErrRefused) {
		t.Error(err)
	}
	if held.Left() != 0 {
		t.Error(held.Left())
	}
	if held, err = client.TryLock(ctx, "x"); err != nil {
		t.Fatal(err)
	}
	work, end := held.Context(ctx)
	defer end()
	h.port.Cut(true)
	select {
	case <-work.Done():
	case <-time.After(20 * time.Second):
		t.Error("Lost stays open")
	}
	if err := held.Unlock(); !errors.Is(err, agent.ErrLost) {
		t.Error(err)
	}
	h.port.Cut(false)
}

// A client whose agent says nothing any more closes Lost by its own clock, and at once if the connection ends.
func TestClientOfAnAgentThatIsGone(t *testing.T) {
	path := filepath.Join(t.TempDir(), "q.sock")
	listener, err := net.Listen("unix", path)
	if err != nil {
		t.Fatal(err)
	}
	defer listener.Close()
	connections := make(chan net.Conn, 1)
	go func() {
		for {
			connection, err := listener.Accept()
			if err != nil {
				return
			}
			if _, err := http.ReadRequest(bufio.NewReader(connection)); err != nil {
				t.Error(err)
			}
			until := (boot.Uptime() + time.Second).Milliseconds()
			line := fmt.Sprintf(`{"held":true,"pass":"00","ttl_ms":4000,"until_ms":%d}`, until)
			fmt.Fprintf(connection, "HTTP/1.1 200 OK\r\n\r\n%s\n", line)
			connections <- connection
		}
	}()
	for _, closes := range []bool{false, true} {
		held, err := agent.New(path).Lock(context.Background(), "x")
		if err != nil {
			t.Fatal(err)
		}
		connection := <-connections
		if closes {
			_ = connection.Close()
		}
		began := time.Now()
		<-held.Lost()
		if took := time.Since(began); !closes && took < 500*time.Millisecond {
			t.Error(took)
		}
		if err := held.Unlock(); !errors.Is(err, agent.ErrLost) {
			t.Error(err)
		}
		_ = connection.Close()
	}
}

// says writes to the agent what a client says that may be idle.
func (s *stream) says(text string) {
	s.t.Helper()
	if _, err := s.connection.Write([]byte(text)); err != nil {
		s.t.Fatal(err)
	}
}

// A client with `idle` keeps its lock as long as it writes lines, whatever is in them. Then it is lost, and given back as other lost ones are.
func TestIdle(t *testing.T) {
	h := start(t, ttl)
	s, line := h.take("x?idle=3s&wait=30s")
	if line["held"] != true || line["lock"] != "x" || !s.reply.Close || s.reply.Header.Get("Content-Type") != "application/x-ndjson" {
		t.Error(line, s.reply)
	}
	for i, text := range []string{"\n", "any bytes\n", "\n\n", "half of one, ", "and the rest\n", strings.Repeat("x", 1<<16) + "\n", "{}\r\n"} {
		time.Sleep(time.Second)
		if s.says(text); fmt.Sprint(h.listed("/v1/locks/x")) != "[x held]" {
			t.Fatal(i, "it is idle: ", h.listed("/v1/locks/x"))
		}
	}
	began := time.Now()
	h.until("idle", func() bool {
		s.says("no line")
		time.Sleep(100 * time.Millisecond)
		return fmt.Sprint(h.listed("/v1/locks/x")) == "[x lost]"
	})
	if last := s.last(); last["lost"] != true || last["why"] != "idle" {
		t.Error(last)
	}
	if took := time.Since(began); took < 2*time.Second || took > 15*time.Second {
		t.Error("idle after", took)
	}
	if got := fmt.Sprint(h.listed("/v1/locks/x"), h.refused("x?try=1")); got != "[x lost]409 held" {
		t.Error(got)
	}
	s.says("\n")
	_ = s.connection.Close()
	h.until("given back", func() bool { return len(h.listed("/v1/locks/x")) == 0 })
	h.until("no connection", func() bool { return h.agent.connections.Load() == 0 })
	if !strings.Contains(h.log.text(), "event=lost lock=x") || !strings.Contains(h.log.text(), "why=idle") {
		t.Error(h.log.text())
	}
}

// A line that came while the agent stood still came in time.
func TestLineOfAStandstill(t *testing.T) {
	listener, err := net.Listen("unix", filepath.Join(t.TempDir(), "q.sock"))
	if err != nil {
		t.Fatal(err)
	}
	defer listener.Close()
	client, err := net.Dial("unix", listener.Addr().String())
	if err != nil {
		t.Fatal(err)
	}
	defer client.Close()
	connection, err := listener.Accept()
	if err != nil {
		t.Fatal(err)
	}
	defer connection.Close()
	fmt.Fprint(client, "one\nhalf")
	lines := bufio.NewReader(connection)
	if err := readLineWithin(connection, lines, -time.Second); err != nil {
		t.Error(err)
	}
	if err := readLineWithin(connection, lines, time.Millisecond); !errors.Is(err, os.ErrDeadlineExceeded) {
		t.Error(err)
	}
	_ = client.Close()
	if err := readLineWithin(connection, lines, time.Minute); err != io.EOF {
		t.Error(err)
	}
}

// A client that is idle, and keeps its connection, keeps others out for a TTL.
func TestIdleForLong(t *testing.T) {
	h := start(t, 2*time.Second)
	s, _ := h.take("x?idle=100ms&wait=30s")
	if last := s.last(); last["why"] != "idle" {
		t.Error(last)
	}
	began := time.Now()
	next, _ := h.take("x?wait=30s")
	if took := time.Since(began); took < time.Second {
		t.Error("another one has it after", took)
	}
	if line := s.line(); line != nil {
		t.Error(line)
	}
	_ = next.connection.Close()
}

// What a client says as it waits does no harm, it gives its lock back as others do, and a wrong time is refused.
func TestIdleOfOneThatWaits(t *testing.T) {
	h := start(t, ttl)
	first, _ := h.take("x")
	s := h.post("x?idle=20s&wait=50s")
	h.until("waiting", func() bool { return len(h.listed("/v1/locks/x")) == 2 })
	s.says("\n\n")
	_ = first.connection.Close()
	if status, line := s.status(), s.line(); status != http.StatusOK || line["held"] != true {
		t.Error(status, line)
	}
	s.says("\n")
	_ = s.connection.(*net.UnixConn).CloseWrite()
	if line := s.last(); line["unlocked"] != true {
		t.Error(line)
	}
	if got := h.refused("x?idle=100ms&try=1&wait=soon"); got != "400 request" {
		t.Error(got)
	}
	for _, idle := range []string{"0s", "-1s", "soon", "", "3"} {
		s := h.post("x?idle=" + idle)
		if status, line := s.status(), s.line(); status != http.StatusBadRequest || line["fault"] != "request" ||
			!strings.Contains(fmt.Sprint(line["why"]), "idle is ") {
			t.Error(idle, status, line)
		}
	}
}
