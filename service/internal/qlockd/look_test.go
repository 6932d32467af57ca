package qlockd

import (
	"context"
	"encoding/json"
	"errors"
	"fmt"
	"io"
	"net"
	"net/http"
	"net/http/httptest"
	"os"
	"path/filepath"
	"strings"
	"sync"
	"sync/atomic"
	"testing"
	"time"

	"calvundek.example/service/agent"
	"calvundek.example/service/internal/event"
	"calvundek.example/service/internal/view"
	"calvundek.example/service/internal/worlds"
	"calvundek.example/service/locks"
	"calvundek.example/service/qlock"
	"calvundek.example/service/transport"
)

// other opens a session on another host.
func (h *host) other(note string) *locks.Client {
	h.t.Helper()
	client, err := locks.Open(h.within(), locks.Config{Cluster: h.file, Transport: h.world.Bus.Port(), Note: note})
	if err != nil {
		h.t.Fatal(err)
	}
	h.t.Cleanup(func() {
		ctx, cancel := context.WithTimeout(context.Background(), 5*time.Second)
		defer cancel()
		_ = client.Close(ctx)
	})
	return client
}

// within returns a context of a minute.
func (h *host) within() context.Context {
	ctx, cancel := context.WithTimeout(context.Background(), time.Minute)
	h.t.Cleanup(cancel)
	return ctx
}

// lockBy takes a lock by a session, and waits until voters have its note.
func (h *host) lockBy(client *locks.Client, name, note string) *locks.Held {
	h.t.Helper()
	held, err := client.Lock(h.within(), name)
	if err != nil {
		h.t.Fatal(err)
	}
	h.until("noted", func() bool { is, err := client.Who(h.within(), name); return err == nil && is.Note == note })
	return held
}

// who asks who has a lock, and returns the status and the reply.
func (h *host) who(path string) (int, view.Holder) {
	h.t.Helper()
	status, body := h.call("GET", path)
	var said view.Holder
	if err := json.Unmarshal([]byte(body), &said); err != nil {
		h.t.Fatal(body, err)
	}
	return status, said
}

// Who has a lock of the cluster is said by voters, also if he is on another host, and how many wait. Nobody is an answer, too.
func TestWhoOfTheCluster(t *testing.T) {
	h := start(t, ttl)
	if status, body := h.call("GET", "/v1/who/x"); status != http.StatusOK || body != `{"lock":"x","held":false}`+"\n" {
		t.Error(status, body)
	}
	held := h.lockBy(h.other("nightly"), "x", "nightly")
	name, _ := os.Hostname()
	status, said := h.who("/v1/who/x?wait=30s")
	if status != http.StatusOK || !said.Held || said.Asked || said.Host != name || said.Pid != os.Getpid() || said.Note != "nightly" ||
		said.Since == nil || time.Since(*said.Since) > time.Minute || said.Session == "" || said.Waiting != 0 {
		t.Errorf("%d %+v", status, said)
	}
	w := h.post("x")
	h.until("waiting", func() bool { _, said := h.who("/v1/who/x"); return said.Waiting == 1 })
	if got := h.listed("/v1/locks/x"); fmt.Sprint(got) != "[x waiting]" {
		t.Errorf("this host's: %v", got)
	}
	if err := held.Unlock(); err != nil {
		t.Error(err)
	}
	if status := w.status(); status != http.StatusOK {
		t.Fatal(status)
	}
	h.until("named", func() bool { _, said := h.who("/v1/who/x"); return said.Pid == os.Getpid() && said.Note != "nightly" })
	_ = w.connection.Close()
}

// All locks of the cluster that somebody has are listed by their names, or those with a prefix. The list of this host has its own only.
func TestListOfTheCluster(t *testing.T) {
	h := start(t, ttl)
	other := h.other("import")
	for _, name := range []string{"b-2", "b-1", "a"} {
		held := h.lockBy(other, name, "import")
		defer held.Unlock()
	}
	s, _ := h.take("b-3?note=own")
	defer s.connection.Close()
	h.until("noted", func() bool { _, said := h.who("/v1/who/b-3"); return said.Note == "own" })
	for path, want := range map[string]string{
		"/v1/who?prefix=b-":      "b-1 import, b-2 import, b-3 own, ",
		"/v1/who?wait=9s":        "a import, b-1 import, b-2 import, b-3 own, ",
		"/v1/who?prefix=":        "a import, b-1 import, b-2 import, b-3 own, ",
		"/v1/who?prefix=another": "",
	} {
		_, body := h.call("GET", path)
		var list struct{ Locks []view.Holder }
		if err := json.Unmarshal([]byte(body), &list); err != nil || list.Locks == nil {
			t.Fatal(body, err)
		}
		got := ""
		for _, one := range list.Locks {
			got += fmt.Sprint(one.Lock, " ", one.Note, ", ")
		}
		if got != want {
			t.Errorf("%s: %q, not %q", path, got, want)
		}
	}
	if got := fmt.Sprint(h.listed("/v1/locks")); got != "[b-3 held]" {
		t.Error(got)
	}
}

// watch watches a lock.
func (h *host) watch(name string) *stream {
	h.t.Helper()
	connection, err := net.Dial("unix", h.socket)
	if err != nil {
		h.t.Fatal(err)
	}
	h.t.Cleanup(func() { _ = connection.Close() })
	_ = connection.SetDeadline(time.Now().Add(60 * time.Second))
	fmt.Fprintf(connection, "GET /v1/watch/%s HTTP/1.1\r\nHost: q\r\n\r\n", name)
	return &stream{t: h.t, connection: connection}
}

// next returns the next line of who has a lock, for sure.
func (s *stream) next() map[string]interface{} {
	s.t.Helper()
	for {
		if line := s.line(); line["asked"] == nil {
			return line
		}
	}
}

// watches returns how many clients watch a lock.
func (h *host) watches(name string) int {
	h.agent.mutex.Lock()
	defer h.agent.mutex.Unlock()
	if w := h.agent.watched[name]; w != nil {
		return w.clients
	}
	return 0
}

// Who watches a lock hears who has it, and each change, also over the end of a session. Voters are asked once for all who watch, and for
// nobody once the last connection ends.
func TestWatchOfTheCluster(t *testing.T) {
	h := start(t, ttl)
	first := h.watch("x")
	if status := first.status(); status != http.StatusOK || first.reply.Header.Get("Content-Type") != "application/x-ndjson" {
		t.Fatal(status)
	}
	if line := first.next(); line["held"] != false {
		t.Error(line)
	}
	held := h.lockBy(h.other("leader"), "x", "leader")
	for line := first.next(); line["note"] != "leader"; line = first.next() { // the note may come a moment later
		if line["held"] != true {
			t.Error(line)
		}
	}
	second := h.watch("x")
	if second.status(); second.next()["note"] != "leader" {
		t.Error("who comes later does not hear it")
	}
	h.until("both watch", func() bool { return h.watches("x") == 2 })
	h.evict()
	s, _ := h.take("y?wait=50s") // there is another session
	_ = s.connection.Close()
	if err := held.Unlock(); err != nil {
		t.Error(err)
	}
	for _, one := range []*stream{first, second} {
		if line := one.next(); line["held"] != false {
			t.Error(line)
		}
	}
	_ = first.connection.Close()
	h.until("one watches", func() bool { return h.watches("x") == 1 })
	time.Sleep(100 * time.Millisecond)
	_, _ = second.connection.Write([]byte("G")) // a byte behind the request hides no end
	time.Sleep(100 * time.Millisecond)
	_ = second.connection.(*net.UnixConn).CloseWrite()
	h.until("nobody watches", func() bool { return h.watches("x") == 0 })
	h.agent.mutex.Lock()
	defer h.agent.mutex.Unlock()
	if len(h.agent.watched) != 0 {
		t.Error("voters are asked for nobody")
	}
}

// Who begins to watch hears who has the lock now, and no older answer that others heard before.
func TestWatcherHearsNoOlderAnswer(t *testing.T) {
	h := start(t, ttl)
	lock := &watched{clients: 1, changes: 7, holder: locks.Holder{Note: "older"}, stop: func() {}, changed: make(chan struct{})}
	h.agent.mutex.Lock()
	h.agent.watched["x"] = lock
	h.agent.mutex.Unlock()
	s := h.watch("x")
	if s.status(); s.line()["held"] != false {
		t.Error("somebody has it")
	}
	h.until("it watches", func() bool { return h.watches("x") == 2 })
	time.Sleep(100 * time.Millisecond)
	h.agent.see(lock, locks.Holder{Note: "newer"})
	if line := s.line(); line["note"] != "newer" {
		t.Error(line)
	}
	_ = s.connection.Close()
}

// The agent watches a lock once for all who do.
func TestManyWatchOneLock(t *testing.T) {
	h := start(t, ttl)
	var all []*stream
	for n := 0; n < 15; n++ {
		s := h.watch("x")
		if status := s.status(); status != http.StatusOK {
			t.Fatal(status)
		}
		all = append(all, s)
	}
	var said, asked atomic.Int64
	h.world.Bus.Watch(func(_ string, message []byte) {
		said.Add(int64(strings.Count(string(message), ". watch ")))
		asked.Add(int64(strings.Count(string(message), ". who ")))
	})
	time.Sleep(ttl * 6 / 10)
	h.world.Bus.Watch(nil)
	if said.Load() == 0 || said.Load() > 6 || asked.Load() > 6 {
		t.Errorf("it is said %d times that somebody watches, with %d questions", said.Load(), asked.Load())
	}
	for _, s := range all {
		_ = s.connection.Close()
	}
}

// Each fault of a call that asks voters has its word and its status.
func TestFaultsOfLooks(t *testing.T) {
	h := start(t, ttl)
	fault := func(call string) string {
		t.Helper()
		method, path, _ := strings.Cut(call, " ")
		status, body := h.call(method, path)
		var said fault
		if err := json.Unmarshal([]byte(body), &said); err != nil {
			t.Error(call, body)
		}
		return fmt.Sprint(status, " ", said.Word)
	}
	for call, want := range map[string]string{
		"GET /v1/who/a%20b":         "400 name",
		"GET /v1/who/":              "400 name",
		"GET /v1/who/..":            "400 name",
		"GET /v1/who?prefix=.a":     "400 name",
		"GET /v1/watch/a%20b":       "400 name",
		"GET /v1/watch/":            "400 name",
		"GET /v1/who/x?wait=0s":     "400 request",
		"GET /v1/who/x?wait=soon":   "400 request",
		"GET /v1/who/x?prefix=y":    "400 request",
		"GET /v1/who?prefixes=y":    "400 request",
		"GET /v1/who?a;b":           "400 request",
		"GET /v1/watch/x?try=1":     "400 request",
		"POST /v1/who/x":            "405 method",
		"POST /v1/who":              "405 method",
		"DELETE /v1/watch/x":        "405 method",
		"GET /v1/watch":             "404 unknown",
		"GET /v1/who/x?wait=20s":    "200 ",
		"GET /v1/who?wait=20s":      "200 ",
		"GET /v1/locks?anything=is": "200 ",
	} {
		if got := fault(call); got != want {
			t.Errorf("%s: %s, not %s", call, got, want)
		}
	}
	h.port.Cut(true)
	for _, path := range []string{"/v1/who/x?wait=100ms", "/v1/who?wait=100ms", "/v1/watch/x?wait=100ms"} {
		if got := fault("GET " + path); got != "504 unreachable" {
			t.Errorf("%s: %s", path, got)
		}
	}
	began := time.Now()
	if got := fault("GET /v1/who/x"); got != "504 unreachable" || time.Since(began) < askFor || time.Since(began) > 10*askFor {
		t.Error(got, time.Since(began))
	}
	h.port.Cut(false)
	h.until("there", func() bool { return fault("GET /v1/who/x") == "200 " })
}

// An agent that ends answers who watches no more, and says so to who asks.
func TestLooksEndWithTheAgent(t *testing.T) {
	h := start(t, ttl)
	s, _ := h.take("y")
	w := h.watch("x")
	if status := w.status(); status != http.StatusOK {
		t.Fatal(status)
	}
	w.next()
	h.stop()
	if line := w.line(); line != nil {
		t.Error(line)
	}
	h.port.Cut(true)
	if status, body := h.call("GET", "/v1/who/x?wait=30s"); status != http.StatusServiceUnavailable {
		t.Error(status, body)
	}
	h.port.Cut(false)
	_ = s.connection.Close()
}

// The servers of NATS may refuse the agent's user: that has a word of its own, for calls that ask voters and those for a lock.
func TestDenied(t *testing.T) {
	h := start(t, ttl)
	why := fmt.Errorf("no quorum of voters replied: %w", transport.ErrRefused)
	h.hasNone(why)
	for _, path := range []string{"/v1/who/x?wait=100ms", "/v1/who?wait=100ms", "/v1/watch/x?wait=100ms"} {
		if status, body := h.call("GET", path); status != http.StatusForbidden || !strings.Contains(body, `"fault":"denied"`) {
			t.Error(path, status, body)
		}
	}
	if got := h.refused("x?wait=100ms"); got != "403 denied" {
		t.Error(got)
	}
	if _, err := agent.New(h.socket).Who(h.brief(), "x"); !errors.Is(err, agent.ErrDenied) {
		t.Error(err)
	}
	if status, body := h.call("GET", "/healthz"); status != http.StatusGatewayTimeout {
		t.Error(status, body)
	}
}

// hasNone lets the agent have no session.
func (h *host) hasNone(why error) {
	h.t.Helper()
	h.until("a session", func() bool { status, _ := h.call("GET", "/healthz"); return status == http.StatusOK })
	h.agent.change(nil, why)
}

// brief returns a context of a moment.
func (h *host) brief() context.Context {
	ctx, cancel := context.WithTimeout(context.Background(), 300*time.Millisecond)
	h.t.Cleanup(cancel)
	return ctx
}

// Who tries hears who has the lock: on another host, as a voter said, and on this one.
func TestHolderOfATry(t *testing.T) {
	h := start(t, ttl)
	held := h.lockBy(h.other("nightly"), "x", "nightly")
	s := h.post("x?try=1&wait=20s")
	if status, line := s.status(), s.line(); status != http.StatusConflict || line["fault"] != "held" {
		t.Error(status, line)
	} else if by, _ := line["holder"].(map[string]interface{}); by["note"] != "nightly" || by["lock"] != "x" || by["held"] != true ||
		by["pid"] != float64(os.Getpid()) {
		t.Error(line)
	}
	if err := held.Unlock(); err != nil {
		t.Error(err)
	}
	own, _ := h.take("x?note=own")
	_, err := agent.New(h.socket).TryLock(h.within(), "x")
	fault := &agent.Fault{}
	if !errors.As(err, &fault) || !errors.Is(err, agent.ErrHeld) || fault.Holder == nil || fault.Holder.Note != "own" ||
		fault.Holder.Pid != os.Getpid() || fault.Holder.Since.IsZero() || fault.Holder.Host == "" {
		t.Errorf("%v: %+v", err, fault)
	}
	_ = own.connection.Close()
	if got := holderOf(fmt.Errorf("x: %w", locks.ErrHeld)); got != nil {
		t.Errorf("%+v", got)
	}
}

// A body may have the lock's note. What is none is refused.
func TestBody(t *testing.T) {
	h := start(t, ttl)
	send := func(query, body string) *stream {
		t.Helper()
		connection, err := net.Dial("unix", h.socket)
		if err != nil {
			t.Fatal(err)
		}
		t.Cleanup(func() { _ = connection.Close() })
		_ = connection.SetDeadline(time.Now().Add(60 * time.Second))
		fmt.Fprintf(connection, "POST /v1/locks/x%s HTTP/1.1\r\nHost: q\r\nContent-Length: %d\r\n\r\n%s", query, len(body), body)
		return &stream{t: t, connection: connection}
	}
	for _, one := range [][3]string{
		{"", `{"note": "nightly"}`, "nightly"},
		{"?wait=50s", " {\"note\":\"a \\u0062\"}\n", "a b"},
		{"?note=import", `{}`, "import"},
		{"?note=import", ``, "import"},
		{"", `{"note":"` + strings.Repeat("x", 200) + `"}`, strings.Repeat("x", 200)},
	} {
		s := send(one[0], one[1])
		if status := s.status(); status != http.StatusOK {
			t.Fatal(one, status, s.line())
		}
		h.until("noted", func() bool {
			_, said := h.who("/v1/who/x")
			return said.Note != "" && strings.HasPrefix(one[2], said.Note) && len(said.Note) > 0 && said.Pid == os.Getpid()
		})
		_ = s.connection.Close()
		h.until("given back", func() bool { return len(h.listed("/v1/locks/x")) == 0 })
	}
	for _, one := range [][2]string{
		{"", "nightly"}, {"", `"note"`}, {"", `[]`}, {"", `null`}, {"", `{"note":"a"`}, {"", `{"note"}`}, {"", `{"note":1}`}, {"", `{"note":null}`},
		{"", `{"note":{"note":"a"}}`}, {"", `{"Note":"a"}`}, {"", `{"note":"a","wait":"1s"}`}, {"", `{"note":"a","note":"a"}`}, {"", `{"note":"a"}{}`},
		{"", `{"note":"a"} x`}, {"", `{,}`}, {"", `{"note":"a",}`}, {"", " "}, {"?note=a", `{"note":"a"}`}, {"?note=a&note=a", ""},
		{"", `{"note":"` + strings.Repeat("x", mostBody) + `"}`},
	} {
		s := send(one[0], one[1])
		if status, line := s.status(), s.line(); status != http.StatusBadRequest || line["fault"] != "request" {
			t.Error(one, status, line)
		}
		_ = s.connection.Close()
	}
	if len(h.listed("/v1/locks")) != 0 {
		t.Error("somebody has a lock")
	}
}

// all takes the numbers of a cluster, or of a lock's shard, that are left.
func all(t *testing.T, w *worlds.World, file, lock string, count int) {
	t.Helper()
	ctx, cancel := context.WithTimeout(context.Background(), time.Minute)
	defer cancel()
	for n := 0; n < count; n++ {
		client, err := locks.Open(ctx, locks.Config{Cluster: file, Transport: w.Bus.Port(), NoNote: true})
		if err != nil {
			t.Fatal(n, err)
		}
		t.Cleanup(func() { go client.Close(context.Background()) })
		if lock != "" {
			if _, err := client.Lock(ctx, nameLike(w, lock, n)); err != nil {
				t.Fatal(n, err)
			}
		}
	}
}

// nameLike returns another name of a lock in the shard of one.
func nameLike(w *worlds.World, lock string, place int) string {
	for n := 0; ; n++ {
		name := fmt.Sprint("lock-", n)
		if w.Cluster.ShardOfLock(name) != w.Cluster.ShardOfLock(lock) {
			continue
		}
		if place == 0 {
			return name
		}
		place--
	}
}

// fileOf writes the file of a cluster.
func fileOf(t *testing.T, w *worlds.World) string {
	t.Helper()
	text, err := w.Cluster.Text()
	if err != nil {
		t.Fatal(err)
	}
	file := filepath.Join(t.TempDir(), "cluster.toml")
	if err := os.WriteFile(file, text, 0o600); err != nil {
		t.Fatal(err)
	}
	return file
}

// Where all numbers of a shard are taken who tries hears so at once, and who waits once his time is over, also behind another one who
// waits for the number. Who waits for the lock itself hears another word.
func TestNoNumberOfShard(t *testing.T) {
	cluster := worlds.NewCluster(t, worlds.Majority, 10*time.Second)
	cluster.Shards = 2
	w := worlds.NewOf(t, cluster)
	file := fileOf(t, w)
	all(t, w, file, "x", qlock.MaxClients)
	h := startIn(t, w, file)
	other := "lock-0"
	for n := 1; w.Cluster.ShardOfLock(other) == w.Cluster.ShardOfLock("x"); n++ {
		other = fmt.Sprint("lock-", n)
	}
	s, _ := h.take(other + "?wait=50s")
	defer s.connection.Close()
	began := time.Now()
	try := h.post("x?try=1&wait=50s")
	if status, line := try.status(), try.line(); status != http.StatusTooManyRequests || line["fault"] != "numbers" || line["waiting"] == nil ||
		!strings.Contains(fmt.Sprint(line["why"]), "64 sessions are open") || time.Since(began) > 20*time.Second {
		t.Error(status, line, time.Since(began))
	}
	one, two := h.post("x?wait=3s"), h.post("x?wait=2s")
	if got := h.refused(other + "?wait=300ms"); got != "408 timeout" {
		t.Error(got)
	}
	for _, waits := range []*stream{two, one} {
		if status, line := waits.status(), waits.line(); status != http.StatusTooManyRequests || line["fault"] != "numbers" {
			t.Error(status, line)
		}
	}
	_, err := agent.New(h.socket).TryLock(h.within(), "x")
	if fault := (&agent.Fault{}); !errors.Is(err, agent.ErrNumbers) || !errors.As(err, &fault) || errors.Is(err, agent.ErrRefused) {
		t.Error(err)
	}
	if status, said := h.who("/v1/who/" + nameLike(w, "x", 0)); status != http.StatusOK || !said.Held {
		t.Error(status, said)
	}
}

// The log says no number where the agent has one in each shard.
func TestLogOfAgentWithShards(t *testing.T) {
	cluster := worlds.NewCluster(t, worlds.Majority, ttl)
	cluster.Shards = 2
	w := worlds.NewOf(t, cluster)
	h := startIn(t, w, fileOf(t, w))
	h.until("a session", func() bool { return strings.Contains(h.log.text(), " event=session\n") })
}

// Whose time ended while the agent had no number of the lock's shard hears that, and not that somebody has the lock.
func TestTimeThatEndsWithoutANumber(t *testing.T) {
	cluster := worlds.NewCluster(t, worlds.Majority, ttl)
	cluster.Shards = 2
	w := worlds.NewOf(t, cluster)
	h := startIn(t, w, fileOf(t, w))
	h.until("there", func() bool { status, _ := h.call("GET", "/healthz"); return status == http.StatusOK })
	explained := func() string {
		s, _, _ := h.agent.current()
		f := faultOf(h.agent.explain(context.Background(), s, asked{name: "x", wait: time.Second}, context.DeadlineExceeded))
		return fmt.Sprint(f.Status, " ", f.Word)
	}
	if got := explained(); got != "429 numbers" {
		t.Error(got)
	}
	s, _ := h.take("x?wait=50s")
	defer s.connection.Close()
	if got := explained(); got != "408 timeout" {
		t.Error(got)
	}
}

// An agent that has no number says so: to who tries at once, and to who waits once his time is over.
func TestNoNumberOfTheAgent(t *testing.T) {
	h := start(t, ttl)
	h.hasNone(&locks.NoNumber{Open: 64, Ahead: 3})
	began := time.Now()
	for _, path := range []string{"x?try=1", "x?wait=100ms"} {
		s := h.post(path)
		if status, line := s.status(), s.line(); status != http.StatusTooManyRequests || line["fault"] != "numbers" || line["waiting"] != 3.0 {
			t.Error(path, status, line)
		}
	}
	if time.Since(began) > 5*time.Second {
		t.Error(time.Since(began))
	}
	_, err := agent.New(h.socket).Lock(h.brief(), "x")
	fault := &agent.Fault{}
	if !errors.Is(err, agent.ErrNumbers) || !errors.As(err, &fault) || fault.Waiting != 3 || errors.Is(err, context.DeadlineExceeded) {
		t.Errorf("%v: %+v", err, fault)
	}
	if status, body := h.call("GET", "/healthz"); status != http.StatusGatewayTimeout {
		t.Error(status, body)
	}
}

// An agent that has no number says who has a lock all the same, and goes on by its session once it has one.
func TestLooksWithoutANumber(t *testing.T) {
	h := start(t, ttl)
	held := h.lockBy(h.other("leader"), "x", "leader")
	h.until("a session", func() bool { s, _, _ := h.agent.current(); return s != nil })
	s, _, _ := h.agent.current()
	h.hasNone(&locks.NoNumber{Open: 64, Ahead: 3})
	if status, said := h.who("/v1/who/x"); status != http.StatusOK || said.Note != "leader" {
		t.Error(status, said)
	}
	if status, body := h.call("GET", "/v1/who?prefix=x"); status != http.StatusOK || !strings.Contains(body, "leader") {
		t.Error(status, body)
	}
	w := h.watch("x")
	if status := w.status(); status != http.StatusOK || w.next()["note"] != "leader" {
		t.Error(status)
	}
	h.until("it watches", func() bool { return h.watches("x") == 1 })
	if got := h.refused("y?try=1"); got != "429 numbers" {
		t.Error(got)
	}
	looks := func() *session {
		h.agent.looking.Lock()
		defer h.agent.looking.Unlock()
		return h.agent.looks
	}
	before := looks()
	if before == nil || h.agent.begun.Load() != 1 {
		t.Fatal("nobody looks")
	}
	h.agent.change(s, nil)
	h.until("no other session", func() bool { return before.Err() != nil && looks() == nil })
	if err := held.Unlock(); err != nil {
		t.Error(err)
	}
	if line := w.next(); line["held"] != false {
		t.Error(line)
	}
	_ = w.connection.Close()
}

// Who asks while no quorum of a shard's voters replies hears that, and not that somebody has the lock.
func TestNoQuorumForANumber(t *testing.T) {
	cluster := worlds.NewCluster(t, worlds.Majority, 10*time.Second)
	cluster.Shards = 2
	w := worlds.NewOf(t, cluster)
	h := startIn(t, w, fileOf(t, w))
	h.until("there", func() bool { status, _ := h.call("GET", "/healthz"); return status == http.StatusOK })
	h.port.Cut(true)
	if got := h.refused("x?wait=300ms"); got != "504 unreachable" {
		t.Error(got)
	}
	h.port.Cut(false)
}

// The client of package agent sees who has the locks of the cluster.
func TestClientLooks(t *testing.T) {
	h := start(t, ttl)
	client := agent.New(h.socket)
	if holder, err := client.Who(h.within(), "x"); err != nil || !holder.IsNobody() || holder.String() != "nobody" {
		t.Errorf("%+v, %v", holder, err)
	}
	ctx, cancel := context.WithCancel(h.within())
	holders, err := client.Watch(ctx, "x")
	if err != nil {
		t.Fatal(err)
	}
	if holder := <-holders; !holder.IsNobody() {
		t.Errorf("%+v", holder)
	}
	held, err := client.WithNote("nightly").Lock(h.within(), "x")
	if err != nil {
		t.Fatal(err)
	}
	for holder := range holders {
		if holder.Note == "nightly" && !holder.Asked {
			break
		}
	}
	holder, err := client.Who(context.Background(), "x")
	if err != nil || holder.Note != "nightly" || holder.Pid != os.Getpid() || holder.Since.IsZero() || !strings.Contains(holder.String(), `note="nightly"`) {
		t.Errorf("%v, %v", holder, err)
	}
	var names []string
	each := func(lock string, holder agent.Holder) error {
		names = append(names, lock+" "+holder.Note)
		return os.ErrClosed
	}
	if err := client.List(h.within(), "x", each); err != os.ErrClosed || fmt.Sprint(names) != "[x nightly]" {
		t.Error(names, err)
	}
	if err := held.Unlock(); err != nil {
		t.Error(err)
	}
	for holder := range holders {
		if holder.IsNobody() {
			break
		}
	}
	cancel()
	for range holders {
	}
	h.until("nobody watches", func() bool { return h.watches("x") == 0 })
	if _, err := client.Who(h.within(), "a b"); !errors.Is(err, agent.ErrName) {
		t.Error(err)
	}
	if _, err := client.Watch(h.within(), "a b"); !errors.Is(err, agent.ErrName) {
		t.Error(err)
	}
	if err := client.List(h.within(), ".", each); !errors.Is(err, agent.ErrName) {
		t.Error(err)
	}
	if _, err := agent.New(h.socket+".none").Who(h.within(), "x"); !errors.Is(err, agent.ErrAbsent) {
		t.Error(err)
	}
	gone, leave := context.WithCancel(context.Background())
	leave()
	if _, err := client.Who(gone, "x"); !errors.Is(err, context.Canceled) {
		t.Error(err)
	}
	h.port.Cut(true)
	if _, err := client.Who(h.brief(), "x"); !errors.Is(err, agent.ErrUnreachable) {
		t.Error(err)
	}
	h.port.Cut(false)
}

// Who asks voters hears so within the time that he gives, also while no server of NATS says a word.
func TestWhoEndsWithItsWait(t *testing.T) {
	const most = 400 * time.Millisecond // some milliseconds, on a machine with much else to do
	cluster := worlds.NewCluster(t, worlds.Majority, ttl)
	cluster.Servers = nil
	for i := 0; i < 3; i++ {
		listener, err := net.Listen("tcp", "127.0.0.1:0")
		if err != nil {
			t.Fatal(err)
		}
		defer listener.Close()
		cluster.Servers = append(cluster.Servers, "nats://"+listener.Addr().String()) // the system accepts for it
	}
	text, err := cluster.Text()
	if err != nil {
		t.Fatal(err)
	}
	file := filepath.Join(t.TempDir(), "cluster.toml")
	if err := os.WriteFile(file, text, 0o600); err != nil {
		t.Fatal(err)
	}
	a := New(Config{Log: event.To(io.Discard), Locks: locks.Config{Cluster: file}})
	var group sync.WaitGroup
	for i := 0; i < 10; i++ {
		group.Add(1)
		go func() {
			defer group.Done()
			began, reply := time.Now(), httptest.NewRecorder()
			a.handler().ServeHTTP(reply, httptest.NewRequest("GET", "/v1/who/x?wait=500ms", nil))
			if took := time.Since(began); reply.Code != http.StatusGatewayTimeout || took > 500*time.Millisecond+most {
				t.Errorf("status %d after %v", reply.Code, took)
			}
		}()
	}
	group.Wait()
	a.looksNoMore()
}
