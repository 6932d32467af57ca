package bounded

import (
	"fmt"
	"io"
	"net"
	"net/http"
	"testing"
	"time"
)

// until waits until something is so.
func until(t *testing.T, what string, is func() bool) {
	t.Helper()
	for end := time.Now().Add(20 * time.Second); !is(); time.Sleep(10 * time.Millisecond) {
		if time.Now().After(end) {
			t.Fatal("not so: " + what)
		}
	}
}

// shown answers at an address, and returns it.
func shown(t *testing.T, server *http.Server, l Listener) string {
	t.Helper()
	listener, err := net.Listen("tcp", "127.0.0.1:0")
	if err != nil {
		t.Fatal(err)
	}
	l.Listener = listener
	go func() { _ = server.Serve(l) }()
	t.Cleanup(func() { _ = server.Close() })
	return listener.Addr().String()
}

// gets returns whether a request is answered.
func gets(address string) bool {
	client := http.Client{Timeout: 5 * time.Second, Transport: &http.Transport{DisableKeepAlives: true}}
	reply, err := client.Get("http://" + address)
	if err != nil {
		return false
	}
	defer reply.Body.Close()
	text, err := io.ReadAll(reply.Body)
	return err == nil && string(text) == "numbers"
}

func numbers(w http.ResponseWriter, _ *http.Request) { _, _ = io.WriteString(w, "numbers") }

// Requests whose body never comes, heads that never end, and idle connections take so many connections at most, and none for long. What is
// too many ends at once.
func TestNobodyTakesConnections(t *testing.T) {
	var now Connections
	refused := make(chan struct{}, 1000)
	server := Shows(http.HandlerFunc(numbers))
	server.ReadTimeout, server.ReadHeaderTimeout, server.WriteTimeout, server.IdleTimeout = time.Second, time.Second, time.Second, time.Second
	address := shown(t, server, Listener{Most: MostShown, Now: &now, Refused: func() { refused <- struct{}{} }})
	for _, begin := range []string{"GET / HTTP/1.1\r\nHost: x\r\nContent-Length: 100000\r\n\r\n", "GET / HTTP/1.1\r\nHo", ""} {
		var kept []net.Conn
		for n := 0; n < 4*MostShown; n++ {
			one, err := net.Dial("tcp", address)
			if err != nil {
				t.Fatal(err)
			}
			_, _ = io.WriteString(one, begin)
			kept = append(kept, one)
		}
		until(t, "most are refused", func() bool { return len(refused) >= 3*MostShown })
		if have := now.Load(); have > MostShown {
			t.Errorf("%q: %d connections", begin, have)
		}
		until(t, "there is room again", func() bool { return now.Load() == 0 && gets(address) })
		for _, one := range kept {
			_ = one.Close()
		}
		for len(refused) > 0 {
			<-refused
		}
	}
}

// The server that is used has a time for whatever a client may keep waiting.
func TestTimesOfAServer(t *testing.T) {
	s := Shows(nil)
	for what, is := range map[string]time.Duration{"a head": s.ReadHeaderTimeout, "a request": s.ReadTimeout, "a reply": s.WriteTimeout,
		"a connection without a request": s.IdleTimeout} {
		if is <= 0 || is > time.Minute {
			t.Errorf("%s may take %v", what, is)
		}
	}
}

// One user leaves connections to others, and these to further ones. What ends is counted once.
func TestConnectionsOfAUser(t *testing.T) {
	const most = 100
	var c Connections
	count := func(user int) (n int) {
		for ; c.begin(user, most); n++ {
		}
		return n
	}
	first, second, third := count(1), count(2), count(3)
	if first != 75 || second < 15 || third < 1 || c.Load() >= most {
		t.Errorf("three users have %d, %d and %d of %d", first, second, third, most)
	}
	for ; first > 0; first-- {
		c.end(1)
	}
	if fourth := count(4); fourth < most/2 {
		t.Errorf("then another one has %d", fourth)
	}
	if all := (&Connections{}); count(Nobody) == 0 || !all.begin(1, 0) {
		t.Error("without a bound, or a user, there is none")
	}
	ends, one := 0, (*connection)(nil)
	here, there := net.Pipe()
	defer there.Close()
	one = &connection{Conn: here, ends: func() { ends++ }}
	_, _ = one.Close(), one.Close()
	if _, err := one.SyscallConn(); err == nil || ends != 1 {
		t.Error(fmt.Sprint(ends, " ends, ", err))
	}
}
