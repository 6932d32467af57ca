package agent

import (
	"bufio"
	"context"
	"errors"
	"fmt"
	"net"
	"net/http"
	"path/filepath"
	"testing"
	"time"

	"calvundek.example/service/internal/boot"
)

// long is for how long a lock lasts that no test waits for.
const long = time.Minute

// until returns what is said of a lock that lasts for some time from now on.
func until(left time.Duration) string {
	return fmt.Sprintf(`"until_ms":%d}`+"\n", (boot.Uptime() + left).Milliseconds())
}

// take takes a lock of a made-up agent, and returns the agent's end of the connection.
func take(t *testing.T) (*Held, *net.UnixConn) {
	t.Helper()
	return takeSaying(t, func() string { return until(long) })
}

// takeSaying takes a lock of a made-up agent that says this at the end of the first line.
func takeSaying(t *testing.T, says func() string) (*Held, *net.UnixConn) {
	t.Helper()
	path := filepath.Join(t.TempDir(), "q.sock")
	listener, err := net.ListenUnix("unix", &net.UnixAddr{Name: path, Net: "unix"})
	if err != nil {
		t.Fatal(err)
	}
	t.Cleanup(func() { _ = listener.Close() })
	ends := make(chan *net.UnixConn, 1)
	go func() {
		connection, err := listener.AcceptUnix()
		if err != nil {
			return
		}
		if _, err := http.ReadRequest(bufio.NewReader(connection)); err != nil {
			t.Error(err)
		}
		fmt.Fprint(connection, "HTTP/1.0 200 OK\r\n\r\n"+`{"held":true,"pass":"00","ttl_ms":4000,`+says())
		ends <- connection
	}()
	held, err := New(path).Lock(context.Background(), "x")
	if err != nil {
		t.Fatal(err)
	}
	end := <-ends
	t.Cleanup(func() { _ = end.Close() })
	return held, end
}

// A lock that another process gave back is lost. One that its holder gives back is not.
func TestGivenBackByAnotherProcess(t *testing.T) {
	held, end := take(t)
	fmt.Fprintln(end, `{"unlocked":true}`)
	select {
	case <-held.Lost():
	case <-time.After(20 * time.Second):
		t.Error("Lost stays open")
	}
	if err := held.Unlock(); !errors.Is(err, ErrLost) {
		t.Error(err)
	}
	held, end = take(t)
	go func() {
		if _, err := end.Read(make([]byte, 1)); err == nil {
			t.Error("more is asked")
		}
		fmt.Fprintln(end, `{"unlocked":true}`)
	}()
	if err := held.Unlock(); err != nil {
		t.Error(err)
	}
}

// stale is a lock that has ended by its clock.
func stale() *Held {
	h := &Held{lost: make(chan struct{}), ended: make(chan struct{})}
	h.until.Store((boot.Uptime() - time.Second).Milliseconds())
	return h
}

// What the agent said while the process stood still counts, though it is read after the lock would have ended.
func TestStoodStill(t *testing.T) {
	h := stale()
	go h.watch(3 * time.Second)
	time.Sleep(4 * pause)
	h.until.Store((boot.Uptime() + long).Milliseconds())
	select {
	case <-h.Lost():
		t.Error("Lost is closed")
	case <-time.After(3*time.Second + 4*pause):
	}
	h.lapse()
	h = stale()
	time.AfterFunc(4*pause, func() {
		h.until.Store((boot.Uptime() + long).Milliseconds())
		h.unlocked = true
		close(h.ended)
	})
	if err := h.await(long); err != nil {
		t.Error(err)
	}
}

// If there is nothing, Lost closes, and the lock is lost, even if the agent says later that it was given back.
func TestSilence(t *testing.T) {
	held, end := take(t)
	held.until.Store((boot.Uptime() - time.Second).Milliseconds())
	select {
	case <-held.Lost():
	case <-time.After(20 * time.Second):
		t.Error("Lost stays open")
	}
	fmt.Fprint(end, "{"+until(long))
	go func() {
		_, _ = end.Read(make([]byte, 1))
		fmt.Fprintln(end, `{"unlocked":true}`)
	}()
	if err := held.Unlock(); !errors.Is(err, ErrLost) {
		t.Error(err)
	}
}

// Who reads late what he watches gets the newest holder only. The channel closes with the connection.
func TestNewestHolder(t *testing.T) {
	path := filepath.Join(t.TempDir(), "q.sock")
	listener, err := net.ListenUnix("unix", &net.UnixAddr{Name: path, Net: "unix"})
	if err != nil {
		t.Fatal(err)
	}
	defer listener.Close()
	ends := make(chan *net.UnixConn, 1)
	go func() {
		connection, err := listener.AcceptUnix()
		if err != nil {
			return
		}
		if _, err := http.ReadRequest(bufio.NewReader(connection)); err != nil {
			t.Error(err)
		}
		fmt.Fprint(connection, "HTTP/1.1 200 OK\r\n\r\n")
		for n := 1; n <= 3; n++ {
			fmt.Fprintf(connection, `{"lock":"x","held":true,"pid":%d,"since":"2026-12-01T00:10:02.5Z"}`+"\n", n)
		}
		ends <- connection
	}()
	holders, err := New(path).Watch(context.Background(), "x")
	if err != nil {
		t.Fatal(err)
	}
	end := <-ends
	time.Sleep(500 * time.Millisecond)
	want := Holder{Pid: 3, Since: time.Date(2026, 12, 1, 0, 10, 2, 500000000, time.UTC)}
	if holder := <-holders; holder != want {
		t.Errorf("%+v", holder)
	}
	_ = end.Close()
	select {
	case _, more := <-holders:
		if more {
			t.Error("there is another one")
		}
	case <-time.After(20 * time.Second):
		t.Error("the channel stays open")
	}
}

// A lock that came after its time to wait, or that is over already, is not handed out: that is an error.
func TestLateLockIsNotHandedOut(t *testing.T) {
	lasting, open := &Held{}, context.Background()
	lasting.until.Store((boot.Uptime() + long).Milliseconds())
	over, cancel := context.WithCancel(open)
	cancel()
	for _, one := range []struct {
		held     *Held
		limit    context.Context
		err, why error
	}{{lasting, open, nil, nil}, {lasting, over, nil, context.Canceled}, {stale(), open, nil, ErrLost}, {nil, over, ErrHeld, ErrHeld}} {
		if err := one.held.taken(one.limit, one.err); !errors.Is(err, one.why) {
			t.Errorf("%v, not %v", err, one.why)
		}
	}
}

// In another time namespace the clock differs from the agent's. A lock lasts as long there. Where the clock is the same it ends by that, also if
// the request or the line was under way for long.
func TestClockOfAnotherTimeNamespace(t *testing.T) {
	const most = 30 * time.Second
	for _, ahead := range []time.Duration{-1000 * time.Second, 1000 * time.Second, 0} {
		said := func(left time.Duration) string {
			now := boot.Uptime() - ahead
			return fmt.Sprintf(`"asked_ms":%d,"left_ms":%d,"until_ms":%d}`+"\n", now.Milliseconds(), left.Milliseconds(),
				(now + left).Milliseconds())
		}
		held, end := takeSaying(t, func() string { return said(most) })
		if left := held.Left(); left > most || left < most/2 {
			t.Errorf("a clock that is %v ahead: %v are left of %v", ahead, left, most)
		}
		fmt.Fprint(end, "{"+said(2*most))
		for until := time.Now().Add(20 * time.Second); held.Left() < most && time.Now().Before(until); {
			time.Sleep(time.Millisecond)
		}
		if left := held.Left(); left > 2*most || left < most {
			t.Errorf("a clock that is %v ahead: %v are left of %v later", ahead, left, 2*most)
		}
	}
	const second = 1000
	for _, one := range []struct {
		asked, written, left, came, ahead int64 // the last three by the client
	}{
		{5 * second, 9 * second, 1 * second, 12 * second, 0},            // one clock, and both were under way for long
		{5 * second, 9 * second, 5*second + 1, 9*second - 1, 0},         // parts of milliseconds
		{0, 9 * second, 1 * second, 2 * second, 0},                      // an older agent
		{5 * second, 9 * second, 3 * second, 7 * second, -2*second - 1}, // behind
		{5 * second, 9 * second, 8 * second, 12 * second, 3*second - 1}, // ahead
	} {
		said := line{Asked: one.asked, Left: 700, Until: one.written + 700}
		if got := said.ahead(time.Duration(one.left)*time.Millisecond, time.Duration(one.came)*time.Millisecond); got != one.ahead {
			t.Errorf("%+v: %d", one, got)
		}
	}
}
