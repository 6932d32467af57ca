package transport_test

import (
	"errors"
	"net"
	"os"
	"strings"
	"testing"
	"time"

	"calvundek.example/service/internal/config"
	"calvundek.example/service/transport"
)

// silent returns the address of a server that takes connections and says nothing, as one does of which the packets are swallowed.
func silent(t *testing.T) string {
	t.Helper()
	listener, err := net.Listen("tcp", "127.0.0.1:0")
	if err != nil {
		t.Fatal(err)
	}
	t.Cleanup(func() { listener.Close() })
	return listener.Addr().String() // the system accepts for it
}

// connectTo connects to the first one of some servers that speaks.
func connectTo(t *testing.T, addresses ...string) *transport.NATS {
	t.Helper()
	cluster := &config.Cluster{}
	for _, address := range addresses {
		cluster.Servers = append(cluster.Servers, "nats://"+address)
	}
	link, err := transport.Connect(cluster, config.Access{}, "test")
	if err != nil {
		t.Fatal(err)
	}
	t.Cleanup(link.Close)
	return link
}

// No call waits for servers that say nothing.
func TestNobodyWaitsForServers(t *testing.T) {
	const most = 400 * time.Millisecond // some microseconds, on a machine with much else to do
	begin := time.Now()
	timed := func(what string, call func()) {
		began := time.Now()
		call()
		if took := time.Since(began); took > most {
			t.Errorf("after %v: %s took %v", began.Sub(begin), what, took)
		}
	}
	var link *transport.NATS
	timed("Connect", func() { link = connectTo(t, silent(t), silent(t), silent(t)) })
	for time.Since(begin) < 6*time.Second { // the first look at each, and the next one
		timed("Listen", func() { _, _ = link.Listen("box") })
		timed("Pass", func() { _ = link.Pass("passed", func(transport.Message) {}) })
		timed("Send", func() { _ = link.Send("box", []byte("x")) })
		timed("Connected", func() { link.Connected() })
		timed("Waiting", func() { link.Waiting(); link.Dropped(); link.Unsent() })
		timed("Explain", func() {
			if why := link.Explain(os.ErrClosed); !errors.Is(why, os.ErrClosed) || strings.Contains(why.Error(), "nil") {
				t.Error(why)
			}
		})
		timed("Leave", func() { link.Leave("box"); link.Leave("passed") })
		time.Sleep(5 * time.Millisecond)
	}
	began := time.Now()
	link.Close()
	link.Close()
	if took := time.Since(began); took > 2*time.Second+most {
		t.Errorf("Close took %v", took)
	}
}

// What waits for the connection has bounded room. Who sends what finds none hears so.
func TestOutboxIsBounded(t *testing.T) {
	for _, one := range []struct{ size, fit int }{{1, transport.Outgoing}, {1 << 20, transport.OutgoingBytes >> 20}} {
		link, message := connectTo(t, silent(t), silent(t), silent(t)), make([]byte, one.size)
		for i := 0; i < one.fit; i++ {
			if err := link.Send("box", message); err != nil {
				t.Fatalf("message %d of %d bytes: %v", i, one.size, err)
			}
		}
		if err := link.Send("box", message); !errors.Is(err, transport.ErrNoRoom) {
			t.Errorf("one more of %d bytes: %v", one.size, err)
		}
	}
}

// What is sent before the first connection leaves with it. Who sends may change the message then.
func TestSentBeforeTheConnection(t *testing.T) {
	s := beginWith(t)
	link := connectTo(t, s.address)
	box, err := link.Listen("box")
	if err != nil {
		t.Fatal(err)
	}
	message := []byte("early")
	if err := link.Send("box", message); err != nil {
		t.Fatal(err)
	}
	copy(message, "other")
	select {
	case m := <-box:
		if string(m.Data) != "early" {
			t.Errorf("%q came", m.Data)
		}
	case <-time.After(20 * time.Second):
		t.Error("it did not come")
	}
}

// What can't leave in time is lost, and counted: it does not leave late. So it is while the connection is away, and while one is made.
func TestWhatCanNotLeaveIsNotSentLate(t *testing.T) {
	s := beginWith(t)
	late := connectTo(t, silent(t), silent(t), s.address) // it is there after two seconds
	if err := late.Send("box", []byte("old")); err != nil {
		t.Fatal(err)
	}
	link := connectTo(t, s.address)
	box, err := link.Listen("box")
	if err != nil {
		t.Fatal(err)
	}
	takes := func(m transport.Message) {
		t.Helper()
		if string(m.Data) != "new" {
			t.Errorf("%q came late", m.Data)
		}
	}
	comes := func(from *transport.NATS) {
		t.Helper()
		for len(box) > 0 {
			takes(<-box)
		}
		until(t, "a new message comes", func() bool {
			_ = from.Send("box", []byte("new"))
			select {
			case m := <-box:
				takes(m)
				return true
			case <-time.After(10 * time.Millisecond):
				return false
			}
		})
	}
	comes(link)
	until(t, "the late connection is there", late.Connected)
	if comes(late); late.Unsent() == 0 {
		t.Error("nothing is lost")
	}
	s.kill()
	until(t, "the connection is lost", func() bool { return !link.Connected() })
	before := link.Unsent()
	if err := link.Send("box", []byte("old")); err != nil {
		t.Fatal(err)
	}
	until(t, "the message is lost", func() bool { return link.Unsent() > before })
	s.start(t)
	comes(link)
}

// Who moves goes on at the next server, with all mailboxes, once the connection is old enough. Who has one server alone stays.
func TestMove(t *testing.T) {
	first, second := beginWith(t), beginWith(t)
	link, there := connectTo(t, first.address, second.address), connectTo(t, second.address)
	box, err := link.Listen("box")
	if err != nil {
		t.Fatal(err)
	}
	isThere := func() bool {
		_ = there.Send("box", []byte("x"))
		select {
		case <-box:
			return true
		case <-time.After(10 * time.Millisecond):
			return false
		}
	}
	until(t, "there are connections", func() bool { return link.Connected() && there.Connected() })
	link.Move(time.Hour)
	for i := 0; i < 20; i++ {
		if isThere() {
			t.Fatal("it left a new connection")
		}
	}
	link.Move(0)
	until(t, "it is at the next server", isThere)
	before := there.Returns()
	there.Move(0)
	if isThere(); there.Returns() != before || !there.Connected() {
		t.Error("it left the only server")
	}
}
