package voter_test

import (
	"context"
	"errors"
	"io"
	"os"
	"path/filepath"
	"strings"
	"testing"
	"time"

	"calvundek.example/service/internal/bus"
	"calvundek.example/service/internal/config"
	"calvundek.example/service/internal/event"
	"calvundek.example/service/internal/voter"
	"calvundek.example/service/internal/wire"
	"calvundek.example/service/internal/worlds"
	"calvundek.example/service/transport"
)

// change returns settings that differ in one thing.
func change(own config.Voter, cluster config.Cluster, how func(own *config.Voter, cluster *config.Cluster)) (*config.Voter, *config.Cluster) {
	how(&own, &cluster)
	return &own, &cluster
}

// Each wrong start is refused, with an error that says which.
func TestWrongStarts(t *testing.T) {
	cluster := worlds.NewCluster(t, worlds.Majority, time.Second)
	own := worlds.NewVoter("b", filepath.Join(t.TempDir(), "b"))
	open := func(own *config.Voter, cluster *config.Cluster) error {
		d, err := voter.Open(own, cluster, bus.New(1).Port(), event.To(io.Discard))
		if err == nil {
			ctx, cancel := context.WithCancel(context.Background())
			cancel()
			err = d.Run(ctx)
		}
		return err
	}
	if err := open(own, cluster); !errors.Is(err, voter.ErrMissing) {
		t.Errorf("without a state: %v", err)
	}
	if _, err := voter.Init(own, cluster); err != nil {
		t.Fatal(err)
	}
	if _, err := voter.Init(own, cluster); !errors.Is(err, voter.ErrExists) || !strings.Contains(err.Error(), "init --lost") {
		t.Errorf("a second init: %v", err)
	}
	if err := open(own, cluster); err != nil {
		t.Errorf("a right start: %v", err)
	}
	other := worlds.NewCluster(t, "voters = [\"a\", \"b\"]\nquorums = [[\"b\"]]\n", time.Second)
	for what, how := range map[string]func(own *config.Voter, cluster *config.Cluster){
		"another cluster": func(_ *config.Voter, c *config.Cluster) { c.ID = "other" },
		"another coterie": func(_ *config.Voter, c *config.Cluster) { c.Coterie, c.Planned = other.Coterie, other.Planned },
		"another voter":   func(o *config.Voter, _ *config.Cluster) { o.Voter = "c" },
	} {
		if err := open(change(*own, *cluster, how)); !errors.Is(err, voter.ErrOther) {
			t.Errorf("%s: %v", what, err)
		}
	}
	running, err := voter.Open(own, cluster, bus.New(1).Port(), event.To(io.Discard))
	if err != nil {
		t.Fatal(err)
	}
	if err := open(own, cluster); !errors.Is(err, voter.ErrInUse) {
		t.Errorf("a second process: %v", err)
	}
	ctx, cancel := context.WithCancel(context.Background())
	cancel()
	if err := running.Run(ctx); err != nil {
		t.Fatal(err)
	}
}

// A vote that is not as it was written stops the voter: it can't know what it granted.
func TestDamagedState(t *testing.T) {
	w := worlds.New(t, worlds.Majority, time.Second)
	heard, send := session(t, w, 0)
	send("orders request 0 0 1\n")
	<-heard
	w.Stop(0)
	path := filepath.Join(w.Owns[0].Data, "voter.db")
	bytes, err := os.ReadFile(path)
	if err != nil {
		t.Fatal(err)
	}
	places := 0
	for at := lastIndex(bytes, "orders"); at >= 0; at = lastIndex(bytes[:at], "orders") {
		bytes[at+6+4+20] ^= 1 // behind the name and the checksum, also of older saves
		places++
	}
	if places == 0 {
		t.Fatal("the vote was not saved")
	}
	if err := os.WriteFile(path, bytes, 0o600); err != nil {
		t.Fatal(err)
	}
	if _, err := voter.Open(w.Owns[0], w.Cluster, w.Bus.Port(), event.To(io.Discard)); !errors.Is(err, voter.ErrDamaged) {
		t.Error(err)
	}
}

func lastIndex(bytes []byte, text string) int {
	for i := len(bytes) - len(text); i >= 0; i-- {
		if string(bytes[i:i+len(text)]) == text {
			return i
		}
	}
	return -1
}

// session returns what comes to a session of number 0, and a function that sends lines to one voter.
func session(t *testing.T, w *worlds.World, to int) (<-chan transport.Message, func(lines string)) {
	t.Helper()
	port := w.Bus.Port()
	heard, err := port.Listen(wire.SessionBoxes("test", wire.SessionName(wire.NoUser, "me")))
	if err != nil {
		t.Fatal(err)
	}
	header := wire.Header{Cluster: "test", Coterie: w.Cluster.Marks()[0], Kind: wire.FromClient, Epoch: 1,
		Reserved: 100, Name: "me"}
	send := func(lines string) {
		_ = port.Send(wire.VoterBox("test", to, wire.NoUser), append(header.Append(nil), lines...))
	}
	send(". claim 0 1\n")
	if reply := (<-heard).Data; lastIndex(reply, ". claimed 0 1 0 0\n") < 0 {
		t.Fatalf("no claim: %s", reply)
	}
	return heard, send
}

// A voter whose save fails sends nothing of it, and ends.
func TestFailedSaveEndsTheVoter(t *testing.T) {
	cluster := worlds.NewCluster(t, "voters = [\"a\"]\nquorums = [[\"a\"]]\n", time.Second)
	own := worlds.NewVoter("a", filepath.Join(t.TempDir(), "a"))
	if _, err := voter.Init(own, cluster); err != nil {
		t.Fatal(err)
	}
	world := &worlds.World{T: t, Bus: bus.New(1), Cluster: cluster}
	d, err := voter.Open(own, cluster, world.Bus.Port(), event.To(io.Discard))
	if err != nil {
		t.Fatal(err)
	}
	ended := make(chan error, 1)
	go func() { ended <- d.Run(context.Background()) }()
	heard, send := session(t, world, 0)
	send("orders request 0 0 1\n")
	if message := string((<-heard).Data); lastIndex([]byte(message), "orders locked 0 0 1 1") < 0 {
		t.Fatalf("%q", message)
	}
	voter.FailSaves(d)
	send("orders release 0 0 1\norders request 0 0 2\n")
	if err := <-ended; !errors.Is(err, voter.ErrSave) {
		t.Error(err)
	}
	select {
	case message := <-heard:
		if lastIndex(message.Data, "locked 0 0 2") >= 0 {
			t.Errorf("sent before it was saved: %q", message.Data)
		}
	case <-time.After(200 * time.Millisecond):
	}
}

// Foreign messages and lines of another sender are dropped.
func TestForeignMessages(t *testing.T) {
	w := worlds.New(t, worlds.Majority, time.Second)
	port := w.Bus.Port()
	heard, err := port.Listen(wire.SessionBoxes("test", wire.SessionName(wire.NoUser, "me")))
	if err != nil {
		t.Fatal(err)
	}
	right := wire.Header{Cluster: "test", Coterie: w.Cluster.Marks()[0], Kind: wire.FromClient, Epoch: 1,
		Reserved: 100, Name: "me"}
	_ = port.Send(wire.VoterBox("test", 0, wire.NoUser), append(right.Append(nil), ". claim 0 1\n"...))
	<-heard
	for what, how := range map[string]func(h *wire.Header) string{
		"another cluster":     func(h *wire.Header) string { h.Cluster = "x"; return "orders request 0 0 1\n" },
		"another coterie":     func(h *wire.Header) string { h.Coterie = "x"; return "orders request 0 0 1\n" },
		"a voter":             func(h *wire.Header) string { h.Kind = wire.FromVoter; return "orders request 0 0 1\n" },
		"no session":          func(h *wire.Header) string { h.Epoch = 0; return "orders request 0 0 1\n" },
		"another client":      func(h *wire.Header) string { return "orders request 1 0 1\n" },
		"another voter":       func(h *wire.Header) string { return "orders request 0 1 1\n" },
		"a name that is none": func(h *wire.Header) string { return ".. request 0 0 1\n" },
		"no line":             func(h *wire.Header) string { return "orders\n\n x\n" },
		"no end":              func(h *wire.Header) string { return "orders request 0 0 1" },
	} {
		h := right
		lines := how(&h)
		_ = port.Send(wire.VoterBox("test", 0, wire.NoUser), append(h.Append(nil), lines...))
		select {
		case message := <-heard:
			t.Errorf("%s: %q", what, message.Data)
		case <-time.After(50 * time.Millisecond):
		}
	}
	_ = port.Send(wire.VoterBox("test", 0, wire.NoUser), append(right.Append(nil), "orders request 0 0 1\n"...))
	if message := (<-heard).Data; lastIndex(message, "orders locked 0 0 1 1 ") < 0 {
		t.Errorf("%q", message)
	}
}
