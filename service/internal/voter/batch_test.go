package voter_test

import (
	"strings"
	"testing"
	"time"

	"calvundek.example/service/internal/wire"
	"calvundek.example/service/internal/worlds"
	"calvundek.example/service/transport"
)

// voice is a session of a number at voter 0.
type voice struct {
	t      *testing.T
	w      *worlds.World
	header wire.Header
	heard  <-chan transport.Message
	last   wire.Header // of what it heard last
}

// newVoice begins a session.
func newVoice(t *testing.T, w *worlds.World, number int, name string) *voice {
	t.Helper()
	heard, err := w.Bus.Port().Listen(wire.SessionBoxes("test", wire.SessionName(wire.NoUser, name)))
	if err != nil {
		t.Fatal(err)
	}
	v := &voice{t, w, wire.Header{Cluster: "test", Coterie: w.Cluster.Marks()[0], Kind: wire.FromClient,
		Number: number, Epoch: 1,
		Reserved: 100, Name: name}, heard, wire.Header{}}
	v.says(". claim " + string(rune('0'+number)) + " 1\n")
	v.hears("claimed")
	return v
}

// says sends lines.
func (v *voice) says(lines string) {
	_ = v.w.Bus.Port().Send(wire.VoterBox("test", 0, wire.NoUser), append(v.header.Append(nil), lines...))
}

// within returns whether a text comes within some time.
func (v *voice) within(text string, most time.Duration) bool {
	for end := time.After(most); ; {
		select {
		case m := <-v.heard:
			v.last, _, _ = wire.Read(m.Data)
			if strings.Contains(string(m.Data), text) {
				return true
			}
		case <-end:
			return false
		}
	}
}

// hears waits for a text that has to come.
func (v *voice) hears(text string) {
	v.t.Helper()
	if !v.within(text, 10*time.Second) {
		v.t.Fatalf("%s does not hear %q", v.header.Name, text)
	}
}

// All votes that change in one batch are saved before their lines leave.
func TestAllVotesOfABatchAreSaved(t *testing.T) {
	w := worlds.New(t, worlds.Majority, 20*time.Second)
	one := newVoice(t, w, 0, "one")
	names := []string{"a", "b", "c", "d"}
	lines := ""
	for _, name := range names {
		lines += name + " request 0 0 1\n"
	}
	one.says(lines)
	one.hears("a locked 0 0 1")
	w.Stop(0)
	w.Start(0)
	w.Ready()
	two := newVoice(t, w, 1, "two")
	for _, name := range names {
		two.says(name + " request 1 0 2\n")
	}
	for _, name := range names {
		if two.within(name+" locked 0 1 2", 100*time.Millisecond) {
			t.Errorf("%s is granted to a second one", name)
		}
	}
}

// A session whose grant is let go hears so.
func TestWhoIsLetGoHearsSo(t *testing.T) {
	w := worlds.New(t, worlds.Majority, time.Second)
	one, two := newVoice(t, w, 0, "one"), newVoice(t, w, 1, "two")
	one.says("orders request 0 0 1\n")
	one.hears("orders locked 0 0 1")
	stop := make(chan struct{})
	defer close(stop)
	go func() {
		for {
			select {
			case <-stop:
				return
			case <-time.After(100 * time.Millisecond):
				two.says(". open 0\norders request 1 0 2\n")
			}
		}
	}()
	two.hears("orders locked 0 1 2")
	one.hears(". gone orders 1\n")
	if one.last.Lapses != 1 || two.last.Lapses != 0 {
		t.Errorf("%d and %d lapses are told", one.last.Lapses, two.last.Lapses)
	}
	w.Stop(0)
	w.Start(0)
	w.Ready()
	one.says(". open 0\n")
	if one.hears("opened 0 1 "); one.last.Lapses != 1 {
		t.Errorf("after a start %d lapses are told", one.last.Lapses)
	}
}

// A voter that starts forgets who waits, as its last save need not know it.
func TestStartForgetsWhoWaits(t *testing.T) {
	w := worlds.New(t, worlds.Majority, 20*time.Second)
	one, two, three := newVoice(t, w, 0, "one"), newVoice(t, w, 1, "two"), newVoice(t, w, 2, "three")
	one.says("orders request 0 0 1\n")
	one.hears("orders locked 0 0 1")
	two.says("orders request 1 0 2\n")
	three.says("orders request 2 0 3\n")
	three.hears("orders fail 0 2 3")
	one.says("orders release 0 0 1\n")
	two.hears("orders locked 0 1 2") // saved while the third one waits
	w.Stop(0)
	w.Start(0)
	w.Ready()
	three.says(". open 0\n") // it is heard, so it could be written to
	three.hears(". opened 2 1 ")
	two.says("orders release 1 0 2\n")
	if three.within("orders locked", 300*time.Millisecond) {
		t.Error("a voter that was started again remembers who waited")
	}
	three.says("orders request 2 0 3\n")
	three.hears("orders locked 0 2 3")
}
