package voter_test

import (
	"strings"
	"testing"
	"time"

	"calvundek.example/service/internal/wire"
	"calvundek.example/service/internal/worlds"
)

// A question of an operator that comes once more, as the reply was late, lets nothing else go: not the session that took the number
// meanwhile.
func TestRepeatedEvict(t *testing.T) {
	w := worlds.New(t, worlds.Majority, time.Second)
	one := newCaller(t, w, 0, "one")
	if !one.says(". claim 0 1 50\norders request 0 0 1\n", "orders locked") {
		t.Fatal("no vote")
	}
	port := w.Bus.Port()
	heard, err := port.Listen(wire.ReplyBoxes("test", "alice.op"))
	if err != nil {
		t.Fatal(err)
	}
	header := wire.Header{Cluster: "test", Coterie: w.Cluster.Marks()[0], Kind: wire.FromOperator, Name: "op"}
	ask := func(words string) string {
		_ = port.Send(wire.WriteBox("test", 0, "alice"), append(header.Append(nil), words+"\n"...))
		_, body, _ := wire.Read((<-heard).Data)
		return strings.TrimSpace(string(body))
	}
	if got := ask("evict 0 now"); got != `{"let_go":1}` {
		t.Fatal(got)
	}
	two := newCallerOf(t, w, 0, "two", 3)
	if !two.says(". claim 0 3 50\norders request 0 0 101\n", "orders locked") {
		t.Fatal("the next session has no vote")
	}
	if got := ask("evict 0 now"); got != `{"let_go":1}` {
		t.Errorf("the reply comes again: %s", got)
	}
	header.Name = "op2"
	if heard, err = port.Listen(wire.ReplyBoxes("test", "alice.op2")); err != nil {
		t.Fatal(err)
	}
	if got := ask("evict 5"); got != `{"let_go":0,"nobody":true}` {
		t.Errorf("nobody has the number: %s", got)
	}
	if got := ask("lock orders"); !strings.Contains(got, `"client":0`) || !strings.Contains(got, `"stamp":101`) {
		t.Errorf("the next session lost its vote: %s", got)
	}
}
