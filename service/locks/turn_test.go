package locks

import (
	"context"
	"errors"
	"strings"
	"testing"
	"time"

	"calvundek.example/service/internal/wire"
	"calvundek.example/service/internal/worlds"
)

// turnOf takes a lock, returns its turn, and gives it back.
func turnOf(t *testing.T, c *Client, name string) uint64 {
	t.Helper()
	held, err := c.Lock(within(t, 20*time.Second), name)
	if err != nil {
		t.Fatal(err)
	}
	turn, err := held.Turn(within(t, 20*time.Second))
	if err != nil {
		t.Fatal(err)
	}
	if again, err := held.Turn(within(t, 20*time.Second)); again != turn || err != nil {
		t.Errorf("%d, %v after %d", again, err, turn)
	}
	if err := held.Unlock(); err != nil {
		t.Error(err)
	}
	if late, err := held.Turn(within(t, 20*time.Second)); late != 0 || !errors.Is(err, ErrNotHeld) {
		t.Errorf("%d, %v of a lock that was given back", late, err)
	}
	return turn
}

// Who has a lock is shown with its turn, once it asked for one. The next one has none until it asks.
func TestTurnIsShown(t *testing.T) {
	w := worlds.New(t, worlds.Majority, 20*time.Second)
	c, third := startWith(t, w, Config{NoNote: true}), looker(t, w)
	shown := func() (turn uint64) {
		t.Helper()
		err := third.List(within(t, 20*time.Second), "ord", func(_ string, h Holder) error { turn = h.Turn; return nil })
		if h := who(t, third, "orders"); err != nil || h.Turn != turn || strings.Contains(h.String(), "turn=") != (turn > 0) {
			t.Errorf("%+v, and %d in the list: %v", h, turn, err)
		}
		return turn
	}
	for i := 0; i < 2; i++ {
		held := take(t, c, "orders")
		if turn := shown(); turn != 0 {
			t.Errorf("the turn %d is shown, for which nobody asked", turn)
		}
		turn, err := held.Turn(within(t, 20*time.Second))
		if err != nil || turn == 0 || shown() != turn {
			t.Errorf("%d, %v: %d is shown", turn, err, shown())
		}
		if err := held.Unlock(); err != nil {
			t.Error(err)
		}
	}
}

// A turn is shown that the voters of a quorum know of who has the lock, and none that one of them says.
func TestTurnOfAQuorum(t *testing.T) {
	c := alone(t)
	holder := Holder{Number: 5, stamp: 7}
	says := func(number int, stamp uint64) wire.Told { return wire.Told{IsHeld: true, Number: number, Stamp: stamp} }
	turn := func(stamp, top uint64) wire.Told { return wire.Told{Stamp: stamp, Top: top} }
	said := map[int]wire.Told{0: says(5, 7), 1: says(5, 7), 2: says(6, 7)}
	for i, one := range []struct {
		turns map[int]wire.Told
		want  uint64
	}{
		{nil, 0},
		{map[int]wire.Told{0: turn(7, 40), 1: turn(7, 40)}, 40},
		{map[int]wire.Told{0: turn(7, 40)}, 0},
		{map[int]wire.Told{0: turn(7, 40), 1: turn(7, 41)}, 0},
		{map[int]wire.Told{0: turn(7, 40), 1: turn(6, 40)}, 0},
		{map[int]wire.Told{0: turn(7, 40), 2: turn(7, 40)}, 0},
	} {
		if got := c.turnBy(one.turns, said, holder); got != one.want {
			t.Errorf("%d: %d", i, got)
		}
	}
}

// Turns grow, by whichever quorums clients have the lock, while messages are lost.
func TestTurnsGrow(t *testing.T) {
	w := worlds.New(t, worlds.Majority, 5*time.Second)
	clients := []*Client{startWith(t, w, Config{}), startWith(t, w, Config{})}
	w.Bus.Noise(10, 10, 10)
	last := uint64(0)
	for i := 0; i < 20; i++ {
		turn := turnOf(t, clients[i%2], "orders")
		if turn <= last {
			t.Fatalf("%d after %d", turn, last)
		}
		last = turn
	}
}

// Turns grow over a voter that started again, and is ahead of the others, whose ceilings have to follow.
func TestTurnsGrowOverRestarts(t *testing.T) {
	w := worlds.New(t, worlds.Majority, time.Second)
	c := startWith(t, w, Config{})
	last := turnOf(t, c, "orders")
	for i := 0; i < 6; i++ {
		w.Stop(i % 3)
		w.Start(i % 3)
		w.Ready()
		turn := turnOf(t, c, "orders")
		if turn <= last {
			t.Fatalf("%d after %d", turn, last)
		}
		last = turn
	}
}

// Two of a, b and c with two of d, e and f, and then two of d, e and f alone.
const (
	sixVoters = "voters = [\"a\", \"b\", \"c\", \"d\", \"e\", \"f\"]\n"
	twoOfEach = sixVoters + `quorums = [
	["a", "b", "d", "e"], ["a", "b", "d", "f"], ["a", "b", "e", "f"],
	["a", "c", "d", "e"], ["a", "c", "d", "f"], ["a", "c", "e", "f"],
	["b", "c", "d", "e"], ["b", "c", "d", "f"], ["b", "c", "e", "f"]]
`
	twoOfTheLast = sixVoters + "quorums = [[\"d\", \"e\"], [\"d\", \"f\"], [\"e\", \"f\"]]\n"
)

// Turns grow over two exchanges whose first plan has no voter in common with the third, though its voters gave far greater numbers.
func TestTurnsGrowOverPlansApart(t *testing.T) {
	w := worlds.New(t, worlds.Majority, time.Second)
	c := startWith(t, w, Config{})
	for i := 0; i < 9; i++ {
		w.Stop(i % 3)
		w.Start(i % 3)
		w.Ready()
	}
	last := turnOf(t, c, "orders")
	for i, coterie := range []string{twoOfEach, twoOfTheLast} {
		w.Exchange(coterie)
		w.Ready()
		soon(t, "the voters do not take the plan", func() bool { return w.Install() == nil })
		soon(t, "the client stays with the old plan", func() bool { number, _ := planOf(c); return number == uint64(i+1) })
		soon(t, "the plan is not retired", func() bool { return w.Retire() == nil })
	}
	if turn := turnOf(t, c, "orders"); turn <= last { // none of the second plan has led the last voters up
		t.Fatalf("%d after %d", turn, last)
	}
}

// There is no turn of a lock that was given back, and none if a voter of the quorum does not reply.
func TestNoTurn(t *testing.T) {
	w := worlds.New(t, "voters = [\"a\", \"b\"]\nquorums = [[\"a\", \"b\"]]\n", 5*time.Second)
	c := startWith(t, w, Config{})
	held, err := c.Lock(within(t, 20*time.Second), "orders")
	if err != nil {
		t.Fatal(err)
	}
	w.Stop(1)
	ctx, cancel := context.WithTimeout(context.Background(), 300*time.Millisecond)
	defer cancel()
	if turn, err := held.Turn(ctx); turn != 0 || !errors.Is(err, ErrNoQuorum) || !errors.Is(err, context.DeadlineExceeded) {
		t.Errorf("%d, %v", turn, err)
	}
	_ = c.call(func() error {
		if len(c.turns) > 0 {
			t.Error("voters are asked though nobody waits any more")
		}
		return nil
	})
	_ = held.Unlock()
	if turn, err := held.Turn(within(t, 5*time.Second)); turn != 0 || !errors.Is(err, ErrNotHeld) {
		t.Errorf("%d, %v", turn, err)
	}
}
