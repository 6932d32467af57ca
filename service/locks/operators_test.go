package locks

import (
	"errors"
	"fmt"
	"strings"
	"testing"
	"time"

	"calvundek.example/service/internal/config"
	"calvundek.example/service/internal/exchange"
	"calvundek.example/service/internal/operator"
	"calvundek.example/service/internal/voter"
	"calvundek.example/service/internal/wire"
	"calvundek.example/service/internal/worlds"
)

// all is a coterie of the same three voters, which is bridged with Majority.
const all = "voters = [\"a\", \"b\", \"c\"]\nquorums = [[\"a\", \"b\", \"c\"]]\n"

// patience is how long an operator waits for voters here.
const patience = 500 * time.Millisecond

// begin begins an exchange, and returns the settings that were written, nil if none were.
func begin(t *testing.T, w *worlds.World, c *config.Cluster, coterie string) (written *config.Cluster, err error) {
	t.Helper()
	next, err := exchange.Next(c, coterie)
	if err != nil {
		t.Fatal(err)
	}
	_, err = exchange.Begin(within(t, 20*time.Second), c, next, operator.New(next, w.Bus.Port(), wire.NoUser), patience,
		func(c *config.Cluster) error { written = c; return nil })
	return written, err
}

// The next exchange may begin at once after the last one: open sessions go on, also those that did
// not hear of its end.
func TestNextExchangeAtOnce(t *testing.T) {
	w := worlds.New(t, worlds.Majority, 2*time.Second)
	var clients []*Client
	var holds []*Held
	for i := 0; i < 3; i++ {
		c, _ := start(t, w)
		clients = append(clients, c)
	}
	coteries := []string{all, worlds.Majority, all}
	for i, coterie := range coteries {
		soon(t, "the voters do not take the plan", func() bool {
			written, err := begin(t, w, w.Cluster, coterie)
			if written != nil {
				w.Cluster = written
			}
			return err == nil
		})
		for n, c := range clients {
			soon(t, "a client stays with the old plan", func() bool {
				number,
					_ := planOf(c)
				return number == uint64(i+1)
			})
			if i == 0 {
				holds = append(holds, take(t, c, fmt.Sprint("held-", n)))
			}
		}
		if i == len(coteries)-1 {
			break
		}
		for _, h := range holds {
			if isNow(h.Lost()) {
				t.Fatal("an exchange lost a lock")
			}
			if err := h.Unlock(); err != nil {
				t.Fatal(err)
			}
		}
		holds = nil
		soon(t, "the plan is not retired", func() bool { return w.Retire() == nil })
	}
	for i, c := range clients {
		if err := take(t, c, fmt.Sprint("x-", i)).Unlock(); err != nil {
			t.Error(err)
		}
		if err := c.Close(within(t, 10*time.Second)); err != nil {
			t.Errorf("client %d: %v", i, err)
		}
	}
}

// Voters that lost their states since an exchange refuse no further one: it settles the plan in use
// before.
func TestExchangeAfterLosses(t *testing.T) {
	w := worlds.New(t, worlds.Majority, time.Second)
	for _, coterie := range []string{all, worlds.Majority} {
		soon(t, "the voters do not take the plan", func() bool {
			written, err := begin(t, w, w.Cluster, coterie)
			if written != nil {
				w.Cluster = written
			}
			return err == nil
		})
		soon(t, "the plan is not retired", func() bool { return w.Retire() == nil })
	}
	for _, i := range []int{0, 2} {
		w.Stop(i)
		w.Lose(i)
		w.Start(i)
		w.Ready()
	}
	if _, err := begin(t, w, w.Cluster, all); err != nil {
		t.Errorf("after two losses: %v", err)
	}
}

// The operator who failed retires nothing of the one who succeeded, and leaves no voter behind.
func TestTwoOperators(t *testing.T) {
	w := worlds.New(t, worlds.Majority, time.Second)
	before := w.Cluster
	w.Stop(2)
	first, err := begin(t, w, before, "voters = [\"a\", \"b\", \"c\"]\nquorums = [[\"a\", \"b\"]]\n")
	if err != nil {
		t.Fatal(err)
	}
	w.Start(2)
	w.Ready()
	if written, err := begin(t, w, before, all); err == nil || written != nil {
		t.Fatalf("a second exchange: %v, written: %v", err, written != nil)
	}
	second, err := exchange.Next(before, all)
	if err != nil {
		t.Fatal(err)
	}
	console := operator.New(second, w.Bus.Port(), wire.NoUser)
	if _, err := exchange.Retire(within(t, 20*time.Second), second, console, patience); !errors.Is(err,
		exchange.ErrFew) ||
		!strings.Contains(err.Error(), voter.ErrAnother.Error()) {
		t.Errorf("the plan of another operator is retired: %v", err)
	}
	replies, err := w.Console().Ask(within(t, 5*time.Second), "status", 0, 1, 2)
	if err != nil {
		t.Fatal(err)
	}
	for i, generation := range []int{1, 1, 0} {
		if !strings.Contains(string(replies[i].Body), fmt.Sprintf(`"generation":%d,"oldest":0`, generation)) {
			t.Errorf("%s: %s", replies[i].Name, replies[i].Body)
		}
	}
	if _, err := exchange.Install(within(t, 20*time.Second), first, operator.New(first, w.Bus.Port(), wire.NoUser),
		patience); err != nil {
		t.Errorf("the third voter takes the plan of the operator who succeeded: %v", err)
	}
	if _, err := exchange.Retire(within(t, 20*time.Second), first, operator.New(first, w.Bus.Port(), wire.NoUser),
		patience); err != nil {
		t.Errorf("the operator who succeeded: %v", err)
	}
}

// An exchange that all voters refuse leaves the cluster's file as it is.
func TestRefusedExchangeWritesNothing(t *testing.T) {
	w := worlds.New(t, worlds.Majority, time.Second)
	if _, err := begin(t, w, w.Cluster, all); err != nil {
		t.Fatal(err)
	}
	written, err := begin(t, w, w.Cluster, "voters = [\"a\", \"b\", \"c\"]\nquorums = [[\"a\", \"b\"]]\n")
	if err == nil || written != nil {
		t.Errorf("written: %v, %v", written != nil, err)
	}
}

// One voter's word that a plan is retired, as of one with a wrong file, ends no client. A quorum's
// does.
func TestOneVoterRetiresNoClient(t *testing.T) {
	c := alone(t)
	says := func(voter int, identity string) {
		h := wire.Header{Cluster: c.cluster.ID, Coterie: "another", Kind: wire.FromVoter, Number: voter, Name: identity}
		hear(c.Client, h, ". generation 9 000000000000 9\n")
	}
	for i := 0; i < 3; i++ {
		if says(1, "x"); c.why != nil {
			t.Fatalf("one voter ends a client: %v", c.why)
		}
	}
	c.says(2, "")
	if says(2, "nobody"); c.why != nil {
		t.Fatalf("one who is no voter ends a client: %v", c.why)
	}
	if says(2, "identity-2"); !errors.Is(c.why, ErrRetired) {
		t.Error(c.why)
	}
}

// A voter that is new in a plan learns at once what was reserved: else it would lag behind great stamps for hours.
func TestNewVotersLearnWhatIsReserved(t *testing.T) {
	w := worlds.New(t, worlds.Majority, 20*time.Second)
	s := newStranger(t, w, "busy")
	w.Exchange(grown)
	w.Ready() // from now on only the exchange tells the new voters
	s.Number, s.Epoch, s.Reserved, s.Seq = 60, 1, 1<<18, 1
	for voter := 0; voter < 3; voter++ {
		s.send(voter, ". claim 60 1\n")
		s.send(voter, ". open 0\n")
	}
	if !s.hears(fmt.Sprintf("opened 60 1 0 %d ", 1<<18), 5*time.Second) {
		t.Fatal("nothing is reserved")
	}
	soon(t, "the voters do not take the plan", func() bool { return w.Install() == nil })
	replies, err := w.Console().Ask(within(t, 5*time.Second), "sessions 0", 3, 4)
	if err != nil {
		t.Fatal(err)
	}
	for _, r := range replies {
		if !strings.Contains(string(r.Body), fmt.Sprintf(`"number":60,"epoch":1,"reserved":%d`, 1<<18)) {
			t.Errorf("%s: %s", r.Name, r.Body)
		}
	}
}

// `qlockctl retire` brings a voter up to date that did not hear of a session, also where no plan was ever exchanged.
func TestRetireBringsUpToDate(t *testing.T) {
	w := worlds.New(t, worlds.Majority, 20*time.Second)
	s := newStranger(t, w, "busy")
	s.Number, s.Epoch, s.Reserved, s.Seq = 60, 1, 1<<18, 1
	for voter := 0; voter < 2; voter++ {
		s.send(voter, ". claim 60 1\n")
		s.send(voter, ". open 0\n")
	}
	if !s.hears(fmt.Sprintf("opened 60 1 0 %d ", 1<<18), 5*time.Second) {
		t.Fatal("nothing is reserved")
	}
	soon(t, "the voters don't reply", func() bool { return w.Retire() == nil })
	replies, err := w.Console().Ask(within(t, 5*time.Second), "sessions 0", 2)
	if err != nil || !strings.Contains(string(replies[0].Body), fmt.Sprintf(`"reserved":%d`, 1<<18)) {
		t.Errorf("%s, %v", replies[0].Body, err)
	}
}
