// Package worlds runs a cluster within a test: voters on a bus that loses messages.
package worlds

import (
	"context"
	"encoding/json"
	"errors"
	"io"
	"os"
	"path/filepath"
	"testing"
	"time"

	"calvundek.example/service/internal/bus"
	"calvundek.example/service/internal/config"
	"calvundek.example/service/internal/event"
	"calvundek.example/service/internal/exchange"
	"calvundek.example/service/internal/operator"
	"calvundek.example/service/internal/voter"
	"calvundek.example/service/internal/wire"
	"calvundek.example/service/qlock"
)

// Majority is a coterie of three voters, any two of which are a quorum.
const Majority = `voters = ["a", "b", "c"]
quorums = [["a", "b"], ["a", "c"], ["b", "c"]]
`

// World is a bus, and the voters on it.
type World struct {
	T       *testing.T
	Bus     *bus.Bus
	Cluster *config.Cluster
	Owns    []*config.Voter
	Ports   []*bus.Port // of the voters
	folder  string
	stops   []func()
	ended   []chan error
}

// New makes the states of a cluster's voters, and starts them.
func New(t *testing.T, coterie string, ttl time.Duration) *World {
	t.Helper()
	return NewOf(t, NewCluster(t, coterie, ttl))
}

// NewOf makes the states of the voters of a cluster with these settings, and starts them.
func NewOf(t *testing.T, cluster *config.Cluster) *World {
	t.Helper()
	w := &World{T: t, Bus: bus.New(1), Cluster: cluster, folder: t.TempDir()}
	w.grow()
	w.Ready()
	return w
}

// Ready waits until all voters serve.
func (w *World) Ready() {
	w.T.Helper()
	ctx, cancel := context.WithTimeout(context.Background(), 20*time.Second)
	defer cancel()
	console := w.Console()
	for ctx.Err() == nil {
		replies, err := console.Ask(ctx, "status", console.All()...)
		if err != nil {
			w.T.Fatal(err)
		}
		serving := 0
		for _, r := range replies {
			var status voter.Status
			if json.Unmarshal(r.Body, &status) == nil && status.Serves {
				serving++
			}
		}
		if serving == len(replies) {
			return
		}
		time.Sleep(10 * time.Millisecond)
	}
	w.T.Fatal("some voter does not serve")
}

// grow makes and starts the voters that are not there yet.
func (w *World) grow() {
	for i, name := range w.Cluster.Names() {
		if i < len(w.Owns) {
			continue
		}
		own := NewVoter(name, filepath.Join(w.folder, name))
		if _, err := voter.Init(own, w.Cluster); err != nil {
			w.T.Fatal(err)
		}
		w.Owns, w.Ports, w.stops = append(w.Owns, own), append(w.Ports, nil), append(w.stops, nil)
		w.ended = append(w.ended, nil)
		w.Start(i)
	}
}

// patience is how long an operator waits for voters.
const patience = 500 * time.Millisecond

// Exchange begins to exchange the plan for one of another coterie, and starts the voters that only it has.
func (w *World) Exchange(coterie string) {
	w.T.Helper()
	next, err := exchange.Next(w.Cluster, coterie)
	if err != nil {
		w.T.Fatal(err)
	}
	w.Cluster = next
	w.grow()
}

// Install gives the voters the new plan.
func (w *World) Install() error {
	_, err := exchange.Install(context.Background(), w.Cluster, w.Console(), patience)
	return err
}

// Retire takes the old plan out of use.
func (w *World) Retire() error {
	_, err := exchange.Retire(context.Background(), w.Cluster, w.Console(), patience)
	if err == nil {
		w.Cluster = exchange.Retired(w.Cluster)
	}
	return err
}

// NewCluster returns a cluster's settings, with a plan.
func NewCluster(t *testing.T, coterie string, ttl time.Duration) *config.Cluster {
	t.Helper()
	plan, err := qlock.FindPlan(coterie)
	if err != nil {
		t.Fatal(err)
	}
	c := &config.Cluster{ID: "test", Servers: []string{"none"}, TTL: config.Duration{Duration: ttl}, Coterie: coterie, Plan: plan.Text}
	if err := c.Check(); err != nil {
		t.Fatal(err)
	}
	return c
}

// NewVoter returns a voter's settings.
func NewVoter(name, data string) *config.Voter {
	return &config.Voter{Voter: name, Data: data, MaxLocks: 100,
		First: config.Duration{Duration: 50 * time.Millisecond}, Most: config.Duration{Duration: 500 * time.Millisecond}}
}

// Start starts a voter from its state.
func (w *World) Start(i int) {
	w.T.Helper()
	w.Ports[i] = w.Bus.Port()
	var out io.Writer = io.Discard
	if testing.Verbose() {
		out = os.Stderr
	}
	daemon, err := voter.Open(w.Owns[i], w.Cluster, w.Ports[i], event.To(out))
	if err != nil {
		w.T.Fatal(err)
	}
	ctx, cancel := context.WithCancel(context.Background())
	ended := make(chan error, 1)
	w.ended[i] = ended
	go func() { ended <- daemon.Run(ctx) }()
	stopped := false
	w.stops[i] = func() {
		if stopped {
			return
		}
		stopped = true
		cancel()
		if err := <-ended; err != nil && err != errTaken {
			w.T.Error(err)
		}
	}
	w.T.Cleanup(w.stops[i])
}

// errTaken says that Ends has returned why a voter ended.
var errTaken = errors.New("taken")

// Ends waits until a voter ends by itself, and returns why.
func (w *World) Ends(i int) error {
	w.T.Helper()
	select {
	case err := <-w.ended[i]:
		w.ended[i] <- errTaken
		return err
	case <-time.After(10 * time.Second):
		w.T.Fatal("the voter goes on")
		return nil
	}
}

// Second starts a second process of a voter, and returns why it ended.
func (w *World) Second(i int) error {
	w.T.Helper()
	daemon, err := voter.Open(w.Owns[i], w.Cluster, w.Bus.PortBeside(), event.To(io.Discard))
	if err != nil {
		return err
	}
	ctx, cancel := context.WithTimeout(context.Background(), 3*time.Second)
	defer cancel()
	return daemon.Run(ctx)
}

// Copy returns the state of a voter that is stopped, and Put puts one back.
func (w *World) Copy(i int) []byte {
	w.T.Helper()
	state, err := os.ReadFile(filepath.Join(w.Owns[i].Data, "voter.db"))
	if err != nil {
		w.T.Fatal(err)
	}
	return state
}

// Put puts a state in the place of a voter's.
func (w *World) Put(i int, state []byte) {
	w.T.Helper()
	if err := os.WriteFile(filepath.Join(w.Owns[i].Data, "voter.db"), state, 0o600); err != nil {
		w.T.Fatal(err)
	}
}

// Stop ends a voter, which says so.
func (w *World) Stop(i int) { w.stops[i]() }

// Kill ends a voter, which has no time to say so.
func (w *World) Kill(i int) {
	w.Ports[i].Cut(true)
	w.stops[i]()
}

// Lose removes a voter's state, which is stopped, and makes it again as one that lost it.
func (w *World) Lose(i int) {
	w.T.Helper()
	if err := os.RemoveAll(w.Owns[i].Data); err != nil {
		w.T.Fatal(err)
	}
	ctx, cancel := context.WithTimeout(context.Background(), 30*time.Second)
	defer cancel()
	if _, err := voter.InitLost(ctx, w.Owns[i], w.Cluster, w.Console()); err != nil {
		w.T.Fatal(err)
	}
}

// Console returns an operator's console.
func (w *World) Console() *operator.Console {
	return operator.New(w.Cluster, w.Bus.Port(), wire.NoUser)
}
