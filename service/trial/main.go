// Command trial tries the service on this machine: it kills, stops and freezes voters, clients and
// servers of NATS, takes the states of voters away, lets operators end sessions and unlock locks,
// and loses and repeats messages, while a witness outside of the clients judges. Some clients stay
// inside for longer than a lease lasts: else a loss that is told too late is hardly seen.
//
// Clients are of all kinds with --all-kinds: by sessions, by agents from Go, Python and curl, by `qlockctl run`, and
// sessions that come and die. The witness has to find nothing of these, and says what else happened before if that may be
// why:
//
//   - two inside, of which none was let go: neither stood still, nor did an operator let it go,
//     nor was it told so, as by Held.Lost;
//   - a write of a pass after one of a later pass, a lost update, a turn that is not above all before;
//   - a wait longer than 3 TTL while a quorum of voters says that it serves, since the last thing that happened to who
//     waits, to the servers, or to somebody who was before it in the queue; and no quorum that serves for so long, though
//     its voters reply;
//   - a failed try of a lock that nobody has, and calls that fail in ways that no fault explains.
//
// Incidents come in bursts, after which all is there again, or all but one voter. With --history what happened is kept,
// and --judge judges it again.
package main

import (
	_ "embed"
	"encoding/json"
	"errors"
	"fmt"
	"math/rand"
	"os"
	"os/signal"
	"path/filepath"
	"sort"
	"syscall"
	"time"

	"calvundek.example/service/internal/local"
	"github.com/spf13/cobra"
)

var (
	errFaults      = errors.New("the trial found faults")
	errInterrupted = errors.New("interrupted")
)

// options of a trial.
type options struct {
	local.Options
	open            bool
	length          time.Duration
	passes          int
	workers, places int
	each            int
	percent         int
	stays           int
	seed            int64
	allKinds        bool
	python          string // the folder of the library for Python
	history         string // the file of what happened, "" for none
	exchange        string
	everything      bool
	weights         map[string]int // of kinds of incidents, in place of their own
}

// complete returns the options with what they imply, or an error if something is missing.
func (o options) complete() (options, error) {
	switch {
	case o.unknownKind() != "":
		return o, fmt.Errorf("there is no kind of incident %q", o.unknownKind())
	case o.everything && o.exchange == "":
		return o, errors.New("--everything needs the coterie of --exchange")
	case o.everything:
		o.Islands, o.SmallDisk = true, true
		if o.Loss == 0 {
			o.Loss = 2
		}
	case o.Loss > 0 && !o.Islands:
		return o, errors.New("--loss needs --partitions")
	}
	if o.allKinds {
		o.Agents = 2
	}
	if o.seed == 0 {
		o.seed = time.Now().UnixNano() % 1000000
	}
	return o, nil
}

// unknownKind returns a name of --weight that no kind of incident has, "" if there is none.
func (o options) unknownKind() string {
	for name := range o.weights {
		if !isKind(name) {
			return name
		}
	}
	return ""
}

func main() {
	if err := command().Execute(); err != nil {
		fmt.Fprintln(os.Stderr, "trial:", err)
		os.Exit(1)
	}
}

func command() *cobra.Command {
	var o options
	var history string
	root := &cobra.Command{Use: "trial", Args: cobra.NoArgs, SilenceUsage: true, SilenceErrors: true,
		RunE: func(*cobra.Command, []string) error {
			if history != "" {
				found, err := judgeHistory(history)
				found.show()
				if err == nil && found.faults() > 0 {
					err = errFaults
				}
				return err
			}
			o, err := o.complete()
			if err != nil {
				return err
			}
			return run(o)
		}}
	flags := root.Flags()
	flags.StringVar(&o.Folder, "folder", "", "a new folder for the cluster, on a disk that syncs")
	flags.StringVar(&o.Bin, "bin", "", "the folder of qlock-voter and qlockctl")
	flags.StringVar(&o.Coterie, "coterie", "", "the file of the coterie")
	flags.DurationVar(&o.TTL, "ttl", 2*time.Second, "the TTL")
	flags.DurationVar(&o.length, "for", 2*time.Minute, "how long the trial takes at least")
	flags.IntVar(&o.passes, "passes", 0, "how many passes it makes at least")
	flags.IntVar(&o.workers, "clients", 6, "how many clients")
	flags.IntVar(&o.places, "places", 6, "how many locks")
	flags.IntVar(&o.each, "each", 4, "how many goroutines of each client pass through the locks")
	flags.IntVar(&o.percent, "noise", 1, "how many of 100 messages are lost, and how many repeated, in each direction of each client")
	flags.IntVar(&o.stays, "stays", 3,
		"how many of 1000 passes stay inside until the lock is lost, or for one and a half TTL")
	flags.Int64Var(&o.seed, "seed", 0, "the seed of the incidents; a fresh one if it is 0")
	flags.BoolVar(&o.allKinds, "all-kinds", false, "clients of all kinds, by two agents, too")
	flags.StringVar(&o.python, "python", "", "the folder of the library for Python, for a client in Python")
	flags.StringVar(&o.history, "history", "", "a file that keeps what happened")
	flags.StringVar(&history, "judge", "", "judge such a file again, and nothing else")
	flags.BoolVar(&o.Islands, "partitions", false, "also cut voters and clients off, by network namespaces; needs root")
	flags.IntVar(&o.Loss, "loss", 0,
		"how many of 100 packets are lost on the way to each process and from it; needs --partitions")
	flags.BoolVar(&o.SmallDisk, "full-disk", false, "also fill a voter's disk; needs root")
	flags.StringVar(&o.exchange, "exchange", "", "the file of a coterie for which the plan is exchanged meanwhile, and back")
	flags.IntVar(&o.Shards, "shards", 1, "how many shards the cluster has")
	flags.BoolVar(&o.everything, "everything", false,
		"--partitions, --full-disk, --loss 2 if it is not given, and the plan of --exchange and back, again and again")
	flags.StringToIntVar(&o.weights, "weight", nil, "how often a kind of incident is drawn, as \"voters killed=9\", in place of its own weight")
	flags.BoolVar(&o.open, "open-guard", false, "let the guard admit everything, and stop clients: the witness has to find that")
	root.AddCommand(&cobra.Command{Use: "worker HABITS", Args: cobra.ExactArgs(1), Hidden: true,
		RunE: func(_ *cobra.Command, words []string) error { return work(words[0]) }})
	root.AddCommand(&cobra.Command{Use: "hold", Args: cobra.NoArgs, Hidden: true,
		RunE: func(*cobra.Command, []string) error { return hold() }})
	return root
}

// run runs a trial, and prints what it found.
func run(o options) error {
	cluster, err := local.Start(o.Options)
	if err != nil {
		return err
	}
	defer cluster.End()
	path := filepath.Join(o.Folder, "witness")
	w, err := newWitness(path, o.TTL, o.open, o.history)
	if err != nil {
		return err
	}
	p := &player{cluster: cluster, witness: w, ttl: o.TTL, options: o, random: rand.New(rand.NewSource(o.seed)),
		away: map[*local.Process]bool{}, counts: map[string]int{}}
	fmt.Println("seed", o.seed)
	if p.workers, err = startWorkers(cluster, path, o); err != nil {
		return err
	}
	over := make(chan struct{})
	defer close(over)
	go p.observe(over)
	signals := make(chan os.Signal, 1)
	signal.Notify(signals, syscall.SIGINT, syscall.SIGTERM)
	go func() {
		<-signals
		p.fail(errInterrupted)
	}()
	began, mover := time.Now(), newMover(p)
	// what happens is a matter of luck, so it goes on until there was enough of all, at most for thrice the time
	lacks := func(f findings) bool {
		return f.Passes < o.passes || !o.open && p.lacks(f) != "" && time.Since(began) < 3*o.length
	}
	for err == nil && (time.Since(began) < o.length || lacks(w.look())) && !(o.open && w.look().faults() > 0) {
		if !o.open && p.random.Intn(3) == 0 {
			err = p.limp()
		}
		if err == nil {
			err = p.calm()
		}
		if err == nil {
			mover.dismiss() // else one that was killed, and is not of the plan any more, can't start
			err = p.check()
		}
		if err == nil {
			err = mover.begin()
		}
		if err == nil {
			err = p.burst(2 * o.TTL)
		}
	}
	if err == nil {
		err = p.calm()
	}
	took := time.Since(began)
	found := w.end()
	fmt.Printf("%.0f s, %.0f passes a second\n", took.Seconds(), float64(found.Passes)/took.Seconds())
	show(p.counts)
	found.show()
	if err != nil {
		return err
	}
	return p.verdict(found)
}

// startWorkers starts clients: sessions, and with all kinds some of each of these.
func startWorkers(cluster *local.Cluster, witness string, o options) (workers []*local.Process, err error) {
	self, err := os.Executable()
	if err != nil {
		return nil, err
	}
	start := func(kind string, number, agent, each int) error {
		h := habits{Kind: kind, Name: fmt.Sprintf("%s-%d", kind, number), Cluster: cluster.File, Witness: witness, Bin: o.Bin,
			Places: o.places, Each: each, Noise: o.percent, Stays: o.stays, TTL: o.TTL}
		if agent >= 0 {
			h.Agent = cluster.Socket(agent)
		}
		text, err := json.Marshal(h)
		if err != nil {
			return err
		}
		words := []string{self, "worker", string(text)}
		if kind == "python" {
			words = []string{"env", "PYTHONPATH=" + o.python, "python3", "-c", pythonWorker, string(text)}
		}
		worker, err := cluster.Process(h.Name, words...)
		workers = append(workers, worker)
		return err
	}
	for i := 0; i < o.workers && err == nil; i++ {
		err = start("locks", i, -1, o.each)
	}
	for _, one := range []struct {
		kind                string
		number, agent, each int
	}{
		{"by-agent", 0, 0, 3}, {"by-agent", 1, 1, 3}, {"python", 0, 1, 2}, {"curl", 0, 0, 2},
		{"run", 0, -1, 2}, {"run", 1, 1, 2}, {"brief", 0, -1, 2},
	} {
		if err == nil && o.allKinds && (one.kind != "python" || o.python != "") {
			err = start(one.kind, one.number, one.agent, one.each)
		}
	}
	return workers, err
}

//go:embed worker.py
var pythonWorker string

// show prints how often each incident was played.
func show(counts map[string]int) {
	var names []string
	for name := range counts {
		names = append(names, name)
	}
	sort.Strings(names)
	for _, name := range names {
		fmt.Printf("  %d %s\n", counts[name], name)
	}
}

// show prints what was found.
func (f findings) show() {
	fmt.Printf("%d passes, %d writes, %d turns, %d failed tries, %d of them of a lock that nobody had since a holder died; "+
		"%d locks of sessions that died; longest wait while a quorum served %.2f s\n",
		f.Passes, f.Writes, f.Turns, f.Tries, f.Doubtful, f.Gone, f.LongestWait.Seconds())
	fmt.Printf("locks that were lost while held: %d; entries while one that was let go was inside: %d; "+
		"shows that the guard refused: %d; passes that stayed inside: %d\n", f.Lost, f.Met, f.Refused, f.Stays)
	for _, name := range []string{twoInside, torn, lostUpdates, turnsFell, longWaits, freeTries, nobodyServes, nothingSaid,
		gaveUpEarly, saidRetired} {
		if f.Faults[name] == 0 {
			fmt.Printf("  0 %s\n", name)
		}
	}
	show(f.Faults)
}

// verdict returns an error if the witness found something, or the trial tried too little.
func (p *player) verdict(f findings) error {
	o := p.options
	if o.open && f.Faults[torn] > 0 {
		fmt.Println("the witness found the open guard, as it has to")
		return nil
	}
	if o.open || f.faults() > 0 {
		return errFaults
	}
	if lack := p.lacks(f); lack != "" {
		return fmt.Errorf("%w: %s", errFaults, lack)
	}
	return nil
}

// lacks returns what the trial tried too little, "" if there was enough of all. A short one need not try all.
func (p *player) lacks(f findings) string {
	p.mutex.Lock()
	defer p.mutex.Unlock()
	switch {
	case f.Passes == 0 || f.losses() == 0:
		return "too little happened"
	case p.options.exchange != "" && p.counts[exchanged] < 2:
		return "the plan was not exchanged and back"
	case p.options.length < 2*time.Minute:
		return ""
	case p.counts[letGo] == 0 || p.options.stays > 0 && f.Stays == 0:
		return "operators let nothing go, or nobody stayed inside"
	}
	for _, kind := range kinds {
		if p.counts[kind.name] == 0 && (kind.has == nil || kind.has(p.options)) {
			return "no " + kind.name
		}
	}
	return ""
}
