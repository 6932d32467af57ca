// Command bench measures the service on this machine: passes a second, and how long Lock takes. bench.sh runs it and the
// same for etcd in turn.
package main

import (
	"bufio"
	"context"
	"errors"
	"flag"
	"fmt"
	"net/http"
	"os"
	"strings"
	"time"

	"calvundek.example/service/internal/local"
	"calvundek.example/service/internal/measure"
	"calvundek.example/service/locks"
)

// loads are what is measured: clients, locks in all, and locks of each client.
var loads = []struct {
	name                 string
	clients, locks, each int
}{
	{"1 client, 1 lock", 1, 1, 1},
	{"6 clients, 1 lock", 6, 1, 1},
	{"6 clients, 6 locks", 6, 6, 1},
	{"6 clients, 384 locks", 6, 384, 64},
}

// locker is one lock of one client.
type locker struct {
	client *locks.Client
	name   string
	held   *locks.Held
}

func (l *locker) Lock(ctx context.Context) (err error) {
	l.held, err = l.client.Lock(ctx, l.name)
	return err
}

func (l *locker) Unlock(context.Context) error { return l.held.Unlock() }

func main() {
	var o local.Options
	length := flag.Duration("for", 10*time.Second, "how long each load takes")
	idle := flag.Int("idle", 0, "measure a voter with so many locks that nobody wants, and nothing else")
	used := flag.Int("soak", 0, "use so many locks once, show what voters keep, and nothing else; QLOCK_MAX_LOCKS is what they may keep")
	rest := flag.Int("rest", 0, "measure a process with so many sessions that rest, in a cluster of as many shards, and nothing else")
	runs := flag.Int("runs", 0, "measure so many runs of a program under a lock, and nothing else")
	etcd := flag.String("etcd", "", "the servers of etcd, with commas, for --runs")
	var many crowd
	flag.IntVar(&many.sessions, "crowd", 0, "measure so many sessions, and nothing else")
	flag.IntVar(&many.each, "each", 1, "how many locks each of these has at a time")
	held := flag.Int("hold", 0, "measure voters while so many processes hold --each locks each, and nothing else; QLOCK_MAX_LOCKS is what voters may keep")
	flag.IntVar(&many.names, "names", 1, "how many locks these use")
	flag.DurationVar(&many.has, "has", 5*time.Millisecond, "for how long one of these has a lock")
	flag.DurationVar(&many.idle, "wants", 0, "how long it is, about, until it wants the next one")
	flag.DurationVar(&o.TTL, "ttl", 10*time.Second, "the cluster's TTL")
	flag.IntVar(&o.Shards, "shards", 1, "how many shards the cluster has")
	flag.StringVar(&o.Folder, "folder", "", "a new folder for the cluster, on a disk that syncs")
	flag.StringVar(&o.Bin, "bin", "", "the folder of qlock-voter and qlockctl")
	flag.StringVar(&o.Coterie, "coterie", "", "the file of the coterie")
	flag.Parse()
	many.length = *length
	what := func(cluster *local.Cluster) error { return measureAll(cluster, *length) }
	switch {
	case *idle > 0:
		what = func(cluster *local.Cluster) error { return measureIdle(cluster, *idle) }
	case *used > 0:
		what = func(cluster *local.Cluster) error { return soak(cluster, *used) }
	case *rest > 0:
		what = func(cluster *local.Cluster) error { return measureRest(cluster, *rest, *length) }
	case *runs > 0:
		what = func(cluster *local.Cluster) error { return measureRuns(cluster, o.Bin, *runs, *etcd) }
	case *held > 0:
		what = holders{*held, many.each, *length}.measure
	case many.sessions > 0:
		what = many.measure
	}
	if err := run(o, what); err != nil {
		fmt.Fprintln(os.Stderr, "bench:", err)
		os.Exit(1)
	}
}

// run starts a cluster, and measures it.
func run(o local.Options, measure func(*local.Cluster) error) error {
	cluster, err := local.Start(o)
	if err != nil {
		return err
	}
	defer cluster.End()
	return measure(cluster)
}

// measureAll prints the figures of all loads.
func measureAll(cluster *local.Cluster, length time.Duration) error {
	for _, load := range loads {
		if err := measureLoad(cluster, load.name, load.clients, load.locks, load.each, length); err != nil {
			return fmt.Errorf("%s: %w", load.name, err)
		}
	}
	return nil
}

// open opens clients of a cluster.
func open(ctx context.Context, file string, n int) (clients []*locks.Client, err error) {
	for i := 0; i < n; i++ {
		client, err := locks.Open(ctx, locks.Config{Cluster: file})
		if err != nil {
			return nil, err
		}
		clients = append(clients, client)
	}
	return clients, nil
}

// measureLoad prints the figures of one load, and what the voters did for a pass.
func measureLoad(cluster *local.Cluster, name string, clients, names, each int, length time.Duration) error {
	ctx, cancel := context.WithTimeout(context.Background(), 2*length+time.Minute)
	defer cancel()
	opened, err := open(ctx, cluster.File, clients)
	if err != nil {
		return err
	}
	var lockers []measure.Locker
	for i, client := range opened {
		for j := 0; j < each; j++ {
			lockers = append(lockers, &locker{client: client, name: fmt.Sprintf("bench-%d", (i*each+j)%names)})
		}
	}
	before, err := numbers(cluster.Listen)
	if err != nil {
		return err
	}
	figures, err := measure.Run(ctx, lockers, length)
	if err != nil {
		return err
	}
	after, err := numbers(cluster.Listen)
	if err != nil {
		return err
	}
	fmt.Printf("qlock  %-22s %v\n", name, figures)
	var sum locks.Stats
	for _, client := range opened {
		s := client.Stats()
		sum.Passes, sum.Reminders, sum.FailOvers = sum.Passes+s.Passes, sum.Reminders+s.Reminders, sum.FailOvers+s.FailOvers
		if closed := client.Close(ctx); err == nil {
			err = closed
		}
	}
	more := func(key string) float64 { return after[key] - before[key] }
	passes, saves := float64(sum.Passes), more("commit_seconds_count")
	fmt.Printf("       for a pass: %.2f saves, %.2f messages to voters, %.2f grants; a save: %.2f ms, %.1f votes; reminders %d of clients, %.0f of voters; fail-overs %d\n",
		saves/passes, more("messages_received_total")/passes, more("grants_total")/passes, 1000*more("commit_seconds_sum")/saves,
		more("commit_votes_sum")/saves, sum.Reminders, more("reminders_total"), sum.FailOvers)
	return err
}

var errNumbers = errors.New("no numbers of a voter")

// numbers returns the sums of what the voters count.
func numbers(listen []string) (map[string]float64, error) {
	sums := map[string]float64{}
	for _, address := range listen {
		reply, err := http.Get("http://" + address + "/metrics")
		if err != nil {
			return nil, fmt.Errorf("%w: %v", errNumbers, err)
		}
		in := bufio.NewScanner(reply.Body)
		for in.Scan() {
			name, rest, _ := strings.Cut(in.Text(), " ")
			var value float64
			if _, err := fmt.Sscan(rest, &value); err == nil && strings.HasPrefix(name, "qlock_voter_") {
				sums[strings.TrimPrefix(name, "qlock_voter_")] += value
			} else if err == nil {
				sums[strings.TrimPrefix(name, "process_")] += value
			}
		}
		reply.Body.Close()
	}
	return sums, nil
}
