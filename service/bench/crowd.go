package main

import (
	"context"
	"fmt"
	"math/rand"
	"sort"
	"sync"
	"sync/atomic"
	"time"

	"calvundek.example/service/internal/config"
	"calvundek.example/service/internal/local"
	"calvundek.example/service/locks"
	"calvundek.example/service/transport"
)

// crowd is many sessions, each of which has some locks at a time.
type crowd struct {
	sessions  int
	each      int           // how many locks each has at a time
	names     int           // of locks, from which each session takes one at random
	has, idle time.Duration // for how long it has a lock, and wants none afterwards, about
	length    time.Duration
}

// member is whoever takes locks by a session of a crowd, and what it saw.
type member struct {
	client *locks.Client
	passes int
	waits  []time.Duration
}

// sharing is how many sessions share a connection.
const sharing = 50

// measure prints how often the sessions got a lock, how long they waited, and what the voters did meanwhile.
func (c crowd) measure(cluster *local.Cluster) error {
	ctx, cancel := context.WithTimeout(context.Background(), 3*c.length+10*time.Minute)
	defer cancel()
	began := time.Now()
	members, err := c.open(ctx, cluster)
	if err != nil {
		return err
	}
	fmt.Printf("%d sessions, opened in %.1f s\n", len(members), time.Since(began).Seconds())
	before, err := numbers(cluster.Listen)
	if err != nil {
		return err
	}
	began = time.Now()
	members = c.spread(members)
	failed := c.run(ctx, members)
	seconds := time.Since(began).Seconds()
	after, err := numbers(cluster.Listen)
	if err != nil {
		return err
	}
	show(members, seconds, failed)
	each := float64(len(cluster.Listen))
	more := func(key string) float64 { return (after[key] - before[key]) / each / seconds }
	fmt.Printf("each voter: %.0f messages a second, %.0f saves, %.0f %% of a processor, %.0f MB of memory, %.1f MB of its file, %.0f locks kept\n",
		more("messages_received_total"), more("commit_seconds_count"), 100*more("cpu_seconds_total"),
		after["resident_memory_bytes"]/each/1e6, after["file_bytes"]/each/1e6, after["locks"]/each)
	return nil
}

// open opens the sessions, of which some share a connection.
func (c crowd) open(ctx context.Context, cluster *local.Cluster) ([]*member, error) {
	settings, err := config.ReadCluster(cluster.File)
	if err != nil {
		return nil, err
	}
	members, errs := make([]*member, c.sessions), make([]error, (c.sessions+sharing-1)/sharing)
	var group sync.WaitGroup
	for i := range errs {
		group.Add(1)
		go func(i int) {
			defer group.Done()
			link, err := transport.Connect(settings, config.Access{}, "qlock crowd")
			for n := i * sharing; err == nil && n < len(members) && n < (i+1)*sharing; n++ {
				members[n] = &member{}
				members[n].client, err = locks.Open(ctx, locks.Config{Cluster: cluster.File, Transport: link, NoNote: true})
			}
			errs[i] = err
		}(i)
	}
	group.Wait()
	for _, err := range errs {
		if err != nil {
			return nil, err
		}
	}
	return members, nil
}

// spread returns as many members for each one as it has locks at a time.
func (c crowd) spread(members []*member) (all []*member) {
	for _, m := range members {
		for n := 0; n < c.each; n++ {
			all = append(all, &member{client: m.client})
		}
	}
	return all
}

// run lets all members take locks for a time, and returns how many calls failed.
func (c crowd) run(ctx context.Context, members []*member) (failed int64) {
	end, failures := time.Now().Add(c.length), atomic.Int64{}
	var group sync.WaitGroup
	for i, m := range members {
		group.Add(1)
		go func(m *member, random *rand.Rand) {
			defer group.Done()
			c.pause(random)
			for time.Now().Before(end) {
				began := time.Now()
				held, err := m.client.Lock(ctx, fmt.Sprint("crowd-", random.Intn(c.names)))
				if err != nil {
					failures.Add(1)
					continue
				}
				m.waits, m.passes = append(m.waits, time.Since(began)), m.passes+1
				time.Sleep(c.has)
				if held.Unlock() != nil {
					failures.Add(1)
				}
				c.pause(random)
			}
		}(m, rand.New(rand.NewSource(int64(i))))
	}
	group.Wait()
	return failures.Load()
}

// pause waits for about the time for which nothing is wanted.
func (c crowd) pause(random *rand.Rand) {
	if c.idle > 0 {
		time.Sleep(c.idle/2 + time.Duration(random.Int63n(int64(c.idle))))
	}
}

// show prints the passes and the waits of a crowd.
func show(members []*member, seconds float64, failed int64) {
	var waits []time.Duration
	least, most, sum := -1, 0, 0
	for _, m := range members {
		waits, sum = append(waits, m.waits...), sum+m.passes
		if least < 0 || m.passes < least {
			least = m.passes
		}
		if m.passes > most {
			most = m.passes
		}
	}
	sort.Slice(waits, func(i, j int) bool { return waits[i] < waits[j] })
	at := func(part float64) float64 {
		if len(waits) == 0 {
			return 0
		}
		return 1000 * waits[int(part*float64(len(waits)-1))].Seconds()
	}
	fmt.Printf("%.1f passes/s in %.0f s, %d to %d for each; lock ms: p50 %.1f  p99 %.1f  max %.1f; %d calls failed\n",
		float64(sum)/seconds, seconds, least, most, at(0.5), at(0.99), at(1), failed)
}
