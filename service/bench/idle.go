package main

import (
	"context"
	"errors"
	"fmt"
	"os"
	"strings"
	"sync"
	"sync/atomic"
	"time"

	"calvundek.example/service/internal/local"
	"calvundek.example/service/locks"
)

// measureIdle passes once through each of many locks, and then measures what voters cost while nobody wants any, and how
// long a start takes.
func measureIdle(cluster *local.Cluster, names int) error {
	if err := passOnce(cluster, names, func(int64) {}); err != nil {
		return err
	}
	return costs(cluster)
}

// soak passes once through each of many locks, and shows meanwhile what the voters keep.
func soak(cluster *local.Cluster, names int) error {
	return passOnce(cluster, names, func(done int64) {
		sums, err := numbers(cluster.Listen)
		if err != nil {
			fmt.Println(err)
			return
		}
		voters := float64(len(cluster.Listen))
		fmt.Printf("%9d locks used; a voter keeps %.0f, in %.1f MB of memory and %.1f MB of its file\n", done, sums["locks"]/voters,
			sums["resident_memory_bytes"]/voters/1e6, sums["file_bytes"]/voters/1e6)
	})
}

// passOnce passes once through each of many locks, and calls a function each ten seconds.
func passOnce(cluster *local.Cluster, names int, look func(done int64)) error {
	ctx, cancel := context.WithTimeout(context.Background(), 3*time.Hour)
	defer cancel()
	clients, err := open(ctx, cluster.File, 4)
	if err != nil {
		return err
	}
	began := time.Now()
	var done, lapsed atomic.Int64
	stop := tell(&done, names, look)
	const workers = 512
	failures := make([]error, workers)
	var group sync.WaitGroup
	for i := 0; i < workers; i++ {
		group.Add(1)
		go func(i int) {
			defer group.Done()
			for n := i; n < names && failures[i] == nil; n += workers {
				l := &locker{client: clients[i%len(clients)], name: fmt.Sprintf("idle-%d", n)}
				if failures[i] = l.Lock(ctx); failures[i] == nil {
					failures[i] = l.Unlock(ctx)
				}
				if errors.Is(failures[i], locks.ErrLapsed) { // this process stood still for long
					lapsed.Add(1)
					failures[i] = nil
				}
				done.Add(1)
			}
		}(i)
	}
	group.Wait()
	stop()
	for _, err := range failures {
		if err != nil {
			return err
		}
	}
	for _, client := range clients {
		if err := client.Close(ctx); err != nil {
			return err
		}
	}
	fmt.Printf("passed through %d locks in %.1f s; %d may have been lost meanwhile\n", names, time.Since(began).Seconds(), lapsed.Load())
	return nil
}

// tell prints every ten seconds how far it is, until the function that it returns is called.
func tell(done *atomic.Int64, names int, look func(done int64)) (stop func()) {
	ticker, ended := time.NewTicker(10*time.Second), make(chan struct{})
	go func() {
		for {
			select {
			case <-ticker.C:
				fmt.Fprintf(os.Stderr, "%d of %d locks\n", done.Load(), names)
				look(done.Load())
			case <-ended:
				return
			}
		}
	}()
	return func() {
		ticker.Stop()
		close(ended)
	}
}

// costs prints what each voter costs in ten seconds, and how long its start takes.
func costs(cluster *local.Cluster) error {
	time.Sleep(3 * time.Second)
	for i, voter := range cluster.Voters {
		before, err := ticks(voter.Pid())
		if err != nil {
			return err
		}
		time.Sleep(10 * time.Second)
		after, err := ticks(voter.Pid())
		if err != nil {
			return err
		}
		known, err := numbers(cluster.Listen[i : i+1])
		if err != nil {
			return err
		}
		voter.Kill()
		began := time.Now()
		if err := voter.Start(); err != nil {
			return err
		}
		for ; ; time.Sleep(10 * time.Millisecond) {
			if _, err := numbers(cluster.Listen[i : i+1]); err == nil {
				break
			} else if time.Since(began) > time.Minute {
				return err
			}
		}
		fmt.Printf("%-8s %.0f locks: %.2f %% of a processor; start %.2f s\n", voter.Name, known["locks"], float64(after-before)/10, time.Since(began).Seconds())
	}
	return nil
}

// ticks returns the processor time of a process, in hundredths of a second.
func ticks(pid int) (int, error) {
	text, err := os.ReadFile(fmt.Sprintf("/proc/%d/stat", pid))
	if err != nil {
		return 0, err
	}
	_, rest, _ := strings.Cut(string(text), ") ")
	var user, system int
	words := strings.Fields(rest)
	_, err = fmt.Sscan(words[11]+" "+words[12], &user, &system)
	return user + system, err
}
