package main

import (
	"context"
	"errors"
	"fmt"
	"sync/atomic"
	"time"

	"calvundek.example/service/internal/config"
	"calvundek.example/service/internal/local"
	"calvundek.example/service/locks"
	"calvundek.example/service/transport"
)

// errShards is returned if a cluster has too few shards for so many sessions.
var errShards = errors.New("there are fewer shards than sessions are to rest: --shards")

// counted is a carrier that counts the messages that leave and come.
type counted struct {
	transport.Transport
	left, came atomic.Int64
}

func (c *counted) Send(mailbox string, message []byte) error {
	c.left.Add(1)
	return c.Transport.Send(mailbox, message)
}

func (c *counted) Listen(mailbox string) (<-chan transport.Message, error) {
	from, err := c.Transport.Listen(mailbox)
	if err != nil {
		return nil, err
	}
	to := make(chan transport.Message, 1<<10)
	go func() {
		for m := range from {
			c.came.Add(1)
			to <- m
		}
	}()
	return to, nil
}

// measureRest passes once through a lock of each of so many shards, by one process, and counts the messages of this process while its
// sessions rest. They keep their numbers for two TTLs.
func measureRest(cluster *local.Cluster, sessions int, length time.Duration) error {
	settings, err := config.ReadCluster(cluster.File)
	if err == nil && settings.Shards < sessions {
		err = errShards
	}
	if err != nil {
		return err
	}
	ctx, cancel := context.WithTimeout(context.Background(), length+time.Minute)
	defer cancel()
	link, err := transport.Connect(settings, config.Access{}, "qlock bench")
	if err != nil {
		return err
	}
	carrier := &counted{Transport: link}
	client, err := locks.Open(ctx, locks.Config{Cluster: cluster.File, Transport: carrier, NoNote: true})
	if err != nil {
		return err
	}
	used := map[int]bool{}
	for i := 0; len(used) < sessions; i++ {
		name := fmt.Sprint("rest-", i)
		if shard := settings.ShardOfLock(name); !used[shard] {
			used[shard] = true
			l := &locker{client: client, name: name}
			if err = l.Lock(ctx); err == nil {
				err = l.Unlock(ctx)
			}
			if err != nil {
				return err
			}
		}
	}
	time.Sleep(settings.TTL.Duration / 2) // until all rest
	before, err := numbers(cluster.Listen)
	if err != nil {
		return err
	}
	left, came, began := carrier.left.Load(), carrier.came.Load(), time.Now()
	time.Sleep(length)
	seconds := time.Since(began).Seconds()
	left, came = carrier.left.Load()-left, carrier.came.Load()-came
	after, err := numbers(cluster.Listen)
	if err != nil {
		return err
	}
	fmt.Printf("%d sessions of one process that rest: %.1f messages a second leave it, and %.1f come; all %d voters: %.2f %% of a processor\n",
		sessions, float64(left)/seconds, float64(came)/seconds, len(cluster.Listen), 100*(after["cpu_seconds_total"]-before["cpu_seconds_total"])/seconds)
	return client.Close(ctx)
}
