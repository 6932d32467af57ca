package config

import (
	"errors"
	"fmt"
	"strings"
	"testing"

	"calvundek.example/service/qlock"
)

const someNonce = "0123456789abcdef0123456789abcdef"

// A session's name says its shard, and operators call a number by its shard. Nothing else is read as one.
func TestShards(t *testing.T) {
	one, many := &Cluster{ID: "test"}, &Cluster{ID: "test", Shards: 8}
	if one.HasShards() || !many.HasShards() || one.Numbers() != 64 || many.Numbers() != 512 {
		t.Error("a cluster has one shard unless it says how many")
	}
	if name := one.SessionName(0, someNonce); name != someNonce {
		t.Errorf("a session of a cluster with one shard is %q", name)
	}
	for shard := 0; shard < 8; shard++ {
		name := many.SessionName(shard, someNonce)
		if read, ok := many.ShardOfSession(name); !ok || read != shard || len(name) > 32 {
			t.Errorf("%q is of shard %d, %v", name, read, ok)
		}
		for number := 0; number < qlock.MaxClients; number += 9 {
			key := shard*qlock.MaxClients + number
			if read, ok := many.KeyOf(many.NumberOf(key)); !ok || read != key || !many.IsKey(key) {
				t.Errorf("%d is called %s, which is %d, %v", key, many.NumberOf(key), read, ok)
			}
		}
	}
	for _, name := range []string{someNonce, "8-" + someNonce[:26], "-1-" + someNonce[:26], "07-" + someNonce[:26], "+1-x", "", "-", "x-1"} {
		if shard, ok := many.ShardOfSession(name); ok {
			t.Errorf("%q is of shard %d", name, shard)
		}
	}
	for _, word := range []string{"5", "8/5", "7/64", "07/5", "7/05", "7/-1", "7/", "/5", "7/5/1", "x"} {
		if key, ok := many.KeyOf(word); ok {
			t.Errorf("%q is %d", word, key)
		}
	}
	for _, word := range []string{"64", "-1", "05", "0/5", ""} {
		if key, ok := one.KeyOf(word); ok {
			t.Errorf("with one shard %q is %d", word, key)
		}
	}
	if key, ok := one.KeyOf("63"); !ok || key != 63 || many.IsKey(512) || many.IsKey(-1) {
		t.Error("63 is no number")
	}
}

// Locks are spread over all shards, and each has one.
func TestShardsOfLocks(t *testing.T) {
	c, counts := &Cluster{ID: "test", Shards: 16}, map[int]int{}
	for i := 0; i < 1600; i++ {
		name := fmt.Sprint("lock-", i)
		if shard := c.ShardOfLock(name); shard != c.ShardOfLock(name) || shard < 0 || shard >= 16 {
			t.Fatalf("%s is of shard %d", name, shard)
		} else {
			counts[shard]++
		}
	}
	for shard := 0; shard < 16; shard++ {
		if counts[shard] < 50 || counts[shard] > 200 {
			t.Errorf("shard %d has %d of 1600 locks", shard, counts[shard])
		}
	}
	if other := (&Cluster{ID: "another", Shards: 16}); other.ShardOfLock("lock-1") == c.ShardOfLock("lock-1") &&
		other.ShardOfLock("lock-2") == c.ShardOfLock("lock-2") && other.ShardOfLock("lock-3") == c.ShardOfLock("lock-3") {
		t.Error("another cluster has the same shards")
	}
}

// Who has another number of shards is of another cluster. The number is a power of two.
func TestNumberOfShards(t *testing.T) {
	marks := map[string]bool{}
	for _, shards := range []int{0, 2, 4} {
		marks[(&Cluster{Shards: shards}).Mark("plan")] = true
	}
	if len(marks) != 3 || (&Cluster{Shards: 1}).Mark("plan") != (&Cluster{}).Mark("plan") {
		t.Error("the mark does not tell the number of shards")
	}
	for _, shards := range []int{-1, 3, 2 * MostShards} {
		c := &Cluster{ID: "test", Servers: []string{"none"}, TTL: Duration{10 * 1e9}, Shards: shards}
		if err := c.Check(); !errors.Is(err, ErrConfig) || !strings.Contains(err.Error(), "shards") {
			t.Errorf("%d shards: %v", shards, err)
		}
	}
}
