package config

import (
	"crypto/sha256"
	"encoding/binary"
	"fmt"
	"strconv"
	"strings"

	"calvundek.example/service/qlock"
)

// A cluster has shards, each with the locks whose names have one hash, and with 64 numbers for the sessions that use them.

// MostShards is how many shards a cluster may have.
const MostShards = 1 << 16

// nonceOfShard is how many digits of a nonce the name of a session has, where there are shards: 104 bits.
const nonceOfShard = 26

// shards returns how many shards a cluster has.
func (c *Cluster) shards() int {
	if c.Shards == 0 {
		return 1
	}
	return c.Shards
}

// HasShards returns whether a cluster has more than one shard.
func (c *Cluster) HasShards() bool { return c.shards() > 1 }

// Numbers returns how many numbers all shards have.
func (c *Cluster) Numbers() int { return c.shards() * qlock.MaxClients }

// IsKey returns whether some shard has a number with this key: 64 times the shard, and the number there.
func (c *Cluster) IsKey(key int) bool { return key >= 0 && key < c.Numbers() }

// ShardOfLock returns the shard of a lock.
func (c *Cluster) ShardOfLock(lock string) int {
	if !c.HasShards() {
		return 0
	}
	sum := sha256.Sum256([]byte(c.ID + " " + lock))
	return int(binary.BigEndian.Uint32(sum[:])) & (c.shards() - 1)
}

// ShardOfSession returns the shard that the name of a session in its header says, and whether it says one.
func (c *Cluster) ShardOfSession(name string) (shard int, ok bool) {
	if !c.HasShards() {
		return 0, true
	}
	word, _, found := strings.Cut(name, "-")
	return c.shardOf(word, found)
}

// shardOf reads the number of a shard.
func (c *Cluster) shardOf(word string, is bool) (shard int, ok bool) {
	shard, err := strconv.Atoi(word)
	return shard, is && err == nil && shard >= 0 && shard < c.shards() && strconv.Itoa(shard) == word
}

// SessionName returns the name of a session of a shard with this nonce.
func (c *Cluster) SessionName(shard int, nonce string) string {
	if !c.HasShards() {
		return nonce
	}
	return fmt.Sprintf("%d-%s", shard, nonce[:nonceOfShard])
}

// NumberOf returns what operators call a number by its key: the shard and the number there, as 7/5, or the number alone if there is one
// shard.
func (c *Cluster) NumberOf(key int) string {
	if !c.HasShards() {
		return strconv.Itoa(key)
	}
	return fmt.Sprintf("%d/%d", key/qlock.MaxClients, key%qlock.MaxClients)
}

// KeyOf returns the key of a number by what operators call it, and whether there is one.
func (c *Cluster) KeyOf(word string) (key int, ok bool) {
	shard := 0
	if first, second, found := strings.Cut(word, "/"); c.HasShards() {
		if shard, ok = c.shardOf(first, found); !ok {
			return 0, false
		}
		word = second
	}
	number, err := strconv.Atoi(word)
	return shard*qlock.MaxClients + number, err == nil && number >= 0 && number < qlock.MaxClients && strconv.Itoa(number) == word
}

// checkShards returns what is wrong with the number of shards, "" if nothing is.
func (c *Cluster) checkShards() string {
	if c.Shards < 0 || c.Shards > MostShards || c.Shards&(c.Shards-1) != 0 {
		return fmt.Sprintf("shards is %d, and has to be a power of two, at most %d", c.Shards, MostShards)
	}
	return ""
}
