package voter

import (
	"calvundek.example/service/internal/moment"
	"calvundek.example/service/qlock"
)

// A shard has the locks whose names have one hash, and 64 numbers for those who use them. So a cluster has 64 numbers for each of its
// shards. To a lock, and to all laws, its shard is the whole cluster: a session is of one shard, and says nothing of locks of another one.

// shard is what a voter keeps of the sessions of a shard.
type shard struct {
	table
	busy    voteList      // the votes that somebody has or waits for
	waiting *numberQueue  // who waits for a number; nil while nobody does
	used    moment.Moment // when a message of a session of it came
	votes   int32         // how many locks of it are known
	open    uint8         // its sessions, and the numbers that may be claimed, when they were counted last
	free    uint8
}

// shard returns what is kept of a shard.
func (d *Daemon) shard(number int) *shard {
	s := d.shards[number]
	if s == nil {
		if d.shards == nil {
			d.shards = map[int]*shard{}
		}
		s = &shard{table: newTable(&d.leases, number, d.floors[number]), used: moment.Never, free: qlock.MaxClients}
		d.shards[number] = s
		d.inTurn = append(d.inTurn, s)
		d.census.add(s, 1)
	}
	return s
}

// shardOfSession returns the shard of a session by its name here, nil if there is none.
func (d *Daemon) shardOfSession(name string) *shard {
	number, ok := d.cluster.ShardOfSession(nameOf(name))
	if !ok {
		return nil
	}
	return d.shard(number)
}

// shardOfLock returns the shard of a lock.
func (d *Daemon) shardOfLock(lock string) *shard { return d.shard(d.cluster.ShardOfLock(lock)) }

// shardOfKey returns the shard of a row that is kept under a key, and its number there.
func (d *Daemon) shardOfKey(key int) (s *shard, number int) {
	return d.shard(key / qlock.MaxClients), key % qlock.MaxClients
}
