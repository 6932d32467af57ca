package voter

import (
	"bytes"
	"crypto/sha256"
	"encoding/binary"

	"calvundek.example/service/qlock"
)

// A voter that starts wants to know what the others have of sessions. Most of it is what it has itself. So it says a sum of each shard with its
// question, and hears of those shards alone of which the other one has another sum.
//
// To make a sum takes longer than to compare it, so it is kept until a row changes. A start makes those of all shards. Then some are made anew
// in each round, so that a question finds nearly all.

const (
	sumOfShard   = 8       // bytes of a sum
	mostSummed   = 1 << 13 // shards of which one question has the sums
	mostRowsRead = 1 << 14 // for the sums of one answer: some 15 ms
	rowsOfRound  = 1 << 10 // that a round reads
	shardsOfTurn = 1 << 9  // at which a round looks
)

// sums returns the sums of the shards from that of a key on, as many as one question has.
func (d *Daemon) sums(from int) (sums []byte) {
	first, shards := from/qlock.MaxClients, d.cluster.Numbers()/qlock.MaxClients
	for shard := first; shard < shards && shard < first+mostSummed; shard++ {
		sums = append(sums, d.sum(shard)...)
	}
	return sums
}

// sum returns the sum of what this voter would tell of a shard: zeros if that is nothing.
func (d *Daemon) sum(shard int) []byte {
	if s := d.shards[shard]; s != nil {
		return s.sum()
	}
	floor, is := d.floors[shard]
	if !is {
		return make([]byte, sumOfShard)
	}
	text := binary.AppendUvarint([]byte("floor"), floor.Stamp)
	for _, epoch := range floor.Epochs {
		text = binary.AppendUvarint(text, epoch)
	}
	return sumOf(text)
}

// sumOf returns the sum of a text.
func sumOf(text []byte) []byte {
	sum := sha256.Sum256(text)
	return sum[:sumOfShard]
}

// sum returns the sum of the rows of a shard. It is kept until one of them changes.
func (t *table) sum() []byte {
	if t.isSummed {
		return t.summed[:]
	}
	var room [4 << 10]byte
	text := room[:0]
	for number := 0; number < qlock.MaxClients; number++ {
		if row := t.bare(number); row.Epoch > 0 {
			text = row.appendTo(append(t.appendHash(append(text, byte(number)), number), 0))
		}
	}
	if t.summed, t.isSummed = [sumOfShard]byte{}, true; len(text) > 0 {
		copy(t.summed[:], sumOf(text))
	}
	return t.summed[:]
}

// appendTo appends all of a row that other voters want to know, but for the hash.
func (s Session) appendTo(text []byte) []byte {
	for _, number := range []uint64{s.Epoch, s.Base, s.Reserved} {
		text = binary.AppendUvarint(text, number)
	}
	for i, is := range []bool{s.Open, s.Used, s.Dropped} {
		if is {
			text = append(text, byte(1+i))
		}
	}
	return append(text, 0)
}

// unsummed returns how many rows have to be read until there is a sum of a table: none if there is one.
func (t *table) unsummed() (rows int) {
	if t.isSummed {
		return 0
	}
	return len(t.seats.all)
}

// sumAll makes the sums of all shards, by several goroutines.
func (d *Daemon) sumAll() {
	inParts(len(d.inTurn), func(from, to int) {
		for _, s := range d.inTurn[from:to] {
			s.sum()
		}
	})()
}

// sumSome makes some sums anew. It goes on where it ended.
func (d *Daemon) sumSome() {
	for n, rows := 0, 0; n < shardsOfTurn && n < len(d.inTurn) && rows < rowsOfRound; n++ {
		d.nextSummed = (d.nextSummed + 1) % len(d.inTurn)
		s := d.inTurn[d.nextSummed]
		rows += s.unsummed()
		s.sum()
	}
}

// sumSaid returns what a question says of a shard, whose sums are those of the shards from that of a key on. It is nil if it says nothing.
func sumSaid(sums []byte, from, shard int) []byte {
	at := (shard - from/qlock.MaxClients) * sumOfShard
	if at < 0 || at+sumOfShard > len(sums) {
		return nil
	}
	return sums[at : at+sumOfShard]
}

// tellShards tells of the shards from that of a key on, up to the one of another key, what these sums do not say. If many sums have to be made
// it ends sooner, and says where.
func (d *Daemon) tellShards(known *Knows, from, end int, sums []byte) {
	rows := 0
	for key := from; known.Next == 0 && key < end; key = (key/qlock.MaxClients + 1) * qlock.MaxClients {
		shard := key / qlock.MaxClients
		said := sumSaid(sums, from, shard)
		if s := d.shards[shard]; s != nil && said != nil {
			rows += s.unsummed()
		}
		switch {
		case rows > mostRowsRead:
			known.Next = key
		case said == nil || !bytes.Equal(said, d.sum(shard)):
			d.tellShard(known, key)
		}
	}
}
