package voter

import (
	"crypto/rand"
	"io"
	"time"

	"calvundek.example/service/internal/config"
)

// What a voter takes from its surroundings.
//
// The loop reads no clock, no file and no random bits by itself: they are handed to it, as messages
// are. In real life they are those of the machine. A simulation hands in its own, and steps the voter
// (Turn, Take) in place of Run.

// Surroundings are the clock, the disk and the random bits of a voter. What is nil is that of the machine.
type Surroundings struct {
	Now    func() time.Time // never falls
	Random io.Reader        // for what nobody may guess: identities, words of processes, keys of markers
	Disk   Disk             // has the state; the file in the folder of the voter's settings if nil
	Block  uint64           // how many grants a voter may give above what is known, at first
}

// complete returns surroundings of which nothing is missing, but for the disk.
func (s Surroundings) complete() Surroundings {
	if s.Now == nil {
		s.Now = time.Now
	}
	if s.Random == nil {
		s.Random = rand.Reader
	}
	if s.Block == 0 {
		s.Block = firstCeiling
	}
	return s
}

// nonce returns 128 random bits in hexadecimal.
func (s Surroundings) nonce() (string, error) { return config.NonceOf(s.Random) }

// now reads the clock.
func (d *Daemon) now() time.Time {
	if d.around.Now == nil {
		return time.Now()
	}
	return d.around.Now()
}

// firstBlock returns how many grants a voter may give above what is known, at first.
func (d *Daemon) firstBlock() uint64 {
	if d.around.Block == 0 {
		return firstCeiling
	}
	return d.around.Block
}

// Disk keeps a voter's state: rows with a key, in buckets. The rows have checksums (rows.go), so a disk need not see what is
// damaged.
type Disk interface {
	// View reads rows as the last transaction left them.
	View(read func(Rows) error) error
	// Update changes rows in one transaction. When it returns nil all changes are durable. Else all or none of them are.
	Update(change func(Rows) error) error
	// Sync makes durable that there is a state.
	Sync() error
	// Close ends the use of the state. One process has it at a time.
	Close() error
}

// Rows are the rows of a disk within a transaction.
type Rows interface {
	// Get returns a row, nil if there is none. It stays as it is until the transaction ends.
	Get(bucket, key []byte) []byte
	// Put puts a row in place of the one with this key. Both are read until the transaction ends, and the key only until Put returns.
	Put(bucket, key, row []byte) error
	Remove(bucket, key []byte) error
	// Each hands all rows of a bucket to a function, by their keys.
	Each(bucket []byte, use func(key, row []byte) error) error
}
