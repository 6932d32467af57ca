package voter

import (
	"encoding/json"
	"fmt"

	"calvundek.example/service/qlock"
)

// Saved reads single rows of a state, for who watches a voter from outside.
type Saved struct{ Rows }

// Meta returns whose state it is.
func (s Saved) Meta() (meta Meta, err error) {
	return meta, s.read(metaBucket, metaBucket, &meta)
}

// Starts returns how often the voter started, and the ceiling that it asked for last.
func (s Saved) Starts() (start, ceiling uint64, err error) {
	var own own
	err = s.read(metaBucket, ownKey, &own)
	return own.Start, own.Ceiling, err
}

// Saves returns how often the state was saved.
func (s Saved) Saves() (uint64, error) {
	saves, _, err := counts(s.Rows)
	return saves, err
}

// Vote returns the vote for a lock, nil if there is none.
func (s Saved) Vote(lock string) (*qlock.Voter, error) {
	packed, err := get(s.Rows, voteBucket, []byte(lock))
	if err != nil || packed == nil {
		return nil, err
	}
	state, ok := unpack(packed)
	if !ok {
		return nil, fmt.Errorf("vote %q: %w", lock, ErrDamaged)
	}
	return qlock.RestoreVoter(state)
}

// Session returns the row of a client's number, in the first shard. A number without a row reads as the shard's floor, if there is one.
func (s Saved) Session(number int) (row Session, err error) {
	key := []byte{byte(number)}
	if value, err := get(s.Rows, sessionBucket, key); err != nil || value != nil {
		return row, s.read(sessionBucket, key, &row)
	}
	var floor Floor
	err = s.read(sessionBucket, floorKey(0), &floor)
	return floor.row(number), err
}

// Peer returns what is kept of the voter of a place.
func (s Saved) Peer(place int) (p Peer, err error) {
	return p, s.read(peerBucket, []byte{byte(place)}, &p)
}

// read reads a row of JSON. One that is not there reads as nothing.
func (s Saved) read(bucket, key []byte, into interface{}) error {
	value, err := get(s.Rows, bucket, key)
	if err != nil || value == nil {
		return err
	}
	if json.Unmarshal(value, into) != nil {
		return fmt.Errorf("%s, row %q: %w", bucket, key, ErrDamaged)
	}
	return nil
}

// Serves returns whether a voter takes lines: the others answered its start.
func (d *Daemon) Serves() bool { return d.join.done }
