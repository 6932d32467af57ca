package simulation

import (
	"errors"
	"sort"

	"calvundek.example/service/internal/voter"
	"calvundek.example/service/qlock"
)

// errFull is what a save says that found no room.
var errFull = errors.New("no space left on device")

// rows are the rows of a state, by their buckets and keys. A row never changes; another one takes its place.
type rows map[string]map[string][]byte

// copied returns a copy.
func (r rows) copied() rows {
	all := rows{}
	for bucket, of := range r {
		all[bucket] = make(map[string][]byte, len(of))
		for key, row := range of {
			all[bucket][key] = row
		}
	}
	return all
}

// disk is the disk of a voter. What was saved is there after a crash, and nothing else.
type disk struct {
	rows rows
	full bool // there is no room for another save
	used int  // how many processes use it

	floors uint64 // how often a floor took the place of rows

	saving func() saving // how a save ends
	behind []change      // of wrong hosts: what was said to be saved, and is not yet

	votes    map[string]savedVote
	sessions map[string]savedSession
	own      savedOwn
}

// saving says how a save ends.
type saving int

const (
	saves     saving = iota
	dies             // the process ends before it
	diesAfter        // the process ends right after it
	fails            // there is no room
	failsLate        // it is said to have failed, and is durable
	lies             // wrong: it is said to be durable, and is lost
	isBehind         // wrong: it is said to be durable, and is so with the next one
)

func newDisk() *disk {
	return &disk{rows: rows{}, saving: func() saving { return saves }, votes: map[string]savedVote{}, sessions: map[string]savedSession{}}
}

// View reads rows.
func (d *disk) View(read func(voter.Rows) error) error { return read(&transaction{disk: d}) }

// Update changes rows.
func (d *disk) Update(write func(voter.Rows) error) error {
	t := &transaction{disk: d}
	if err := write(t); err != nil {
		return err
	}
	switch d.saving() {
	case dies, fails:
		return errFull
	case failsLate:
		d.apply(t.changes)
		return errFull
	case lies:
	case isBehind:
		d.apply(d.behind)
		d.behind = t.changes
	default:
		d.apply(t.changes)
	}
	return nil
}

// apply makes changes durable.
func (d *disk) apply(changes []change) {
	for _, c := range changes {
		of := d.rows[c.bucket]
		if of == nil {
			of = map[string][]byte{}
			d.rows[c.bucket] = of
		}
		switch {
		case c.row == nil:
			delete(of, c.key)
			continue
		case c.bucket == "sessions" && len(c.key) == 2:
			d.floors++
		}
		of[c.key] = c.row
	}
}

// put replaces all that is there.
func (d *disk) put(all rows) {
	d.rows, d.behind = all.copied(), nil
	d.votes, d.sessions, d.own = map[string]savedVote{}, map[string]savedSession{}, savedOwn{}
}

// Sync has nothing to do.
func (d *disk) Sync() error { return nil }

// Close ends the use of the disk.
func (d *disk) Close() error { d.used--; return nil }

// change is a row that a transaction writes, nil for one that it takes out.
type change struct {
	bucket, key string
	row         []byte
}

// transaction has the rows of a disk with its changes.
type transaction struct {
	disk    *disk
	changes []change
}

func (t *transaction) Get(bucket, key []byte) []byte {
	for i := len(t.changes) - 1; i >= 0; i-- {
		if c := &t.changes[i]; c.key == string(key) && c.bucket == string(bucket) {
			return c.row
		}
	}
	for i := len(t.disk.behind) - 1; i >= 0; i-- {
		if c := &t.disk.behind[i]; c.key == string(key) && c.bucket == string(bucket) {
			return c.row
		}
	}
	return t.disk.rows[string(bucket)][string(key)]
}

func (t *transaction) Put(bucket, key, row []byte) error {
	t.changes = append(t.changes, change{string(bucket), string(key), append([]byte(nil), row...)})
	return nil
}

func (t *transaction) Remove(bucket, key []byte) error {
	t.changes = append(t.changes, change{string(bucket), string(key), nil})
	return nil
}

// Each hands all rows of a bucket to a function, by their keys. It is called before a transaction changes any.
func (t *transaction) Each(bucket []byte, use func(key, row []byte) error) error {
	of := t.disk.rows[string(bucket)]
	keys := make([]string, 0, len(of))
	for key := range of {
		keys = append(keys, key)
	}
	sort.Strings(keys)
	for _, key := range keys {
		if err := use([]byte(key), of[key]); err != nil {
			return err
		}
	}
	return nil
}

// durable are the rows that are on the disk.
type durable struct{ of rows }

func (d durable) Get(bucket, key []byte) []byte            { return d.of[string(bucket)][string(key)] }
func (durable) Put(_, _, _ []byte) error                   { return nil }
func (durable) Remove(_, _ []byte) error                   { return nil }
func (durable) Each([]byte, func(_, _ []byte) error) error { return nil }

// saved returns what is on the disk.
func (d *disk) saved() voter.Saved { return voter.Saved{Rows: durable{d.rows}} }

// savedVote is what the disk has of a vote.
type savedVote struct {
	of    *byte // the first byte of the row
	held  qlock.Grant
	given uint64 // no grant that the vote gave has a greater number, and each later one has
}

// vote returns what the disk has of a vote. It reads each row once.
func (d *disk) vote(lock string) (savedVote, error) {
	row := d.rows["votes"][lock]
	if row == nil {
		return savedVote{}, nil
	}
	if known := d.votes[lock]; known.of == &row[0] {
		return known, nil
	}
	v, err := d.saved().Vote(lock)
	if err != nil {
		return savedVote{}, err
	}
	found := savedVote{of: &row[0]}
	if found.held, err = v.Held(); err != nil {
		return savedVote{}, err
	}
	if found.given = found.held.Number; found.given == 0 {
		found.given = givenBy(v)
	}
	d.votes[lock] = found
	return found, nil
}

// givenBy returns the highest number of a grant that a free vote gave: a copy of it says which one is next.
func givenBy(v *qlock.Voter) uint64 {
	trial := *v
	if trial.Extend(qlock.MaxStamp) != nil || trial.Forget() != nil {
		return 0
	}
	for place := 0; place < qlock.MaxVoters; place++ {
		if _, err := trial.Take(request(place, 0), nil); err == nil {
			held, err := trial.Held()
			if err == nil && held.Number > 0 {
				return held.Number - 1
			}
		}
	}
	return 0
}

// savedSession is what the disk has of a number.
type savedSession struct {
	of  *byte
	row voter.Session
}

// session returns what the disk has of a number. It reads each row once.
func (d *disk) session(number int) (voter.Session, error) {
	key := string([]byte{byte(number)})
	row := d.rows["sessions"][key]
	if row == nil {
		return d.saved().Session(number)
	}
	if known := d.sessions[key]; known.of == &row[0] {
		return known.row, nil
	}
	read, err := d.saved().Session(number)
	if err == nil {
		d.sessions[key] = savedSession{&row[0], read}
	}
	return read, err
}

// savedOwn is what the disk has of the voter's starts.
type savedOwn struct {
	of             *byte
	start, ceiling uint64
}

// starts returns how often the voter started, and its ceiling, as the disk has them.
func (d *disk) starts() (start, ceiling uint64, err error) {
	row := d.rows["meta"]["own"]
	if row == nil || d.own.of == &row[0] {
		return d.own.start, d.own.ceiling, nil
	}
	if start, ceiling, err = d.saved().Starts(); err == nil {
		d.own = savedOwn{&row[0], start, ceiling}
	}
	return start, ceiling, err
}
