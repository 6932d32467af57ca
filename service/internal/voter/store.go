package voter

import (
	"bytes"
	"encoding/json"
	"errors"
	"fmt"
	"os"
	"path/filepath"
	"sort"
	"time"

	"calvundek.example/service/qlock"
	"go.etcd.io/bbolt"
)

// The errors of a voter's state.
var (
	ErrExists  = errors.New("there is a state already, and a voter is made once: move what is left of a lost one away before `init --lost`")
	ErrMissing = errors.New("there is no state; a new voter needs `qlock-voter init`, one whose state is lost must not be made as if it were new")
	ErrOther   = errors.New("the state is another voter's")
	ErrInUse   = errors.New("the state is in use by another process")
	ErrFormat  = errors.New("the state is of an older version of this program")
	ErrNewer   = errors.New("the state was made by a newer program")
	ErrDamaged = errors.New("the state is damaged; it forgot what it granted")
)

// lockTimeout is how long a file may be in use by another process.
const lockTimeout = time.Second

// Meta says whose state a file is. Only its format ever changes.
type Meta struct {
	Format   int       `json:"format"`
	Cluster  string    `json:"cluster"`
	Coterie  string    `json:"coterie"` // the mark of the plan with which it was made
	Voter    int       `json:"voter"`
	Run      uint64    `json:"run"` // how often this voter was made again, after its state was lost
	Identity string    `json:"identity"`
	Made     time.Time `json:"made"`
}

// owner returns the parts that have to be those of whoever opens the file.
func (m Meta) owner() string {
	return fmt.Sprintf("voter %d of cluster %s", m.Voter, m.Cluster)
}

var (
	metaBucket    = []byte("meta")
	countsKey     = []byte("counts")
	plansKey      = []byte("plans")
	ownKey        = []byte("own")
	voteBucket    = []byte("votes")
	sessionBucket = []byte("sessions")
	peerBucket    = []byte("peers")
)

// buckets are all of them.
var buckets = [][]byte{metaBucket, voteBucket, sessionBucket, peerBucket}

// store is the file of a voter's state. One transaction saves any number of votes and sessions.
type store struct {
	disk  Disk
	meta  Meta
	plans Generations // as they were read
	own   own         // of its starts
	left  int64       // when the run before ended by itself, as own.Left
	saves uint64      // how often it was saved
	tally uint64      // of its rows
	room  []byte      // of the next transaction
}

// mostRoom is how much room is kept for the next transaction.
const mostRoom = 4 << 20

func file(folder string) string { return filepath.Join(folder, "voter.db") }

// Create makes the state of a voter, which begins with what others know, and gives no grant up to a ceiling. It returns
// ErrExists if there is one. The state is made in a second file, which is renamed. So one that is half made is not there.
func Create(folder string, meta Meta, plans Generations, known Knows, ceiling uint64) error {
	if err := os.MkdirAll(folder, 0o700); err != nil {
		return err
	}
	if _, err := os.Stat(file(folder)); !errors.Is(err, os.ErrNotExist) {
		return fmt.Errorf("%s: %w", file(folder), ErrExists)
	}
	second := file(folder) + ".new"
	if err := os.Remove(second); err != nil && !errors.Is(err, os.ErrNotExist) {
		return err
	}
	if err := write(second, meta, plans, known, ceiling); err != nil {
		return err
	}
	if err := os.Rename(second, file(folder)); err != nil {
		return err
	}
	return syncFolders(folder)
}

func write(path string, meta Meta, plans Generations, known Knows, ceiling uint64) error {
	disk, err := makeFile(path)
	if err != nil {
		return err
	}
	err = fill(disk, meta, plans, known, ceiling)
	if closed := disk.Close(); err == nil {
		err = closed
	}
	return err
}

// fill writes the state of a voter to a disk that has none.
func fill(disk Disk, meta Meta, plans Generations, known Knows, ceiling uint64) error {
	return (&store{disk: disk}).update(0, func(b *batch) error {
		if err := b.putMeta(meta); err != nil {
			return err
		}
		if err := b.putOwn(own{Ceiling: ceiling, Level: known.Level, Lost: meta.Run > 0}); err != nil {
			return err
		}
		if err := b.putPlans(plans); err != nil {
			return err
		}
		if err := b.putPeers(known.Peers); err != nil {
			return err
		}
		if err := b.putFloors(known.Floors, nil); err != nil {
			return err
		}
		return b.putSessions(known.Sessions)
	})
}

var syncFolder = (*os.File).Sync // a test sees which folders are synced

// syncFolders syncs a folder and the one that it is in.
func syncFolders(folder string) error {
	for _, name := range []string{folder, filepath.Dir(folder)} {
		f, err := os.Open(name)
		if err != nil {
			return err
		}
		err = syncFolder(f)
		f.Close()
		if err != nil {
			return err
		}
	}
	return nil
}

// openStore opens the state in a folder, which has to be there, and this voter's, and counts the start. One process has it
// at a time.
func openStore(folder string, want Meta) (*store, error) {
	if err := isThere(folder); err != nil {
		return nil, err
	}
	disk, err := openFile(folder)
	if err != nil {
		return nil, err
	}
	return openOn(disk, folder, want)
}

// openOn opens the state on a disk, which has the name of a folder, and counts the start. It closes a disk that it does not
// take.
func openOn(disk Disk, folder string, want Meta) (*store, error) {
	s := &store{disk: disk}
	if err := s.begin(want); err != nil {
		disk.Close()
		return nil, fmt.Errorf("%s: %w", file(folder), err)
	}
	return s, nil
}

// named returns an error of opening a file by the names of this package, with the file's name.
func named(path string, err error) error {
	switch {
	case err == nil:
		return nil
	case errors.Is(err, bbolt.ErrTimeout):
		return fmt.Errorf("%s: %w", path, ErrInUse)
	case errors.Is(err, bbolt.ErrInvalid), errors.Is(err, bbolt.ErrChecksum), errors.Is(err, bbolt.ErrVersionMismatch):
		return fmt.Errorf("%s: %w: %v", path, ErrDamaged, err)
	}
	return fmt.Errorf("%s: %w", path, err)
}

// openDatabase opens a file all of whose rows are as they were saved.
func openDatabase(path string) (*bbolt.DB, error) {
	if err := verify(path); err != nil {
		return nil, err
	}
	return bbolt.Open(path, 0o600, &bbolt.Options{
		Timeout: lockTimeout, NoFreelistSync: true, FreelistType: bbolt.FreelistMapType, InitialMmapSize: 64 << 20,
	})
}

// begin checks whose state it is. What a killed process wrote may not be durable yet, also if a
// sync after the one that failed says so. So a start writes a transaction before anything depends
// on what was read, and another one, for the other root page.
func (s *store) begin(want Meta) error {
	if err := s.disk.View(s.read); err != nil {
		return err
	}
	if s.meta.owner() != want.owner() {
		return fmt.Errorf("%w: of %s, not of %s", ErrOther, s.meta.owner(), want.owner())
	}
	if err := s.own.refusal(); err != nil {
		return err
	}
	s.left, s.own.Left = s.own.Left, 0
	s.own.Start++
	for root := 0; root < 2; root++ {
		if err := s.update(s.saves, func(b *batch) error { return b.putOwn(s.own) }); err != nil {
			return err
		}
	}
	return s.disk.Sync()
}

// isOldFormat returns whether a file has the format of before there were checksums of all rows.
func isOldFormat(rows Rows) bool {
	var meta Meta
	return json.Unmarshal(rows.Get(metaBucket, metaBucket), &meta) == nil
}

// read reads whose state it is, and what there is but votes and sessions.
func (s *store) read(rows Rows) (err error) {
	if isOldFormat(rows) {
		return fmt.Errorf("%w: it has format 1, which `qlock-voter upgrade` takes over", ErrFormat)
	}
	var meta, plans, own []byte
	for _, one := range []struct {
		key  []byte
		into *[]byte
	}{{metaBucket, &meta}, {plansKey, &plans}, {ownKey, &own}} {
		if *one.into, err = get(rows, metaBucket, one.key); err != nil {
			return err
		}
	}
	if json.Unmarshal(meta, &s.meta) != nil || json.Unmarshal(plans, &s.plans) != nil || json.Unmarshal(own, &s.own) != nil {
		return fmt.Errorf("%w: it does not say whose it is", ErrDamaged)
	}
	if err := s.checkFormat(); err != nil {
		return err
	}
	s.saves, s.tally, err = counts(rows)
	return err
}

// load hands each floor, then each session, then each vote, and what is known of each place to a function.
func (s *store) load(floor func(shard int, floor Floor), session func(savedSession) error, vote func(savedVote) error,
	peer func(place int, p Peer)) error {
	return s.disk.View(func(rows Rows) error {
		if err := loadFloors(rows, floor); err != nil {
			return err
		}
		if err := readAll(rows, sessionBucket, readSession, func(one savedSession) error {
			if one.isFloor {
				return nil
			}
			return session(one)
		}); err != nil {
			return err
		}
		if err := readAll(rows, voteBucket, readVote, vote); err != nil {
			return err
		}
		return each(rows, peerBucket, func(key, value []byte) error {
			var p Peer
			if err := json.Unmarshal(value, &p); err != nil || len(key) != 1 || key[0] >= places {
				return fmt.Errorf("place %x: %w", key, ErrDamaged)
			}
			peer(int(key[0]), p)
			return nil
		})
	})
}

// loadFloors hands each floor to a function.
func loadFloors(rows Rows, floor func(shard int, floor Floor)) error {
	return rows.Each(sessionBucket, func(key, row []byte) error {
		shard, is := shardOfFloor(key)
		if !is {
			return nil
		}
		var one Floor
		text, err := value(sessionBucket, key, row)
		if err == nil && json.Unmarshal(text, &one) != nil {
			err = fmt.Errorf("floor %x: %w", key, ErrDamaged)
		}
		if err == nil {
			floor(shard, one)
		}
		return err
	})
}

// savedSession is the row of a session, by its key among those of all shards. It is old if it would be saved in another form.
type savedSession struct {
	key     int
	row     Session
	isOld   bool
	isFloor bool // it is the floor of a shard, and none of this
}

// readSession reads the row of a session.
func readSession(key, text []byte) (one savedSession, err error) {
	if _, one.isFloor = shardOfFloor(key); one.isFloor {
		return one, nil
	}
	var ok bool
	if one.key, ok = numberOfRow(key); ok {
		one.row, one.isOld, err = rowOfText(text)
	}
	if err != nil || !ok {
		return one, fmt.Errorf("session %x: %w", key, ErrDamaged)
	}
	if _, err := one.row.proved(); err != nil {
		return one, fmt.Errorf("session of number %d: %w", one.key, err)
	}
	return one, nil
}

// savedVote is a vote, packed, without those that waited for it: only the grant and the number of grants are sure to be those of the last step
// (Voter.MustSave). Clients that wait ask again.
type savedVote struct {
	name   string
	packed string
	held   qlock.Grant
}

// readVote reads a vote.
func readVote(key, text []byte) (savedVote, error) {
	one := savedVote{name: string(key)}
	if !isPacked(text) {
		return one, fmt.Errorf("vote %q: %w", key, ErrDamaged)
	}
	voter := spare.Get().(*qlock.Voter)
	defer spare.Put(voter)
	unpackTo(voter.State(), text)
	err := voter.Forget()
	if err == nil {
		one.held, err = voter.Held()
	}
	if err != nil {
		return one, fmt.Errorf("vote %q: %w", key, err)
	}
	one.packed = shortOf(voter, nil)
	return one, nil
}

// rowKey returns under what the row of a session is saved, by its key among those of all shards: one byte in the first shard, three in
// the others.
func rowKey(key int) []byte {
	if key < qlock.MaxClients {
		return []byte{byte(key)}
	}
	shard := key / qlock.MaxClients
	return []byte{byte(shard >> 8), byte(shard), byte(key % qlock.MaxClients)}
}

// numberOfRow returns the key of which rowKey returns this.
func numberOfRow(saved []byte) (key int, ok bool) {
	switch {
	case len(saved) == 1:
		key = int(saved[0])
	case len(saved) == 3 && saved[2] < qlock.MaxClients:
		key = (int(saved[0])<<8|int(saved[1]))*qlock.MaxClients + int(saved[2])
	}
	return key, bytes.Equal(saved, rowKey(key))
}

// changes are what one transaction saves. Plans and own that did not change are nil.
type changes struct {
	votes    map[*vote]struct{}
	gone     map[string]struct{} // locks that are forgotten
	sessions map[int]Session
	floors   map[int]Floor
	dropped  map[int]struct{} // rows for which floors stand
	peers    map[int]Peer
	plans    *Generations
	own      *own
}

// save saves what changed in one transaction, and counts it. When it returns nil all is on the disk. With a new level the
// format changes, too.
func (s *store) save(c changes) error {
	meta := s.meta
	err := s.update(s.saves+1, func(b *batch) error {
		if err := b.putVotes(c.votes); err != nil {
			return err
		}
		for name := range c.gone {
			if err := b.remove(voteBucket, []byte(name)); err != nil {
				return err
			}
		}
		if c.plans != nil {
			if err := b.putPlans(*c.plans); err != nil {
				return err
			}
		}
		if c.own != nil {
			if err := b.putOwn(*c.own); err != nil {
				return err
			}
			if meta.Format = formatOf(c.own.level()); meta.Format != s.meta.Format {
				if err := b.putMeta(meta); err != nil {
					return err
				}
			}
		}
		if err := b.putPeers(c.peers); err != nil {
			return err
		}
		if err := b.putFloors(c.floors, c.dropped); err != nil {
			return err
		}
		return b.putSessions(c.sessions)
	})
	if err == nil && meta.Format != s.meta.Format {
		s.meta.Format = meta.Format // the rest of it is read outside of the loop, too
	}
	return err
}

// update writes rows in one transaction, and with them how often the state was saved.
func (s *store) update(saves uint64, write func(*batch) error) error {
	tally := s.tally
	err := s.disk.Update(func(rows Rows) error {
		b := batch{rows, s.tally, s.room[:0]}
		err := write(&b)
		tally, s.room = b.tally, b.room
		if err != nil {
			return err
		}
		return putCounts(rows, saves, tally)
	})
	if cap(s.room) > mostRoom {
		s.room = nil
	}
	if err == nil {
		s.saves, s.tally = saves, tally
	}
	return err
}

// putOwn saves what a state has of its own starts.
func (b *batch) putOwn(own own) error {
	value, err := json.Marshal(own)
	if err != nil {
		return err
	}
	return b.put(metaBucket, ownKey, value)
}

// putPeers saves what is known of places.
func (b *batch) putPeers(peers map[int]Peer) error {
	for place, p := range peers {
		value, err := json.Marshal(p)
		if err != nil {
			return err
		}
		if err := b.put(peerBucket, []byte{byte(place)}, value); err != nil {
			return err
		}
	}
	return nil
}

func (b *batch) putPlans(plans Generations) error {
	value, err := json.Marshal(plans)
	if err != nil {
		return err
	}
	return b.put(metaBucket, plansKey, value)
}

// putVotes saves votes, in the order of their rows: so those of one page of the file are saved one after the other.
func (b *batch) putVotes(votes map[*vote]struct{}) error {
	inOrder := make([]*vote, 0, len(votes))
	for v := range votes {
		inOrder = append(inOrder, v)
	}
	sort.Slice(inOrder, func(i, j int) bool { return inOrder[i].name < inOrder[j].name })
	var key []byte
	for _, v := range inOrder {
		key = append(key[:0], v.name...)
		if err := b.put(voteBucket, key, v.saved()); err != nil {
			return err
		}
	}
	return nil
}

// putSessions saves rows of sessions, in their order.
func (b *batch) putSessions(sessions map[int]Session) (err error) {
	var text []byte
	for _, number := range sorted(sessions) {
		if text, err = appendRow(text[:0], sessions[number]); err != nil {
			return err
		}
		if err := b.put(sessionBucket, rowKey(number), text); err != nil {
			return err
		}
	}
	return nil
}
