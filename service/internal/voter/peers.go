package voter

import (
	"encoding/hex"
	"encoding/json"
	"errors"
	"fmt"
	"strconv"
	"strings"
	"time"

	"calvundek.example/service/internal/event"
	"calvundek.example/service/internal/wire"
	"calvundek.example/service/qlock"
)

// How voters remember each other.
//
// Each voter keeps, for each place, who the voter there is, how often it was made again, how often
// it started, and its ceiling: no grant of it has a greater number. A voter that starts asks all
// others, before its first vote. They refuse another voter in its place, an older copy of its state
// from before a start that they know, and a second process with a copy. What an older copy of its
// last run may have forgotten is skipped: its grants begin above its ceiling.
//
//  1. It counts its start, saves, and says so to all others. Each compares, saves, and answers what
//     it knew.
//  2. Once all answered, or after a while so many that with it they contain a quorum, it raises
//     its ceiling, and asks them to keep it. If they with it contain a quorum, it takes lines. The
//     rest are told until they answer.
//  3. Unless it is new, so that nobody knows of a ceiling, or somebody knows that it ended cleanly
//     with just these saves, it is quiet for a TTL. A vote stays quiet while one waits for it who said then that he is inside.
//  4. Before half of what is left below the ceiling is used, it asks for the next one.
//
// A new voter, which never served, needs more answers: the silent ones and it may contain no quorum. One that was made again after it lost
// its state needs those of a quorum, or of all others.
// One that is refused notes so in its file, and never starts with it again. One that hears that a
// later process of this voter was accepted ends. start.go has what a voter does for itself.
//
// What is kept and who is refused, and when a voter asks, serves and raises its ceiling, are calls of the proved library
// (qlock.Peer, qlock.Start). That no two processes of a voter give the same grant is a law of the crate starts, of voters that
// lose no state: if some other voter keeps the ceilings of both, and said to both which ceiling it knew before they served. In Go are the
// words, whom they are from, the time, the plans' quorums, and the quiet time.

// The errors of a start.
var (
	ErrPlace = errors.New("another voter has this place: one whose state was lost needs `qlock-voter init --lost`")
	ErrOlder = errors.New("the state is an older copy, or another process has a copy of it: " +
		"put the newest one back, or make the voter again by `qlock-voter init --lost`")
	ErrBefore = errors.New("the cluster's file is of before an exchange of plans, " +
		"and a voter whose state was lost may have retired the old plan: put the newest file in its place")
)

const (
	places       = qlock.MaxVoters
	askAgain     = 100 * time.Millisecond // how often a voter that waits asks those that did not answer
	tellAgain    = time.Second            // how often one that serves does
	firstCeiling = uint64(1) << 16        // how many grants a voter may give above what is known, at first
	stillQuiet   = 250 * time.Millisecond // for which others are asked while one who said that he is inside waits for a vote
)

// Peer is what a voter keeps of the voter of a place, for good.
type Peer struct {
	Identity string `json:"identity"`
	Run      uint64 `json:"run"`     // how often it was made again, after its state was lost
	Start    uint64 `json:"start"`   // how often its process started
	Process  string `json:"process"` // a word of the process that started last
	Ceiling  uint64 `json:"ceiling"` // no grant of it has a greater number
	Ended    uint64 `json:"ended"`   // how often its state was saved when it ended, 0 unless it said so
}

// errPeer is the error of a peer with words that no voter makes up.
var errPeer = errors.New("an identity has 32 hexadecimal digits, and a process 16")

// hexadecimal returns the bytes of a word with so many digits, or errPeer.
func hexadecimal(word string, digits int) ([]byte, error) {
	bytes, err := hex.DecodeString(word)
	if err != nil || len(word) != digits || word != strings.ToLower(word) {
		return nil, errPeer
	}
	return bytes, nil
}

// identityOf returns an identity as the proved calls have it, or errPeer. That of nobody is "" here, and zero there.
func identityOf(word string) (i qlock.Identity, err error) {
	bytes, err := hexadecimal(word, 2*len(i))
	if copy(i[:], bytes); err == nil && i == (qlock.Identity{}) {
		return i, errPeer
	}
	return i, err
}

// proved returns the peer as the proved calls have it, or errPeer.
func (p Peer) proved() (q qlock.Peer, err error) {
	q = qlock.Peer{Run: p.Run, Start: p.Start, Ceiling: p.Ceiling, Ended: p.Ended}
	if p.Ceiling > qlock.MaxStamp {
		return q, errPeer // no grant has a greater number
	}
	if p.Identity == "" && p.Process == "" {
		return q, nil
	}
	if q.Identity, err = identityOf(p.Identity); err != nil {
		return q, err
	}
	if _, err = hexadecimal(p.Process, 16); err == nil {
		q.Process, err = strconv.ParseUint(p.Process, 16, 64)
	}
	return q, err
}

// peerOf returns a peer of the proved calls.
func peerOf(q qlock.Peer) Peer {
	p := Peer{Run: q.Run, Start: q.Start, Ceiling: q.Ceiling, Ended: q.Ended}
	if q.Identity != (qlock.Identity{}) {
		p.Identity, p.Process = hex.EncodeToString(q.Identity[:]), fmt.Sprintf("%016x", q.Process)
	}
	return p
}

// UnmarshalJSON reads a peer that was saved, or that another voter tells. It returns errPeer if its words are none.
func (p *Peer) UnmarshalJSON(text []byte) error {
	type plain Peer
	if err := json.Unmarshal(text, (*plain)(p)); err != nil {
		return err
	}
	_, err := p.proved()
	return err
}

// meets judges a voter that says that it started, by what is known of its place. It returns what is
// to be kept from now on, or ErrPlace, ErrOlder, or errPeer.
func (p Peer) meets(now Peer) (Peer, error) {
	known, err := p.proved()
	if err != nil {
		return p, err
	}
	it, err := now.proved()
	if err != nil {
		return p, err
	}
	switch next, err := known.Meets(it); {
	case errors.Is(err, qlock.Place):
		return p, ErrPlace
	case err != nil:
		return p, ErrOlder
	default:
		return peerOf(next), nil
	}
}

// endedWith returns what is to be kept if the voter of this identity says in this start that it ended with so many saves.
func (p Peer) endedWith(identity string, start, saves uint64) Peer {
	known, err := p.proved()
	who, wrong := identityOf(identity)
	if err != nil || wrong != nil {
		return p
	}
	return peerOf(known.EndedWith(who, start, saves))
}

// isClean returns whether the last run of the voter of this identity is known to have ended with so many saves.
func (p Peer) isClean(identity string, saves uint64) bool {
	known, err := p.proved()
	who, wrong := identityOf(identity)
	return err == nil && wrong == nil && known.IsClean(who, saves)
}

// meet judges another voter that starts, or asks for a ceiling, and answers. A voter that lost its state replies to no start before it
// serves: it can't say what the other one forgot.
func (d *Daemon) meet(h wire.Header, w word) {
	if w.Word == "start" && d.isLost() {
		return
	}
	known := d.peers[h.Number]
	if !d.join.done && known.Identity != h.Name {
		known = d.loaded[h.Number] // what it heard since may be of another cluster with the same name
	}
	next, err := known.meets(Peer{Identity: h.Name, Run: h.Run, Start: h.Start, Process: w.Process, Ceiling: w.Ceiling})
	if errors.Is(err, errPeer) {
		d.m.foreign.Inc()
		return
	}
	reply := word{Word: "kept", Process: w.Process, Start: h.Start, Ceiling: w.Ceiling, Known: &known}
	if w.Word == "start" {
		shown, all := known, d.knows(w.From, w.Sums)
		if err == nil {
			shown = d.shown(h, w, known)
		}
		heard, missed := d.whoSpoke(d.now())
		reply = word{Word: "known", Process: w.Process, Start: h.Start, Known: &shown, Knows: &all,
			Heard: heard, Missed: missed}
	}
	if err != nil {
		reply.Why = fmt.Sprintf("start=%d run=%d identity=%.8s is known", known.Start, known.Run, known.Identity)
		d.log.Write(event.Warning, "refused-voter", "voter", h.Number, "identity", h.Name, "run", h.Run, "start", h.Start, "why", err)
	} else if next.Ceiling = greatest(next.Ceiling, d.peers[h.Number].Ceiling); next != d.peers[h.Number] {
		d.putPeer(h.Number, next)
	}
	d.write(h.Number, reply)
}

// toldOf is what a voter said of another one that started.
type toldOf struct {
	start   uint64
	process string
	known   Peer
}

// shown returns what was known of a voter when this process of it said for the first time that it started: the reply to
// that may have been lost.
func (d *Daemon) shown(h wire.Header, w word, known Peer) Peer {
	if was := d.told[h.Number]; was.start == h.Start && was.process == w.Process {
		return was.known
	}
	d.told[h.Number] = toldOf{h.Start, w.Process, known}
	return known
}

// putPeer keeps what is known of a place. It is saved before anything leaves.
func (d *Daemon) putPeer(place int, p Peer) {
	d.peers[place] = p
	d.newPeers[place] = p
}

// Knows is what a voter keeps of all places, and of sessions, by their keys: 64 times the shard, and the number there. One message may have
// no room for all of them.
type Knows struct {
	Peers    map[int]Peer    `json:"peers"`
	Sessions map[int]Session `json:"sessions"`
	Floors   map[int]Floor   `json:"floors,omitempty"` // of the shards that were dropped
	Level    uint64          `json:"level"`
	Oldest   uint64          `json:"oldest,omitempty"` // the number of the oldest plan that is not retired
	From     int             `json:"from,omitempty"`   // sessions from this key on
	Next     int             `json:"next,omitempty"`   // the key from which others are to be asked for, 0 if there is none
}

// mostRows is how many sessions one message tells at most, or as many floors as count for these.
const mostRows = 800

// isFull returns whether a message that tells this has no room for more.
func (k *Knows) isFull() bool { return len(k.Sessions)+rowsOfFloor*len(k.Floors) >= mostRows }

// hasRoom returns whether this has room for what has a key. What has none is to be asked for, from the first such key on.
func (k *Knows) hasRoom(key int) bool {
	if k.isFull() && k.Next == 0 {
		k.Next = key
	}
	return k.Next == 0
}

// knows returns what this voter keeps, with sessions from a key on, and what it is itself. It leaves the shards out of which these sums are. Of
// shards behind those it tells nothing then: their sums come with the next question.
func (d *Daemon) knows(from int, sums []byte) Knows {
	peers := map[int]Peer{}
	for place, p := range d.peers {
		if p.Identity != "" {
			peers[place] = p
		}
	}
	self := d.self()
	self.Ceiling = d.store.own.Ceiling
	peers[d.store.meta.Voter] = self
	known := Knows{Peers: peers, Sessions: map[int]Session{}, Floors: map[int]Floor{}, Level: d.store.own.level(),
		Oldest: d.plans.oldest(), From: from}
	if from < 0 {
		from = 0
	}
	end := d.cluster.Numbers()
	if summed := (from/qlock.MaxClients + len(sums)/sumOfShard) * qlock.MaxClients; summed > from && summed < end {
		end = summed
	}
	d.tellShards(&known, from, end, sums)
	if known.Next == 0 && end < d.cluster.Numbers() {
		known.Next = end
	}
	return known
}

// tellShard tells the numbers of a shard that a session ever had, from a key on. Of a shard that was dropped it tells the floor.
func (d *Daemon) tellShard(known *Knows, from int) {
	shard := from / qlock.MaxClients
	s := d.shards[shard]
	if floor, is := d.floors[shard]; s == nil && is && known.hasRoom(from) { // the rows before were told when it was there
		known.Floors[shard] = floor
	}
	for number := from % qlock.MaxClients; s != nil && number < qlock.MaxClients; number++ {
		if row := s.row(number); row.Epoch > 0 && known.hasRoom(s.key(number)) {
			known.Sessions[s.key(number)] = row
		}
	}
}

// laterPeer returns of two that were in a place the later one, with the higher ceiling of both.
func laterPeer(a, b Peer) Peer {
	one, err := a.proved()
	other, wrong := b.proved()
	if err != nil || wrong != nil {
		return a // never: what is saved, and what is told, is read only if it can be
	}
	return peerOf(one.Later(other))
}

// newProcess returns a word for a process.
func (d *Daemon) newProcess() (string, error) {
	text, err := d.around.nonce()
	if err != nil {
		return "", err
	}
	return text[:16], nil
}
