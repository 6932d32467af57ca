package qlock

// #include "qlock.h"
import "C"

import "encoding/binary"

// Identity is the identity of a voter's state, which it makes up. That of nobody is zero.
type Identity [16]byte

// halves returns the identity as two numbers.
func (i Identity) halves() (upper, lower C.uint64_t) {
	return C.uint64_t(binary.BigEndian.Uint64(i[:8])), C.uint64_t(binary.BigEndian.Uint64(i[8:]))
}

// Peer is what a voter keeps of the voter of a place.
type Peer struct {
	Identity Identity
	Run      uint64 // how often it was made again, after its state was lost
	Start    uint64 // how often its process started
	Process  uint64 // a word of the process that started last, which that made up
	Ceiling  uint64 // no grant of it has a greater number
	Ended    uint64 // how often its state was saved when it ended, 0 unless it said so
}

// state returns the bytes of the peer.
func (p Peer) state() (state [PeerBytes]byte) {
	upper, lower := p.Identity.halves()
	for i, word := range []uint64{uint64(upper), uint64(lower), p.Run, p.Start, p.Process, p.Ceiling, p.Ended} {
		binary.LittleEndian.PutUint64(state[8*i:], word)
	}
	return state
}

// peerOf returns the peer with these bytes.
func peerOf(state [PeerBytes]byte) (p Peer) {
	word := func(i int) uint64 { return binary.LittleEndian.Uint64(state[8*i:]) }
	binary.BigEndian.PutUint64(p.Identity[:8], word(0))
	binary.BigEndian.PutUint64(p.Identity[8:], word(1))
	p.Run, p.Start, p.Process, p.Ceiling, p.Ended = word(2), word(3), word(4), word(5), word(6)
	return p
}

// Meets returns what is to be kept from now on if this is known of a place where another process started. It returns Place if
// another voter is known, unless this one was made again more often, and Older if of this voter another process is known that
// started as often, or more often.
func (p Peer) Meets(now Peer) (Peer, error) {
	state, other := p.state(), now.state()
	if err := refusal(C.qlock_peer_meet(at(state[:]), PeerBytes, at(other[:]), PeerBytes)); err != nil {
		return p, err
	}
	return peerOf(state), nil
}

// Later returns of two that were in a place the later one, with the greater ceiling of both.
func (p Peer) Later(other Peer) Peer {
	state, second := p.state(), other.state()
	mustBeDone(C.qlock_peer_learn(at(state[:]), PeerBytes, at(second[:]), PeerBytes))
	return peerOf(state)
}

// EndedWith returns what is to be kept if the voter with this identity says in this start that it ended when its state was
// saved so often. Nothing changes unless it is the one that is known.
func (p Peer) EndedWith(identity Identity, start, saves uint64) Peer {
	state := p.state()
	upper, lower := identity.halves()
	mustBeDone(C.qlock_peer_end(at(state[:]), PeerBytes, upper, lower, C.uint64_t(start), C.uint64_t(saves)))
	return peerOf(state)
}

// IsClean returns whether the last run of the voter with this identity is known to have ended when its state had been saved so often.
func (p Peer) IsClean(identity Identity, saves uint64) bool {
	var yes C.uint32_t
	state := p.state()
	upper, lower := identity.halves()
	mustBeDone(C.qlock_peer_is_clean(at(state[:]), PeerBytes, upper, lower, C.uint64_t(saves), &yes))
	return yes != 0
}

// Start is what a process of a voter knows of the other voters since it started, and up to which number it may give grants. The
// caller sends and receives, knows the time, and says by the plans which voters contain a quorum. No call but Hears and IsKeptBy can be
// refused, as only these calls write its bytes.
type Start struct{ state [StartBytes]byte }

// StartShown is what a start has. A set of voters has voter v if bit v is 1.
type StartShown struct {
	Answered uint64 // the voters that said what they knew
	Counted  uint64 // those whose ceiling it knew before it served
	Known    uint64 // the highest ceiling that one of them knew
	Floor    uint64 // its grants are above this number
	Asked    uint64 // the ceiling that it asked for last, 0 for none
	Kept     uint64 // the voters that keep that one
	Ceiling  uint64 // it gives no grant above this number; before it serves, that of its state
	Block    uint64 // by how much the ceiling was raised last
	Serves   bool
	IsClean  bool // the last run is known to have ended cleanly
}

// IsWaiting returns whether it asked for a ceiling up to which it may not give grants yet.
func (s StartShown) IsWaiting() bool { return s.Ceiling < s.Asked }

// Answers is what the caller sees of the voters of the plans in use.
type Answers struct {
	Others           uint64 // all others
	HaveSilentQuorum bool   // those that did not answer, and this one, contain a quorum of some plan
	HaveQuorums      bool   // those that answered, and this one, contain a quorum of each plan
	IsPatient        bool   // it waited for long enough for the others
}

// Turn is what comes of the voters that keep a ceiling.
type Turn uint32

// The turns.
const (
	Waits         Turn = C.QLOCK_WAITS          // nothing
	AsksAgain     Turn = C.QLOCK_ASKS_AGAIN     // one of them knew of a higher ceiling, so it asks for another one
	Serves        Turn = C.QLOCK_SERVES         // it serves from now on
	ServesQuietly Turn = C.QLOCK_SERVES_QUIETLY // it serves from now on, and has to be quiet at first
	Raises        Turn = C.QLOCK_RAISES         // it serves already, and the ceiling is raised
)

// NewStart makes the start of a process, from a state that asked for this ceiling last, 0 if for none. It asks for so many grants at
// first, at least for one.
func NewStart(ceiling, first uint64) *Start {
	s := new(Start)
	mustBeDone(C.qlock_start_new(C.uint64_t(ceiling), C.uint64_t(first), at(s.state[:]), StartBytes))
	return s
}

// Hears notes which ceiling a voter says that it knew, and whether it knows that the last run ended with the saves that there are.
func (s *Start) Hears(voter int, ceiling uint64, isClean bool) error {
	if voter < 0 || voter >= MaxVoters {
		return BadArgument
	}
	return refusal(C.qlock_start_hear(at(s.state[:]), StartBytes, C.uint8_t(voter), C.uint64_t(ceiling), truth(isClean)))
}

// Begins asks for the first ceiling, if so many answered that it may.
func (s *Start) Begins(a Answers) {
	mustBeDone(C.qlock_start_begin(at(s.state[:]), StartBytes, C.uint64_t(a.Others), truth(a.HaveSilentQuorum), truth(a.HaveQuorums),
		truth(a.IsPatient)))
}

// IsKeptBy notes that a voter keeps this ceiling. If it did not know of this process before it says which ceiling it knew.
func (s *Start) IsKeptBy(voter int, ceiling uint64, says bool, known uint64) error {
	if voter < 0 || voter >= MaxVoters {
		return BadArgument
	}
	return refusal(C.qlock_start_keep(at(s.state[:]), StartBytes, C.uint8_t(voter), C.uint64_t(ceiling), truth(says), C.uint64_t(known)))
}

// Turns raises the ceiling if the voters that keep it, and this one, contain a quorum of each plan in use. It returns what comes of it.
func (s *Start) Turns(haveQuorums bool) Turn {
	var turn C.uint32_t
	mustBeDone(C.qlock_start_turn(at(s.state[:]), StartBytes, truth(haveQuorums), &turn))
	return Turn(turn)
}

// Needs asks for the next ceiling if half of the last block is used, once the grant of this number was given.
func (s *Start) Needs(number uint64) {
	mustBeDone(C.qlock_start_need(at(s.state[:]), StartBytes, C.uint64_t(number)))
}

// Renews forgets who keeps the ceiling: the plans changed, and all voters are to keep it again.
func (s *Start) Renews() { mustBeDone(C.qlock_start_renew(at(s.state[:]), StartBytes)) }

// Shows returns what the start has.
func (s *Start) Shows() StartShown {
	word := func(i int) uint64 { return binary.LittleEndian.Uint64(s.state[8*i:]) }
	return StartShown{Answered: word(0), Counted: word(1), Known: word(2), Floor: word(3), Asked: word(4), Kept: word(5), Ceiling: word(6),
		Block: word(8), Serves: word(9)&1 > 0, IsClean: word(9)&2 > 0}
}
