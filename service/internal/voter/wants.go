package voter

import (
	"crypto/sha256"
	"time"

	"calvundek.example/service/internal/wire"
	"calvundek.example/service/qlock"
)

// A number in one round trip.
//
// In front of its hello a session may say `want`. That is a claim whose number and epoch this voter fills in: of the numbers that hello
// shows it as free, the first one at or behind the first byte of the session's hash, mod 64, under the epoch after the row's. Voters that
// know the same choose the same. It is the same claim else, by the same proved call, and the reply leaves after the same save.
//
// While sessions wait that may have the number, too, a want brings none. Numbers come and go then, and for moments not the same ones are free
// at all voters: they would choose different ones, and each would be nobody's until it is given back.
//
// A session has one number by that. Asked again, the voter says that again. What nobody uses goes as with any claim: the session takes it
// back (`drop`), or is silent for a TTL. A session that did not hear what it got says `want 0`: this voter ends that as a session that
// closes, so its epoch is not claimed again. It does so only if a want in a message of no later SEQ brought the number, in this run, and
// nothing came under it: a late word ends nothing that is in use, or was brought since.

// want notes that a session wants a number, and for which lock, or takes back what it wanted.
func (d *Daemon) want(l *letter, ask wire.Ask, now time.Time) {
	if ask.Lock != "" && d.shardOfLock(ask.Lock) == l.shard {
		l.lock = ask.Lock
	}
	if l.wanted = ask.Number; l.wanted > 0 {
		return
	}
	if number := l.shard.numberOf(l.Name); number >= 0 && l.shard.isBrought(number) && l.shard.rare(number).brought <= greatest(l.Seq, 1) {
		l.shard.end(number, l.Name, l.shard.bare(number).Epoch)
		d.tellFree(l.shard, now)
	}
}

// again tells a session that wants a number and has one here which that is, and returns it, else -1.
func (d *Daemon) again(l *letter, now time.Time) int {
	if l.wanted == 0 {
		return -1
	}
	number := l.shard.numberOf(l.Name)
	if number < 0 || !d.gives(l, number, l.shard.bare(number).Epoch, 0, now) {
		return -1
	}
	if brought := l.shard.rare(number).brought; brought > 0 {
		l.shard.brings(number, greatest(brought, l.Seq))
	}
	return number
}

// bring gives a session the number that it wants, by the states that it sees, and returns that, -1 if it gets none.
func (d *Daemon) bring(l *letter, states []int, now time.Time) int {
	if l.wanted == 0 || l.shard.waiting.needs(l.lock, now, d.leases.ttl) {
		return -1
	}
	first := FirstNumber(l.Name)
	for _, state := range []int{1, 2} {
		for i := 0; i < qlock.MaxClients; i++ {
			number := (first + i) % qlock.MaxClients
			if states[number] == state && d.gives(l, number, l.shard.bare(number).Epoch+1, l.wanted, now) {
				l.shard.brings(number, greatest(l.Seq, 1))
				return number
			}
		}
	}
	return -1
}

// FirstNumber returns at which number a voter begins to look for one that a session gets, by what it calls the session.
func FirstNumber(session string) int {
	sum := sha256.Sum256([]byte(hashed(session)))
	return int(sum[0]) % qlock.MaxClients
}

// numberOf returns the number that a session has here and that nobody else may claim, -1 if it has none.
func (t *table) numberOf(name string) int {
	first, session := -1, sessionOf(hashed(name))
	t.seats.each(func(number int, seat *seat) {
		if first < 0 && seat.marks.has(isOpen) && t.owner(number) == session && !t.isDead(number) {
			first = number
		}
	})
	return first
}

// brings notes in which message a want brought a number to its session, 0 once something of that came under it.
func (t *table) brings(number int, seq uint64) {
	rare := t.rare(number)
	rare.brought = seq
	t.keep(number, rare)
}

// isBrought returns whether a want brought a number to its session, which did not use it yet.
func (t *table) isBrought(number int) bool { return t.rare(number).brought > 0 }
