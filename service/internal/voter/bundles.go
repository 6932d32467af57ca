package voter

import (
	"math/bits"

	"calvundek.example/service/internal/wire"
)

// What a voter says to sessions of one process in one turn leaves in one message, a bundle, if these said of which process they are. A
// process is of the user of its session: so a user leads what is said to its own sessions to a mailbox of its own, and nothing else.

// processOf returns the name of a session's process, "" if it has no number here, or did not say it.
func (d *Daemon) processOf(session string) (name string) {
	s := d.shardOfSession(session)
	if s == nil {
		return ""
	}
	for numbers := s.numbersOf(s.called(session)); numbers != 0 && name == ""; numbers &= numbers - 1 {
		name = s.saidProcess(bits.TrailingZeros64(numbers))
	}
	return name
}

// bundle is what leaves to a process in a turn.
type bundle struct {
	box     string // of the process
	session string // the mailbox of the session that the first message is to
	first   []byte // that message, as it leaves if it is alone
	wire.Bundle
}

// bundle puts a message to a session with those that leave to its process.
func (d *Daemon) bundle(box, sessionBox, session string, message []byte) {
	i, found := d.ofBox[box]
	if !found {
		if d.ofBox == nil {
			d.ofBox = map[string]int{}
		}
		i = len(d.bundles)
		d.ofBox[box], d.bundles = i, append(d.bundles, bundle{box: box})
	}
	b, addressed := &d.bundles[i], wire.AddressTo(session, message)
	if !b.HasRoom(addressed) {
		d.deliverBundle(b)
	}
	if b.Count() == 0 {
		b.session, b.first = sessionBox, message
	}
	b.Add(addressed)
}

// deliverBundles sends what is to leave to processes.
func (d *Daemon) deliverBundles() {
	for i := range d.bundles {
		delete(d.ofBox, d.bundles[i].box)
		d.deliverBundle(&d.bundles[i])
		d.bundles[i] = bundle{}
	}
	d.bundles = d.bundles[:0]
}

// deliverBundle sends a bundle. One message alone goes to its session.
func (d *Daemon) deliverBundle(b *bundle) {
	if messages := b.Count(); messages == 1 {
		d.post(b.session, b.first)
		b.Take()
	} else {
		d.post(b.box, b.Take())
	}
}
