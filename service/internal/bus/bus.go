// Package bus is a transport within one process, which loses, repeats and delays messages. Tests use it.
package bus

import (
	"bytes"
	"math/rand"
	"strings"
	"sync"
	"time"

	"calvundek.example/service/transport"
)

// Bus connects ports.
type Bus struct {
	Latest time.Duration

	mutex             sync.Mutex
	lost, twice, late int // of 100 messages
	losing            string
	unknown           []string
	sees              func(mailbox string, message []byte)
	boxes             map[string]chan transport.Message
	also              map[string][]chan transport.Message // of ports that listen beside another one
	random            *rand.Rand
	dropped           uint64
}

// New returns a bus that loses nothing.
func New(seed int64) *Bus {
	return &Bus{boxes: map[string]chan transport.Message{}, also: map[string][]chan transport.Message{}, random: rand.New(rand.NewSource(seed)), Latest: 50 * time.Millisecond}
}

// Noise lets so many of 100 messages be lost, repeated, and delayed from now on.
func (b *Bus) Noise(lost, twice, late int) {
	b.mutex.Lock()
	defer b.mutex.Unlock()
	b.lost, b.twice, b.late = lost, twice, late
}

// Lose loses all messages that have a text from now on, none for "".
func (b *Bus) Lose(text string) {
	b.mutex.Lock()
	defer b.mutex.Unlock()
	b.losing = text
}

// Without takes the lines of control with these words out of all messages from now on: so nobody hears them, as programs do not that do not
// know them.
func (b *Bus) Without(words ...string) {
	b.mutex.Lock()
	defer b.mutex.Unlock()
	b.unknown = words
}

// Watch calls a function with each message that is sent from now on, also if it is lost.
func (b *Bus) Watch(sees func(mailbox string, message []byte)) {
	b.mutex.Lock()
	defer b.mutex.Unlock()
	b.sees = sees
}

// known returns a copy of a message without the lines that nobody knows.
func (b *Bus) known(message []byte) (known []byte) {
	if len(b.unknown) == 0 {
		return append([]byte(nil), message...)
	}
	for _, line := range bytes.SplitAfter(message, []byte("\n")) {
		isKnown := true
		for _, word := range b.unknown {
			isKnown = isKnown && !bytes.HasPrefix(line, []byte(". "+word+" ")) && string(line) != ". "+word+"\n"
		}
		if isKnown {
			known = append(known, line...)
		}
	}
	return known
}

// Port is the end of a bus that one process has. It is a transport.Transport and a transport.Link.
type Port struct {
	bus     *Bus
	cut     bool
	returns uint64
	mine    []string
	beside  bool
}

// Port returns a new port.
func (b *Bus) Port() *Port { return &Port{bus: b} }

// PortBeside returns a new port whose mailboxes nobody else loses.
func (b *Bus) PortBeside() *Port { return &Port{bus: b, beside: true} }

// Cut cuts a port off, so that nothing comes or leaves, or connects it again.
func (p *Port) Cut(cut bool) {
	p.bus.mutex.Lock()
	defer p.bus.mutex.Unlock()
	if p.cut && !cut {
		p.returns++
	}
	p.cut = cut
	for _, mailbox := range p.mine {
		if cut {
			p.bus.boxes[mailbox+" cut"] = p.bus.boxes[mailbox]
			delete(p.bus.boxes, mailbox)
		} else {
			p.bus.boxes[mailbox] = p.bus.boxes[mailbox+" cut"]
		}
	}
}

// Listen returns what comes to mailboxes. Whoever listened before hears nothing any more.
func (p *Port) Listen(mailbox string) (<-chan transport.Message, error) {
	p.bus.mutex.Lock()
	defer p.bus.mutex.Unlock()
	box := make(chan transport.Message, 1<<14)
	if p.beside {
		p.bus.also[mailbox] = append(p.bus.also[mailbox], box)
		return box, nil
	}
	p.bus.boxes[mailbox] = box
	p.mine = append(p.mine, mailbox)
	return box, nil
}

// Leave ends a mailbox.
func (p *Port) Leave(mailbox string) {
	p.bus.mutex.Lock()
	defer p.bus.mutex.Unlock()
	delete(p.bus.boxes, mailbox)
	for i, mine := range p.mine {
		if mine == mailbox {
			p.mine = append(p.mine[:i], p.mine[i+1:]...)
			return
		}
	}
}

// Boxes returns how many mailboxes there are.
func (b *Bus) Boxes() int {
	b.mutex.Lock()
	defer b.mutex.Unlock()
	return len(b.boxes)
}

// Send sends a message.
func (p *Port) Send(mailbox string, message []byte) error {
	p.bus.mutex.Lock()
	defer p.bus.mutex.Unlock()
	if p.bus.sees != nil {
		p.bus.sees(mailbox, message)
	}
	if p.cut || p.bus.losing != "" && bytes.Contains(message, []byte(p.bus.losing)) || p.bus.occurs(p.bus.lost) {
		return nil
	}
	message = p.bus.known(message)
	if p.bus.occurs(p.bus.twice) {
		p.bus.later(mailbox, message)
	}
	if p.bus.occurs(p.bus.late) {
		p.bus.later(mailbox, message)
	} else {
		p.bus.post(mailbox, message)
	}
	return nil
}

// Connected returns whether the port is not cut off.
func (p *Port) Connected() bool {
	p.bus.mutex.Lock()
	defer p.bus.mutex.Unlock()
	return !p.cut
}

// Returns returns how often the port was connected again.
func (p *Port) Returns() uint64 {
	p.bus.mutex.Lock()
	defer p.bus.mutex.Unlock()
	return p.returns
}

// Waiting returns how many messages wait in the port's mailboxes.
func (p *Port) Waiting() (count int) {
	p.bus.mutex.Lock()
	defer p.bus.mutex.Unlock()
	for _, mailbox := range p.mine {
		count += len(p.bus.boxes[mailbox])
	}
	return count
}

// Dropped returns how many messages found no room on the bus.
func (p *Port) Dropped() uint64 {
	p.bus.mutex.Lock()
	defer p.bus.mutex.Unlock()
	return p.bus.dropped
}

func (b *Bus) occurs(percent int) bool { return b.random.Intn(100) < percent }

// post puts a message into a mailbox. It is lost if nobody listens, or there is no room.
func (b *Bus) post(mailbox string, message []byte) {
	box, any := b.boxes[mailbox], mailbox[:strings.LastIndexByte(mailbox, '.')+1]+"*"
	if box == nil {
		box = b.boxes[any]
	}
	for _, one := range append(append([]chan transport.Message{box}, b.also[mailbox]...), b.also[any]...) {
		select {
		case one <- transport.Message{Mailbox: mailbox, Data: message}:
		default:
			b.dropped++
		}
	}
}

func (b *Bus) later(mailbox string, message []byte) {
	time.AfterFunc(time.Duration(b.random.Int63n(int64(b.Latest))), func() {
		b.mutex.Lock()
		defer b.mutex.Unlock()
		b.post(mailbox, message)
	})
}
