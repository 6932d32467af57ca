package simulation

import (
	"strings"
	"time"

	"calvundek.example/service/transport"
)

// noise says what the broker does to messages, in millionths of them.
type noise struct {
	lost, twice, late int
	usual, latest     time.Duration // how long a message takes at most, and one that is late
}

// calm is what the broker does when there are no faults.
var calm = noise{usual: 2 * time.Millisecond}

// broker carries messages, by mailboxes.
type broker struct {
	world   *world
	boxes   map[string][]*box // by the mailbox, with "*" as its last word
	thawsAt instant           // until then it stands still
}

// box takes what comes to a mailbox. Who is cut off or has ended takes nothing.
type box struct {
	takes func(m transport.Message) // called when a message arrives
}

// listen lets a box take what comes to mailboxes.
func (b *broker) listen(mailbox string, to *box) { b.boxes[mailbox] = append(b.boxes[mailbox], to) }

// leave ends that.
func (b *broker) leave(mailbox string, to *box) {
	boxes := b.boxes[mailbox]
	for i, one := range boxes {
		if one == to {
			b.boxes[mailbox] = append(boxes[:i:i], boxes[i+1:]...)
			break
		}
	}
	if len(b.boxes[mailbox]) == 0 {
		delete(b.boxes, mailbox)
	}
}

// send sends a message at a time that is not before now.
func (b *broker) send(at instant, mailbox string, data []byte) {
	w := b.world
	w.Messages++
	if w.chance(w.noise.lost) {
		w.note(1)
		return
	}
	copies := 1
	if w.chance(w.noise.twice) {
		copies = 2
	}
	for ; copies > 0; copies-- {
		way := 20*time.Microsecond + w.upTo(w.noise.usual)
		if w.chance(w.noise.late) {
			way += w.upTo(w.noise.latest)
		}
		sent := w.now
		w.at(after(at, way), func() {
			if w.healed == 0 || sent >= w.healed { // what was late when the faults stopped is lost
				b.arrive(mailbox, data)
			}
		})
	}
}

// arrive lets a message come to whoever listens.
func (b *broker) arrive(mailbox string, data []byte) {
	if b.world.now < b.thawsAt {
		b.world.at(after(b.thawsAt, b.world.upTo(5*time.Millisecond)), func() { b.arrive(mailbox, data) })
		return
	}
	b.world.noteText(data)
	if b.world.ShowMessages {
		b.world.log("%s: %q", mailbox, data)
	}
	any := mailbox[:strings.LastIndexByte(mailbox, '.')+1] + "*"
	for _, one := range b.boxes[any] {
		one.takes(transport.Message{Mailbox: mailbox, Data: data})
	}
}
