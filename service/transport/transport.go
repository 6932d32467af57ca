// Package transport carries messages between voters and clients. NATS is one transport; another one has two methods.
package transport

import (
	"strings"
	"time"
)

// Message is what came to a mailbox.
type Message struct {
	Mailbox string
	Data    []byte
}

// Sender returns the last word of the mailbox: a broker with users lets nobody else send to it.
func (m Message) Sender() string { return m.Mailbox[strings.LastIndexByte(m.Mailbox, '.')+1:] }

// Transport carries messages to mailboxes. It may lose, repeat, delay and reorder them, and may not make any up or change
// one. Several goroutines may call it at once.
type Transport interface {
	// Send sends a message to a mailbox. It does not wait until it arrives. What it can't send is lost: a reminder
	// repeats it.
	Send(mailbox string, message []byte) error
	// Listen returns the messages that come to a mailbox from now on, or to all of which only the
	// last word differs, if that is "*". Those that find no room are lost. Room is bounded in bytes.
	Listen(mailbox string) (<-chan Message, error)
}

// Passer is what a transport may have besides: it takes by itself what comes to many mailboxes, with no goroutine and no room for each.
type Passer interface {
	Pass(mailbox string, to func(Message)) error
}

// Pass hands each message that comes to a mailbox from now on to a function, one after the other, until the function that it returns is
// called. Other mailboxes may wait meanwhile, so it may wait for nothing.
func Pass(t Transport, mailbox string, to func(Message)) (leave func(), err error) {
	if passer, ok := t.(Passer); ok {
		return func() { Leave(t, mailbox) }, passer.Pass(mailbox, to)
	}
	messages, err := t.Listen(mailbox)
	if err != nil {
		return nil, err
	}
	left := make(chan struct{})
	go func() {
		for {
			select {
			case m := <-messages:
				to(m)
			case <-left:
				return
			}
		}
	}()
	return func() { close(left); Leave(t, mailbox) }, nil
}

// Leaver is what a transport may have besides: it forgets a mailbox that nobody reads any more.
type Leaver interface {
	Leave(mailbox string)
}

// Leave ends a mailbox, if the transport knows how.
func Leave(t Transport, mailbox string) {
	if leaver, ok := t.(Leaver); ok {
		leaver.Leave(mailbox)
	}
}

// Mover is what a transport may have besides: it leaves a server that reaches nobody who is needed, for the next one, unless the connection
// to it is younger than this age.
type Mover interface {
	Move(age time.Duration)
}

// Move leaves a server that reaches nobody, if the transport knows how.
func Move(t Transport, age time.Duration) {
	if mover, ok := t.(Mover); ok {
		mover.Move(age)
	}
}

// Link is what a transport may have besides: whether it is connected. A voter shows it, and logs that it was away or is
// back. No lease depends on that: while the connection is away no marker comes back, so none ends.
type Link interface {
	// Connected returns whether messages can leave now.
	Connected() bool
	// Returns returns how often the connection came back.
	Returns() uint64
	// Waiting returns how many messages wait in all mailboxes, and Dropped how many were lost, as
	// they found no room.
	Waiting() int
	Dropped() uint64
}
