package transport

// What is to be done with the connection waits in an outbox, and one goroutine does it. The library looks names up, dials and shakes hands
// with its mutex held, for seconds where servers swallow packets, and whoever sends, listens or asks for its state wants that mutex. So
// nobody else calls it, and no call of this package waits for a server.
//
// A message leaves a moment later than it was made, then. A heartbeat and a marker count from when they were made, so no lease lasts longer
// by that.

import (
	"errors"
	"sync"
	"time"

	"github.com/nats-io/nats.go"
)

// The room of an outbox, in messages and their bytes, and how old a message is at most when it leaves. A reminder made another one of an
// older one.
const (
	Outgoing      = 1 << 12
	OutgoingBytes = 8 << 20
	mostLate      = time.Second
)

// aMoment is how long somebody waits who asks the library for its state.
const aMoment = 10 * time.Millisecond

// ErrNoRoom is returned for a message that finds no room among those that wait for the connection.
var ErrNoRoom = errors.New("nats: too many messages wait for the connection")

// outbox is what waits for the connection, in its order.
type outbox struct {
	mutex  sync.Mutex
	waits  []errand
	count  int // of the messages that did not leave, and bytes are theirs
	bytes  int
	unsent uint64        // the messages that were lost here, though they found room
	grown  chan struct{} // says that something waits
}

// errand is a message that leaves, or something else that is done with the connection.
type errand struct {
	box     string
	message []byte
	made    time.Time
	does    func(*nats.Conn) // nil for a message
}

func newOutbox() outbox { return outbox{grown: make(chan struct{}, 1)} }

// posts lets a message leave. It keeps a copy.
func (o *outbox) posts(box string, message []byte) error {
	o.mutex.Lock()
	defer o.mutex.Unlock()
	if o.count == Outgoing || o.count > 0 && o.bytes+len(message) > OutgoingBytes {
		return ErrNoRoom
	}
	o.count++
	o.bytes += len(message)
	o.add(errand{box: box, message: append([]byte(nil), message...), made: time.Now()})
	return nil
}

// does lets something else be done with the connection.
func (o *outbox) does(f func(*nats.Conn)) {
	o.mutex.Lock()
	defer o.mutex.Unlock()
	o.add(errand{does: f})
}

func (o *outbox) add(one errand) {
	o.waits = append(o.waits, one)
	select {
	case o.grown <- struct{}{}:
	default:
	}
}

// take takes all that waits. Its messages keep their room until they have left.
func (o *outbox) take() (all []errand) {
	o.mutex.Lock()
	defer o.mutex.Unlock()
	all, o.waits = o.waits, nil
	return all
}

// left notes that a message left, or was lost.
func (o *outbox) left(one errand, err error) {
	o.mutex.Lock()
	defer o.mutex.Unlock()
	o.count--
	o.bytes -= len(one.message)
	if err != nil {
		o.unsent++
	}
}

// errLate is why a message does not leave that waited for too long.
var errLate = errors.New("nats: the message is too old")

// empty does all that waits.
func (o *outbox) empty(connection *nats.Conn) {
	for _, one := range o.take() {
		if one.does != nil {
			one.does(connection)
			continue
		}
		err := errLate
		if time.Since(one.made) < mostLate {
			err = connection.Publish(one.box, one.message)
		}
		o.left(one, err)
	}
}

// run connects, and does what waits for the connection until Close.
func (n *NATS) run(options nats.Options) {
	defer close(n.ended)
	connection, err := options.Connect()
	if err != nil {
		n.dialed.Store(&err) // of the settings: it goes to no server
		<-n.closed
		return
	}
	defer connection.Close()
	if n.current.Store(connection); !connection.IsConnected() {
		n.link.CompareAndSwap(0, isDown)
	}
	for {
		select {
		case <-n.out.grown:
			n.out.empty(connection)
		case <-n.closed:
			if n.out.empty(connection); n.Connected() {
				_ = connection.FlushTimeout(mostLate)
			}
			n.link.Store(isDown)
			return
		}
	}
}

// Send sends a message. What finds no room is lost: that is ErrNoRoom. What can't leave within a second is lost, too: Unsent counts it.
func (n *NATS) Send(mailbox string, message []byte) error { return n.out.posts(mailbox, message) }

// Unsent returns how many messages Send took that did not leave.
func (n *NATS) Unsent() uint64 {
	n.out.mutex.Lock()
	defer n.out.mutex.Unlock()
	return n.out.unsent
}
