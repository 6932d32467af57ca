package transport

import (
	"fmt"
	"io"
	"strings"
	"sync"

	"github.com/nats-io/nats.go"
)

// mostRefusals is how many different refusals of a connection are said.
const mostRefusals = 1000

// refusals says what a server refuses, each thing once: who asks again and again is refused each time.
type refusals struct {
	to    io.Writer
	mutex sync.Mutex
	said  map[string]bool
	deaf  error // the first refusal of a mailbox since the connection came, nil if there was none
}

func newRefusals(to io.Writer) *refusals { return &refusals{to: to, said: map[string]bool{}} }

// handle takes an error of a connection, or of a subscription.
func (r *refusals) handle(_ *nats.Conn, subscription *nats.Subscription, why error) {
	text := why.Error()
	if subscription != nil {
		text = fmt.Sprintf("%s, of %q", text, subscription.Subject)
	}
	r.mutex.Lock()
	defer r.mutex.Unlock()
	if r.deaf == nil && isOfMailbox(text) {
		r.deaf = why
	}
	if !r.said[text] && len(r.said) < mostRefusals {
		r.said[text] = true
		fmt.Fprintln(r.to, text)
	}
}

// isOfMailbox returns whether the words of a server refuse a mailbox.
func isOfMailbox(text string) bool {
	return strings.Contains(strings.ToLower(text), "permissions violation for subscription")
}

// beginAnew forgets what was refused of mailboxes: the connection came back, and all are asked for again.
func (r *refusals) beginAnew() {
	r.mutex.Lock()
	defer r.mutex.Unlock()
	r.deaf = nil
}

// ofMailbox returns why a mailbox was refused, nil if none was.
func (r *refusals) ofMailbox() error {
	r.mutex.Lock()
	defer r.mutex.Unlock()
	return r.deaf
}
