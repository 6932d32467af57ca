// Package operator asks voters what operators want to know or to do.
package operator

import (
	"bytes"
	"context"
	"encoding/json"
	"errors"
	"fmt"
	"strconv"
	"time"

	"calvundek.example/service/internal/config"
	"calvundek.example/service/internal/wire"
	"calvundek.example/service/transport"
)

// The errors of a voter's reply.
var (
	ErrSilent  = errors.New("no reply")
	ErrRefused = errors.New("refused")
)

// Console asks the voters of a cluster.
type Console struct {
	cluster *config.Cluster
	carrier transport.Transport
	name    string // of who asks, as a word of mailboxes
	header  wire.Header
	marks   []string // of the plans: while one is exchanged, some voters may have only the new one, others only the old one
	replies <-chan transport.Message
}

// New returns a console over a transport, of an operator or a voter with this name.
func New(cluster *config.Cluster, carrier transport.Transport, name string) *Console {
	return &Console{cluster: cluster, carrier: carrier, name: name, marks: cluster.Marks(),
		header: wire.Header{Cluster: cluster.ID, Kind: wire.FromOperator}}
}

// Reply is what one voter replied, or why there is nothing.
type Reply struct {
	Voter int
	Name  string
	Body  []byte
	Err   error
}

// Ask asks some voters, by their numbers, and returns a reply for each. It asks again until the context ends or all have
// replied.
func (c *Console) Ask(ctx context.Context, words string, voters ...int) ([]Reply, error) {
	if err := c.listen(); err != nil {
		return nil, err
	}
	defer c.leave()
	replies := map[int][]byte{}
	for wait := 100 * time.Millisecond; len(replies) < len(voters) && ctx.Err() == nil; wait *= 2 {
		c.send(words, voters, replies)
		c.collect(ctx, wait, voters, replies)
	}
	found := make([]Reply, 0, len(voters))
	for _, voter := range voters {
		found = append(found, c.reply(voter, replies[voter]))
	}
	return found, nil
}

// List asks a voter for all pages of a list, one after the other, and hands each to a function.
func (c *Console) List(ctx context.Context, list string, voter int, use func(page []byte) error) error {
	for from := 0; ; {
		replies, err := c.Ask(ctx, fmt.Sprint(list, " ", from), voter)
		if err == nil {
			err = replies[0].Err
		}
		if err != nil {
			return err
		}
		var page struct {
			Next int `json:"next"`
		}
		if err := json.Unmarshal(replies[0].Body, &page); err != nil {
			return err
		}
		if err := use(replies[0].Body); err != nil || page.Next == 0 {
			return err
		}
		from = page.Next
	}
}

// All returns the numbers of all voters.
func (c *Console) All() (voters []int) {
	for voter := range c.cluster.Names() {
		voters = append(voters, voter)
	}
	return voters
}

// listen takes a new mailbox for each question.
func (c *Console) listen() (err error) {
	if c.header.Name, err = config.Nonce(); err != nil {
		return err
	}
	c.replies, err = c.carrier.Listen(c.boxes())
	return err
}

// boxes returns the mailboxes of a question.
func (c *Console) boxes() string {
	return wire.ReplyBoxes(c.cluster.ID, wire.SessionName(c.name, c.header.Name))
}

// leave forgets the mailbox of a question.
func (c *Console) leave() {
	if leaver, ok := c.carrier.(transport.Leaver); ok {
		leaver.Leave(c.boxes())
	}
}

// send asks those that did not reply, by each plan.
func (c *Console) send(words string, voters []int, replies map[int][]byte) {
	box := wire.WriteBox
	if wire.IsRead(c.name, words) {
		box = wire.ReadBox
	}
	for _, mark := range c.marks {
		c.header.Coterie = mark
		message := append(c.header.Append(nil), words+"\n"...)
		for _, voter := range voters {
			if replies[voter] == nil {
				_ = c.carrier.Send(box(c.cluster.ID, voter, c.name), message)
			}
		}
	}
}

// isOurs returns whether a message that came from a sender is a voter's reply.
func (c *Console) isOurs(h wire.Header, from string) bool {
	for _, mark := range c.marks {
		if h.Coterie == mark {
			return h.Kind == wire.FromVoter && from == strconv.Itoa(h.Number) && h.Cluster == c.header.Cluster &&
				h.Number < len(c.cluster.Names())
		}
	}
	return false
}

// collect collects replies for some time. The first one of a voter counts: what comes later is a reply to the same question
// that was repeated, or asked by another plan.
func (c *Console) collect(ctx context.Context, wait time.Duration, voters []int, replies map[int][]byte) {
	timer := time.NewTimer(wait)
	defer timer.Stop()
	for len(replies) < len(voters) {
		select {
		case m := <-c.replies:
			h, body, err := wire.Read(m.Data)
			if err == nil && c.isOurs(h, m.Sender()) && replies[h.Number] == nil {
				replies[h.Number] = body
			}
		case <-timer.C:
			return
		case <-ctx.Done():
			return
		}
	}
}

// reply returns the reply in a body.
func (c *Console) reply(voter int, body []byte) Reply {
	r := Reply{Voter: voter, Name: c.cluster.Names()[voter], Body: body}
	var refused struct {
		Error string `json:"error"`
	}
	switch {
	case body == nil:
		r.Err = ErrSilent
	case bytes.HasPrefix(body, []byte("{")) && json.Unmarshal(body, &refused) == nil && refused.Error != "":
		r.Err = fmt.Errorf("%w: %s", ErrRefused, refused.Error)
	}
	return r
}
