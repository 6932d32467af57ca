package operator_test

import (
	"context"
	"errors"
	"fmt"
	"strings"
	"testing"
	"time"

	"calvundek.example/service/internal/operator"
	"calvundek.example/service/internal/wire"
	"calvundek.example/service/internal/worlds"
	"calvundek.example/service/transport"
)

// twice is a transport whose voters reply to each question twice, and the second reply is another one.
type twice struct{ box chan transport.Message }

func (c twice) Listen(string) (<-chan transport.Message, error) { return c.box, nil }

func (c twice) Send(mailbox string, message []byte) error {
	asked, _, err := wire.Read(message)
	if err != nil {
		return err
	}
	for voter := 0; voter < 3; voter++ {
		if mailbox == wire.WriteBox(asked.Cluster, voter, "alice") {
			reply := wire.Header{Cluster: asked.Cluster, Coterie: asked.Coterie, Kind: wire.FromVoter, Number: voter, Name: "identity"}
			for _, body := range []string{"first", "second"} {
				c.box <- transport.Message{Mailbox: wire.ReplyBox("test", "alice."+asked.Name, voter), Data: append(reply.Append(nil), body...)}
			}
		}
	}
	return nil
}

// The first reply of a voter counts: a later one is to a repetition of the question.
func TestFirstReplyCounts(t *testing.T) {
	ctx, cancel := context.WithTimeout(context.Background(), 5*time.Second)
	defer cancel()
	console := operator.New(worlds.NewCluster(t, worlds.Majority, time.Second), twice{make(chan transport.Message, 100)}, "alice")
	replies, err := console.Ask(ctx, "unlock x 1", console.All()...)
	if err != nil {
		t.Fatal(err)
	}
	for _, r := range replies {
		if r.Err != nil || string(r.Body) != "first" {
			t.Error(fmt.Sprint(r.Name, ": ", string(r.Body), ", ", r.Err))
		}
	}
}

// A console leaves the mailbox of each question.
func TestMailboxesAreLeft(t *testing.T) {
	w := worlds.New(t, worlds.Majority, time.Second)
	console, before := w.Console(), w.Bus.Boxes()
	for i := 0; i < 3; i++ {
		ctx, cancel := context.WithTimeout(context.Background(), 5*time.Second)
		if replies, err := console.Ask(ctx, "status", console.All()...); err != nil || replies[0].Err != nil {
			t.Fatal(replies, err)
		}
		cancel()
	}
	if after := w.Bus.Boxes(); after != before {
		t.Errorf("%d mailboxes after %d", after, before)
	}
}

// paged is a transport whose voters have a list of so many pages. Each first question for a page is lost.
type paged struct {
	box   chan transport.Message
	pages int
	asked map[string]int
}

func (c *paged) Listen(string) (<-chan transport.Message, error) { return c.box, nil }

func (c *paged) Send(mailbox string, message []byte) error {
	asked, lines, err := wire.Read(message)
	if err != nil || mailbox != wire.ReadBox(asked.Cluster, 1, "bob") {
		return fmt.Errorf("%s: %v", mailbox, err)
	}
	words := string(lines)
	if c.asked[words]++; c.asked[words] == 1 {
		return nil
	}
	var page, next int
	if _, err := fmt.Sscanf(words, "votes %d\n", &page); err != nil {
		return err
	}
	if page+1 < c.pages {
		next = page + 1
	}
	reply := wire.Header{Cluster: asked.Cluster, Coterie: asked.Coterie, Kind: wire.FromVoter, Number: 1, Name: "identity"}
	c.box <- transport.Message{Mailbox: wire.ReplyBox("test", "bob."+asked.Name, 1),
		Data: append(reply.Append(nil), fmt.Sprintf(`{"votes":[{"lock":"x%d"}],"next":%d}`, page, next)...)}
	return nil
}

// All pages of a list are read, each once, also if a question is lost. Without time for all there is an error.
func TestPagesOfAList(t *testing.T) {
	for pages, most := range map[int]time.Duration{1: 5 * time.Second, 4: 5 * time.Second, 100: 300 * time.Millisecond} {
		ctx, cancel := context.WithTimeout(context.Background(), most)
		c := &paged{make(chan transport.Message, 100), pages, map[string]int{}}
		console, got := operator.New(worlds.NewCluster(t, worlds.Majority, time.Second), c, "bob"), 0
		err := console.List(ctx, "votes", 1, func(page []byte) error {
			if want := fmt.Sprintf(`"x%d"`, got); !strings.Contains(string(page), want) {
				return fmt.Errorf("%s without %s", page, want)
			}
			got++
			return nil
		})
		cancel()
		if pages < 100 && (err != nil || got != pages) || pages == 100 && !errors.Is(err, operator.ErrSilent) {
			t.Errorf("%d of %d pages: %v", got, pages, err)
		}
	}
}
