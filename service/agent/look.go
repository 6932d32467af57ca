package agent

import (
	"bufio"
	"context"
	"encoding/json"
	"errors"
	"fmt"
	"net"
	"net/http"
	"net/url"
	"strings"
	"time"
)

// Holder is who has a lock of the cluster, by what voters say. The zero Holder is nobody. What it says was so a moment ago: decide nothing
// by it, and show it to people.
type Holder struct {
	User    string    `json:"user"`        // of NATS: the broker vouches for it. "" without users
	Host    string    `json:"host"`        // Host, Pid, Login and Note are what the holder, or its agent, says of it
	Pid     int       `json:"pid"`         // of its process
	Login   string    `json:"login"`       // its user of the system
	Note    string    `json:"note"`        // its own, or the name of its process
	Since   time.Time `json:"since"`       // since when it has the lock, about
	Waiting int       `json:"waiting"`     // how many other sessions wait for the lock: an agent is one
	Turn    uint64    `json:"turn,string"` // its turn, 0 if nobody asked for it (WithTurn), and in Watch
	Asked   bool      `json:"asked"`       // the voters that replied do not say that it has the votes of a quorum
	Session string    `json:"session"`     // as operators see it, and as qlockctl evict takes it
}

// IsNobody returns whether nobody has the lock.
func (h Holder) IsNobody() bool { return h == Holder{} }

// holds is what the agent says of who has a lock.
type holds struct {
	Lock string `json:"lock"`
	Held bool   `json:"held"`
	Holder
}

// Who asks the voters who has a lock of the cluster, on whichever host. It returns the zero Holder if nobody has it. It fails with
// ErrUnreachable if no quorum of voters replies until the context ends, or within three seconds if it has no end.
func (c *Client) Who(ctx context.Context, lock string) (Holder, error) {
	var said holds
	err := c.look(ctx, "/v1/who/"+lock, url.Values{}, &said)
	return said.Holder, err
}

// List asks the voters for the locks of the cluster of which the name begins with a prefix, and that somebody has or waits for. It hands
// them to a function in the order of their names, each with its holder, and ends with the first error of that.
func (c *Client) List(ctx context.Context, prefix string, each func(lock string, holder Holder) error) error {
	var said struct{ Locks []holds }
	if err := c.look(ctx, "/v1/who", url.Values{"prefix": {prefix}}, &said); err != nil {
		return err
	}
	for _, one := range said.Locks {
		if err := each(one.Lock, one.Holder); err != nil {
			return err
		}
	}
	return nil
}

// Watch returns a channel with who has a lock of the cluster, at first and after each change, until the context ends or the agent does:
// then it closes the channel. The channel has the newest Holder only. Voters say each change at once. A holder who has the lock for a
// moment may be missed. While no quorum of them replies it says nothing. Changes of Since and Waiting alone are none.
func (c *Client) Watch(ctx context.Context, lock string) (<-chan Holder, error) {
	limit, cancel := context.WithTimeout(ctx, replies) // for the first one
	defer cancel()
	connection, reply, err := c.get(limit, "/v1/watch/"+lock, url.Values{})
	if err != nil {
		return nil, unlessEnded(ctx, err)
	}
	found := make(chan Holder, 1)
	ready := endsWith(ctx, connection)
	go func() {
		defer close(found)
		defer connection.Close()
		defer ready()
		for lines := bufio.NewReader(reply.Body); ; {
			text, err := lines.ReadBytes('\n')
			var said holds
			if err != nil || json.Unmarshal(text, &said) != nil {
				return
			}
			select {
			case <-found: // nobody read it
			default:
			}
			found <- said.Holder
		}
	}()
	return found, nil
}

// replies is for how long the agent may take to answer if the context has no end: voters have three seconds of it.
const replies = 5 * time.Second

// look asks the agent for what voters say.
func (c *Client) look(ctx context.Context, path string, query url.Values, said interface{}) error {
	limit, cancel := context.WithTimeout(ctx, replies)
	if end, has := ctx.Deadline(); has {
		wait := time.Until(end)
		if wait <= 0 {
			cancel()
			return ctx.Err()
		}
		query.Set("wait", wait.String())
		cancel()
		limit, cancel = late(ctx, wait+last)
	}
	defer cancel()
	connection, reply, err := c.get(limit, path, query)
	if err != nil {
		return unlessEnded(ctx, err)
	}
	defer connection.Close()
	defer endsWith(limit, connection)()
	if err := json.NewDecoder(reply.Body).Decode(said); err != nil {
		return unlessEnded(ctx, fmt.Errorf("%w: %v", ErrUnreachable, err))
	}
	return nil
}

// unlessEnded returns an error, or that of the context if it ended and the agent said nothing.
func unlessEnded(ctx context.Context, err error) error {
	if ctx.Err() != nil && !errors.As(err, new(*Fault)) {
		return ctx.Err()
	}
	return err
}

// get asks the agent, by a connection of its own, and returns the reply.
func (c *Client) get(ctx context.Context, path string, query url.Values) (net.Conn, *http.Response, error) {
	connection, err := c.connect(ctx)
	if err != nil {
		return nil, nil, err
	}
	ready := endsWith(ctx, connection)
	reply, err := send(connection, http.MethodGet, path, query)
	ready()
	if err == nil {
		return connection, reply, nil
	}
	_ = connection.Close()
	if ctx.Err() != nil && !errors.As(err, new(*Fault)) {
		err = fmt.Errorf("%w: the agent does not reply", ErrUnreachable)
	}
	return nil, nil, err
}

// String returns the holder in a line, "nobody" if there is none.
func (h Holder) String() string {
	if h.IsNobody() {
		return "nobody"
	}
	var words []string
	add := func(format string, value interface{}, isThere bool) {
		if isThere {
			words = append(words, fmt.Sprintf(format, value))
		}
	}
	add("client %v", h.Session, h.Session != "")
	add("user=%v", h.User, h.User != "")
	add("host=%v", h.Host, h.Host != "")
	add("pid=%v", h.Pid, h.Pid != 0)
	add("login=%v", h.Login, h.Login != "")
	add("note=%q", h.Note, h.Note != "")
	add("for %v", time.Since(h.Since).Round(time.Second), !h.Since.IsZero())
	add("waiting=%v", h.Waiting, h.Waiting > 0)
	add("turn=%v", h.Turn, h.Turn > 0)
	add("asked=%v", h.Asked, h.Asked)
	return strings.Join(words, " ")
}
