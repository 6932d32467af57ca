// Package agent takes locks by the agent of a host, qlockd. It needs no library of C, no user and no cluster's file: the agent
// has one session for all processes of the host, and the permissions of its socket say who may connect.
//
//	client := agent.New("")
//	held, err := client.Lock(ctx, "orders")
//	err = write(held.Token(), ...)          // the guard admits the token and writes, in one transaction
//	err = held.Unlock()
//
// A lock lasts as long as its connection: the agent gives the lock of a process back that dies. If the agent dies, or can't
// reach the voters, Lost closes.
package agent

import (
	"bufio"
	"context"
	"encoding/hex"
	"encoding/json"
	"errors"
	"fmt"
	"net"
	"net/http"
	"net/url"
	"os"
	"sync"
	"sync/atomic"
	"time"

	"calvundek.example/service/internal/boot"
)

// Socket is where the agent listens if nobody says otherwise.
const Socket = "/run/qlock/qlockd.sock"

// The errors of this package. errors.Is finds them.
var (
	ErrHeld        = errors.New("agent: somebody else has the lock")
	ErrTimeout     = errors.New("agent: the lock was not to be had in time")
	ErrNumbers     = errors.New("agent: no client number was to be had: all are in use (wait longer, or make a cluster with more shards)")
	ErrAbsent      = errors.New("agent: no agent is there, or this user may not connect to it")
	ErrUnreachable = errors.New("agent: the agent has no session, reaches no quorum of voters, or ended")
	ErrDenied      = errors.New("agent: the servers of NATS refuse the agent's user")
	ErrFull        = errors.New("agent: no quorum of voters has room for another lock")
	ErrName        = errors.New("agent: a lock's name has 1 to 64 of A-Z a-z 0-9 _ - . : and no dot first")
	ErrLost        = errors.New("agent: the lock may have been somebody else's before it was given back")
	ErrRefused     = errors.New("agent: the agent refuses the request")
)

// words are the words of faults, and the errors that they are. Any other one is ErrRefused.
var words = map[string]error{"held": ErrHeld, "timeout": ErrTimeout, "numbers": ErrNumbers, "unreachable": ErrUnreachable,
	"closing": ErrUnreachable, "denied": ErrDenied, "full": ErrFull, "name": ErrName, "lost": ErrLost}

// Fault is why the agent refused a request.
type Fault struct {
	Word    string  `json:"fault"` // one of a few that stay the same
	Why     string  `json:"why"`
	Holder  *Holder `json:"holder"`  // of ErrHeld: who has the lock; nil if that is not known
	Waiting int     `json:"waiting"` // of ErrNumbers: how many sessions wait for a number before the agent's
}

func (f *Fault) Error() string { return f.Why }

// Is returns whether a fault is one of the errors of this package. What was not to be had in time is
// also context.DeadlineExceeded.
func (f *Fault) Is(target error) bool {
	if target == context.DeadlineExceeded {
		return f.Word == "timeout"
	}
	if known, found := words[f.Word]; found {
		return known == target
	}
	return target == ErrRefused
}

// absent is ErrAbsent, and what the system says. errors.Is finds both.
type absent struct{ why error }

func (a absent) Error() string        { return fmt.Sprintf("%v: %v", ErrAbsent, a.why) }
func (a absent) Is(target error) bool { return target == ErrAbsent }
func (a absent) Unwrap() error        { return a.why }

// Client takes locks. Many goroutines may call it at once. It has no connection but those of its locks.
type Client struct {
	socket, note string
	turn         bool
	idle         time.Duration // 0 for none
}

// New returns a client of the agent at a socket. Without one it is that of QLOCK_AGENT, or else Socket.
func New(socket string) *Client {
	if socket == "" {
		socket = os.Getenv("QLOCK_AGENT")
	}
	if socket == "" {
		socket = Socket
	}
	return &Client{socket: socket}
}

// WithNote returns a client whose locks have a note: what others see of who has them, besides process and user. Without one it
// is the name of the process. It is cheap: client.WithNote("nightly").Lock(ctx, "orders") has a note for one lock.
func (c *Client) WithNote(note string) *Client {
	with := *c
	with.note = note
	return &with
}

// WithTurn returns a client whose locks have a turn (Held.Turn). All voters of a lock's quorum have to reply for that, so it takes
// longer, and fails more often.
func (c *Client) WithTurn() *Client {
	with := *c
	with.turn = true
	return &with
}

// WithIdle returns a client whose locks are lost once Held.Alive was not called for so long: a process that hangs keeps no lock. Without it,
// or with 0, a lock lasts as long as its process.
func (c *Client) WithIdle(idle time.Duration) *Client {
	with := *c
	with.idle = idle
	return &with
}

// Held is a lock that is held. It belongs to whoever called Lock.
type Held struct {
	connection *net.UnixConn
	lines      *bufio.Reader
	token      []byte
	turn       uint64
	ttl        time.Duration
	until      atomic.Int64 // when it ends if the agent says nothing more, in milliseconds of boot.Uptime
	ahead      int64        // by how many of them that is ahead of the agent's clock
	lost       chan struct{}
	once       sync.Once     // of lost
	ended      chan struct{} // closed when the agent says nothing more
	unlocked   bool          // the agent said that it was given back in time; known once ended is closed
	silent     atomic.Bool   // Lost closed since the agent said nothing
	over       atomic.Bool   // Unlock was called
	mayIdle    bool          // the agent waits for Alive
}

// Lock waits until the caller has the lock, or the context ends. It fails with ErrLost if it got a lock that was over already.
func (c *Client) Lock(ctx context.Context, name string) (*Held, error) {
	return c.take(ctx, name, url.Values{})
}

// TryLock takes a lock that nobody has. It fails with ErrHeld if somebody else has it, or asked before: then Fault.Holder says who,
// if that is known. It waits for no number: that is ErrNumbers.
func (c *Client) TryLock(ctx context.Context, name string) (*Held, error) {
	return c.take(ctx, name, url.Values{"try": {"1"}})
}

// last is for how long the agent may say why a lock was not to be had in time.
const last = 500 * time.Millisecond

// take asks for a lock, by a connection of its own.
func (c *Client) take(ctx context.Context, name string, query url.Values) (*Held, error) {
	limit, cancel := context.WithCancel(ctx)
	if c.note != "" {
		query.Set("note", c.note)
	}
	if c.turn {
		query.Set("turn", "1")
	}
	if c.idle > 0 {
		query.Set("idle", c.idle.String())
	}
	if end, has := ctx.Deadline(); has {
		wait := time.Until(end)
		if wait <= 0 {
			cancel()
			return nil, ctx.Err()
		}
		query.Set("wait", wait.String())
		cancel()
		limit, cancel = late(ctx, wait+last)
	}
	defer cancel()
	connection, err := c.connect(limit)
	if err != nil {
		return nil, err
	}
	ready := endsWith(limit, connection) // whoever calls this may give up
	held, err := ask(connection, name, query)
	ready()
	if err = held.taken(limit, err); err != nil {
		_ = connection.Close()
		return nil, unlessEnded(ctx, err)
	}
	go held.read()
	go held.watch(catchUp)
	return held, nil
}

// taken returns why a lock that was asked for is not handed out, nil if it is. It may have come too late, or be over: this process or the
// agent stood still.
func (h *Held) taken(limit context.Context, err error) error {
	switch {
	case err != nil:
		return err
	case limit.Err() != nil:
		return limit.Err()
	case h.left() <= 0:
		return fmt.Errorf("%w: it was over as it came", ErrLost)
	}
	return nil
}

// endsWith ends a connection with a context, until the function is called that it returns.
func endsWith(ctx context.Context, connection net.Conn) (ready func()) {
	isReady, done := make(chan struct{}), make(chan struct{})
	go func() {
		defer close(done)
		select {
		case <-ctx.Done():
			_ = connection.Close()
		case <-isReady:
		}
	}()
	return func() { close(isReady); <-done }
}

// late returns a context that ends some time from now, or as its parent is cancelled.
func late(parent context.Context, wait time.Duration) (context.Context, context.CancelFunc) {
	ctx, cancel := context.WithTimeout(context.Background(), wait)
	go func() {
		select {
		case <-parent.Done():
			if parent.Err() == context.Canceled {
				cancel()
			}
		case <-ctx.Done():
		}
	}()
	return ctx, cancel
}

func (c *Client) connect(ctx context.Context) (*net.UnixConn, error) {
	connection, err := (&net.Dialer{}).DialContext(ctx, "unix", c.socket)
	if err != nil {
		return nil, absent{err}
	}
	return connection.(*net.UnixConn), nil
}

// send sends a request, and returns the reply.
func send(connection net.Conn, method, path string, query url.Values) (*http.Response, error) {
	place := url.URL{Scheme: "http", Host: "qlockd", Path: path, RawQuery: query.Encode()}
	request, err := http.NewRequest(method, place.String(), nil)
	if err != nil {
		return nil, fmt.Errorf("%w: %v", ErrName, err)
	}
	if err := request.Write(connection); err != nil {
		return nil, fmt.Errorf("%w: %v", ErrUnreachable, err)
	}
	reply, err := http.ReadResponse(bufio.NewReader(connection), request)
	if err != nil {
		return nil, fmt.Errorf("%w: %v", ErrUnreachable, err)
	}
	if reply.StatusCode != http.StatusOK {
		fault := &Fault{}
		if err := json.NewDecoder(reply.Body).Decode(fault); err != nil {
			fault = &Fault{Word: "internal", Why: reply.Status}
		}
		return nil, fault
	}
	return reply, nil
}

// line is what the agent says of a lock.
type line struct {
	Held     bool   `json:"held"`
	Pass     string `json:"pass"`
	Turn     uint64 `json:"turn,string"`
	TTL      int64  `json:"ttl_ms"`
	Asked    int64  `json:"asked_ms"` // 0 of an older agent
	Left     int64  `json:"left_ms"`
	Until    int64  `json:"until_ms"`
	Lost     bool   `json:"lost"`
	Unlocked bool   `json:"unlocked"`
}

// ahead returns by how many milliseconds the clock of this process is ahead of the agent's, at least: 0 where both may be one. In another
// time namespace they are not. The request left and the first line came at these times of this process's clock. The agent had the one
// after it left, and wrote the other one before it came.
func (l line) ahead(left, came time.Duration) int64 {
	least, most := left.Milliseconds()-l.Asked-1, came.Milliseconds()-(l.Until-l.Left)+1 // parts of milliseconds are not said
	if l.Asked == 0 || least <= 0 && most >= 0 {
		return 0
	}
	return least
}

// ask asks for a lock, and waits for the first line.
func ask(connection *net.UnixConn, name string, query url.Values) (*Held, error) {
	left := boot.Uptime()
	reply, err := send(connection, http.MethodPost, "/v1/locks/"+name, query)
	if err != nil {
		return nil, err
	}
	h := &Held{connection: connection, lines: bufio.NewReader(reply.Body), lost: make(chan struct{}), ended: make(chan struct{}),
		mayIdle: query.Has("idle")}
	said, err := h.line()
	if err != nil || !said.Held {
		return nil, fmt.Errorf("%w: %v", ErrUnreachable, err)
	}
	h.ttl, h.turn = time.Duration(said.TTL)*time.Millisecond, said.Turn
	h.ahead = said.ahead(left, boot.Uptime())
	h.until.Store(said.Until + h.ahead)
	if h.token, err = hex.DecodeString(said.Pass); err != nil {
		return nil, fmt.Errorf("%w: the pass: %v", ErrUnreachable, err)
	}
	return h, nil
}

// line reads a line.
func (h *Held) line() (said line, err error) {
	text, err := h.lines.ReadBytes('\n')
	if err == nil {
		err = json.Unmarshal(text, &said)
	}
	return said, err
}

// read reads lines until the agent says that the lock is over, or nothing more.
func (h *Held) read() {
	defer close(h.ended)
	defer h.lapse()
	for {
		said, err := h.line()
		switch {
		case err != nil || said.Lost:
			return
		case said.Unlocked:
			h.unlocked = h.over.Load() // or else another process gave it back
			return
		case said.Until > 0:
			h.until.Store(said.Until + h.ahead)
		}
	}
}

// How long watch and Unlock wait between two looks, and watch for what the agent said while this process stood still.
const (
	pause   = 50 * time.Millisecond
	catchUp = 10 * time.Millisecond
)

// watch closes Lost once the lock may have ended, though the agent says nothing.
func (h *Held) watch(catchUp time.Duration) {
	ticker := time.NewTicker(pause)
	defer ticker.Stop()
	for {
		select {
		case <-h.lost:
			return
		case <-ticker.C:
		}
		if h.left() > 0 {
			continue
		}
		if time.Sleep(catchUp); h.left() <= 0 {
			h.silent.Store(true)
			h.lapse()
			return
		}
	}
}

func (h *Held) lapse() { h.once.Do(func() { close(h.lost) }) }

func (h *Held) left() time.Duration {
	return time.Duration(h.until.Load())*time.Millisecond - boot.Uptime()
}

// Token returns the pass: what is shown to the guard, with each write.
func (h *Held) Token() []byte { return append([]byte(nil), h.token...) }

// Turn returns one number that grows from holder to holder, for a place that compares one number and keeps no guard. It is 0 unless
// the lock was taken with WithTurn.
func (h *Held) Turn() uint64 { return h.turn }

// TTL returns the TTL of the cluster.
func (h *Held) TTL() time.Duration { return h.ttl }

// Left returns for how long the lock lasts if nothing more is heard of the agent: then Lost closes. It is 0 once Lost is
// closed.
func (h *Held) Left() time.Duration {
	select {
	case <-h.lost:
		return 0
	default:
	}
	if left := h.left(); left > 0 {
		return left
	}
	return 0
}

// Lost is closed when the lock may be somebody else's. End the work then, and call Unlock: until then votes that are left
// keep others out, for a TTL at most. It is also closed by Unlock.
func (h *Held) Lost() <-chan struct{} { return h.lost }

// Alive says that the work goes on. A lock of WithIdle is lost if that is not said in time. For others it does nothing.
func (h *Held) Alive() {
	if h.mayIdle && !h.over.Load() {
		_, _ = h.connection.Write([]byte{'\n'}) // if the connection has ended, Lost closes
	}
}

// Unlock gives the lock back, and waits until the agent did that. It returns ErrLost if the lock may have been lost before.
// For the second time it is ErrRefused.
func (h *Held) Unlock() error {
	if !h.over.CompareAndSwap(false, true) {
		return fmt.Errorf("%w: the lock was given back before", ErrRefused)
	}
	defer h.connection.Close()
	defer h.lapse()
	if err := h.connection.CloseWrite(); err != nil {
		return fmt.Errorf("%w: %v", ErrLost, err)
	}
	return h.await(pause)
}

// await waits until the agent says that the lock was given back. It looks at the clock after a pause only: what the agent said
// while this process stood still is read first.
func (h *Held) await(pause time.Duration) error {
	for {
		select {
		case <-h.ended:
			if h.unlocked && !h.silent.Load() {
				return nil
			}
			return ErrLost
		case <-time.After(pause):
			if h.left() <= 0 {
				return ErrLost
			}
		}
	}
}

// Context returns a context for work that needs the lock: it ends when the lock may be lost, is given back, or the parent
// ends. The function that it returns frees what the context needs.
func (h *Held) Context(parent context.Context) (context.Context, context.CancelFunc) {
	ctx, cancel := context.WithCancel(parent)
	go func() {
		select {
		case <-h.lost:
			cancel()
		case <-ctx.Done():
		}
	}()
	return ctx, cancel
}
