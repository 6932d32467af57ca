package qlock

/*
#include "qlock.h"

static int64_t client_ask(uint8_t *state, uint64_t quorum, uint8_t *out) {
    size_t n = 0;
    int32_t refusal = qlock_client_ask(state, QLOCK_CLIENT_BYTES, quorum, out, QLOCK_CLIENT_OUT, &n);
    return refusal ? -(int64_t)refusal : (int64_t)n;
}

// The lines of one message are at most one for each voter and one more, far below 2^32; the bit 2^32 says that it entered.
static int64_t client_take(uint8_t *state, const uint8_t *line, size_t len, uint8_t *out) {
    size_t n = 0;
    int32_t entered = 0;
    int32_t refusal = qlock_client_take(state, QLOCK_CLIENT_BYTES, line, len, out, QLOCK_CLIENT_OUT, &n, &entered);
    return refusal ? -(int64_t)refusal : (int64_t)n | (entered ? (int64_t)1 << 32 : 0);
}

static int64_t client_leave(uint8_t *state, uint8_t *out) {
    size_t n = 0;
    int32_t refusal = qlock_client_leave(state, QLOCK_CLIENT_BYTES, out, QLOCK_CLIENT_OUT, &n);
    return refusal ? -(int64_t)refusal : (int64_t)n;
}

static int64_t client_give_up(uint8_t *state, uint8_t *out) {
    size_t n = 0;
    int32_t refusal = qlock_client_give_up(state, QLOCK_CLIENT_BYTES, out, QLOCK_CLIENT_OUT, &n);
    return refusal ? -(int64_t)refusal : (int64_t)n;
}

static int64_t client_remind(const uint8_t *state, uint8_t *out) {
    size_t n = 0;
    int32_t refusal = qlock_client_remind(state, QLOCK_CLIENT_BYTES, out, QLOCK_CLIENT_OUT, &n);
    return refusal ? -(int64_t)refusal : (int64_t)n;
}

static int64_t client_renew(const uint8_t *state, uint8_t *out) {
    size_t n = 0;
    int32_t refusal = qlock_client_renew(state, QLOCK_CLIENT_BYTES, out, QLOCK_CLIENT_OUT, &n);
    return refusal ? -(int64_t)refusal : (int64_t)n;
}

static int64_t client_disclaim(const uint8_t *state, uint64_t voters, uint8_t *out) {
    size_t n = 0;
    int32_t refusal = qlock_client_disclaim(state, QLOCK_CLIENT_BYTES, voters, out, QLOCK_CLIENT_OUT, &n);
    return refusal ? -(int64_t)refusal : (int64_t)n;
}
*/
import "C"

// Phase is what a client is doing.
type Phase int32

// The phases.
const (
	Idle   Phase = C.QLOCK_IDLE
	Asking Phase = C.QLOCK_ASKING
	Inside Phase = C.QLOCK_INSIDE
)

// Client is one client of one lock. It has one request at a time.
type Client struct{ state [ClientBytes]byte }

// Shown is what a client is doing, and the stamp and the quorum of its current or last request, 0 if there was none.
type Shown struct {
	Phase         Phase
	Stamp, Quorum uint64
}

// NewClient makes a client that never asked. A client is made once.
func NewClient(id uint8, limit uint64) (*Client, error) {
	c := new(Client)
	return c, refusal(C.qlock_client_new(C.uint8_t(id), C.uint64_t(limit), at(c.state[:]), ClientBytes))
}

// ClientAnew makes a client in place of one that is gone. No request of its number used a stamp above the clock. Its
// own stamps are above it.
func ClientAnew(id uint8, limit, clock uint64) (*Client, error) {
	c := new(Client)
	return c, refusal(C.qlock_client_anew(C.uint8_t(id), C.uint64_t(limit), C.uint64_t(clock), at(c.state[:]), ClientBytes))
}

// RestoreClient returns the client that was saved as these bytes.
func RestoreClient(state []byte) (*Client, error) {
	if len(state) != ClientBytes {
		return nil, BadState
	}
	c := new(Client)
	copy(c.state[:], state)
	_, err := c.Shows()
	return c, err
}

// State returns the bytes of the client. They change with the next call.
func (c *Client) State() []byte { return c.state[:] }

// room returns the bytes with room for the lines of a call, and where that room begins.
func room(out []byte) ([]byte, *C.uint8_t) {
	out = grown(out, C.QLOCK_CLIENT_OUT)
	return out, at(out[len(out) : len(out)+C.QLOCK_CLIENT_OUT])
}

// Ask starts a request for the votes of a quorum, and appends its lines to out.
func (c *Client) Ask(quorum uint64, out []byte) ([]byte, error) {
	out, place := room(out)
	return appended(out, C.client_ask(at(c.state[:]), C.uint64_t(quorum), place))
}

// Take takes a message, appends what to send to out, and returns whether the client got the lock.
func (c *Client) Take(line, out []byte) ([]byte, bool, error) {
	out, place := room(out)
	written := C.client_take(at(c.state[:]), at(line), C.size_t(len(line)), place)
	if written < 0 {
		return out, false, Refusal(-written)
	}
	return out[:len(out)+int(written&(1<<32-1))], written>>32 != 0, nil
}

// Leave leaves, and appends the lines that give the votes back to out.
func (c *Client) Leave(out []byte) ([]byte, error) {
	out, place := room(out)
	return appended(out, C.client_leave(at(c.state[:]), place))
}

// GiveUp gives up the request, and appends its lines to out.
func (c *Client) GiveUp(out []byte) ([]byte, error) {
	out, place := room(out)
	return appended(out, C.client_give_up(at(c.state[:]), place))
}

// Remind appends what a client that asks sends again to out.
func (c *Client) Remind(out []byte) ([]byte, error) {
	out, place := room(out)
	return appended(out, C.client_remind(at(c.state[:]), place))
}

// Renew appends what a client that is inside sends as a sign of life to out.
func (c *Client) Renew(out []byte) ([]byte, error) {
	out, place := room(out)
	return appended(out, C.client_renew(at(c.state[:]), place))
}

// Disclaim appends the lines that end all requests of an idle client at these voters to out.
func (c *Client) Disclaim(voters uint64, out []byte) ([]byte, error) {
	out, place := room(out)
	return appended(out, C.client_disclaim(at(c.state[:]), C.uint64_t(voters), place))
}

// Forget leaves a client that comes back from a crash idle. If it was inside, its work has to be done or undone before.
func (c *Client) Forget() error {
	return refusal(C.qlock_client_forget(at(c.state[:]), ClientBytes))
}

// Raise raises the client's clock to this stamp, if it is behind.
func (c *Client) Raise(clock uint64) error {
	return refusal(C.qlock_client_raise(at(c.state[:]), ClientBytes, C.uint64_t(clock)))
}

// Shows returns what the client is doing.
func (c *Client) Shows() (Shown, error) {
	var phase C.int32_t
	var stamp, quorum C.uint64_t
	err := refusal(C.qlock_client_shows(at(c.state[:]), ClientBytes, &phase, &stamp, &quorum))
	return Shown{Phase(phase), uint64(stamp), uint64(quorum)}, err
}

// Grant returns the number of the grant under which the vote of a voter is held, 0 if it is not.
func (c *Client) Grant(voter uint8) (uint64, error) {
	var grant C.uint64_t
	err := refusal(C.qlock_client_grant(at(c.state[:]), ClientBytes, C.uint8_t(voter), &grant))
	return uint64(grant), err
}

// Pass returns the pass that a client which is inside shows to the guard.
func (c *Client) Pass() ([]byte, error) {
	pass := make([]byte, PassBytes)
	if err := refusal(C.qlock_client_pass(at(c.state[:]), ClientBytes, at(pass), PassBytes)); err != nil {
		return nil, err
	}
	return pass, nil
}
