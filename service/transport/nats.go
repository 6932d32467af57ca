package transport

import (
	"crypto/tls"
	"crypto/x509"
	"errors"
	"fmt"
	"net"
	"net/url"
	"os"
	"strings"
	"sync"
	"sync/atomic"
	"time"

	"calvundek.example/service/internal/config"
	"github.com/nats-io/nats.go"
)

// The room of a mailbox: how many messages wait, of how many bytes together. Of these the first ones
// are handed out, and not read yet.
const (
	next      = 1 << 12
	nextBytes = 1 << 20
	Room      = 1 << 16
	RoomBytes = 16 << 20
)

// NATS is a connection to one of the servers of NATS. If it fails, it goes on to the next one, for ever. It goes to no other
// server than those of the cluster's file. No call waits for a server (outbox.go).
type NATS struct {
	current  atomic.Pointer[nats.Conn] // the connection, nil until each server was tried once
	link     atomic.Int32              // one of the states below
	wire     atomic.Pointer[wire]      // the last one that was made
	returns  atomic.Uint64
	dialed   atomic.Pointer[error] // why the last server was not to be had, which the library does not keep
	why      atomic.Pointer[error] // what the library said last
	out      outbox
	closing  sync.Once
	closed   chan struct{} // closed by Close
	ended    chan struct{} // closed once the connection is
	refusals *refusals
	servers  int

	certificate func() (*tls.Certificate, error) // reads this process's certificate, nil if it has none

	mutex     sync.Mutex
	mailboxes []*mailbox
	passed    map[string]*passed // the mailboxes of which a function takes all, by their subjects
	came      chan *nats.Msg     // what came to these, nil before there was one
	lost      uint64             // the messages that found no room in mailboxes that were left since
	drops     Drops              // those that found none in the room of a mailbox
}

// Whether there is a connection. At first it is not known.
const (
	isDown int32 = 1 + iota
	isUp
)

// mailbox is what comes to one subject.
type mailbox struct {
	subject      string
	subscription *nats.Subscription // nil until the library has it
	messages     chan Message
	left         chan struct{} // closed once nobody reads it any more
	room         *room
}

// passed is a mailbox of which a function takes all that comes.
type passed struct {
	subscription *nats.Subscription // nil until the library has it
	to           func(Message)
}

// Connect begins to connect to a cluster's servers, to the first in their order that is there. It returns before a
// connection is there, and waits for no server. A server that stands still is left after three seconds. Where all processes
// have one order, their messages take one server.
func Connect(cluster *config.Cluster, access config.Access, name string) (*NATS, error) {
	n := &NATS{out: newOutbox(), closed: make(chan struct{}), ended: make(chan struct{}), passed: map[string]*passed{},
		refusals: newRefusals(os.Stderr), servers: len(cluster.Servers)}
	if err := hidden(cluster, access); err != nil {
		return nil, err
	}
	options := []nats.Option{
		nats.Name(name), nats.DontRandomize(), nats.IgnoreAuthErrorAbort(), nats.Timeout(time.Second),
		nats.MaxReconnects(-1), nats.RetryOnFailedConnect(true),
		nats.ReconnectWait(100 * time.Millisecond), nats.ReconnectJitter(100*time.Millisecond, 200*time.Millisecond),
		nats.ReconnectBufSize(-1), // what can't leave is lost, and not sent late
		nats.PingInterval(time.Second), nats.MaxPingsOutstanding(2),
		nats.FlusherTimeout(time.Second), // else a server that reads nothing holds whoever sends, and no ping leaves
		// the connection may have failed already
		nats.ConnectHandler(func(*nats.Conn) { n.link.CompareAndSwap(0, isUp) }),
		nats.DisconnectErrHandler(func(*nats.Conn, error) { n.link.Store(isDown) }),
		nats.ReconnectHandler(func(*nats.Conn) {
			n.link.Store(isUp)
			n.returns.Add(1)
			n.refusals.beginAnew()
		}),
		nats.ErrorHandler(n.refusals.handle),
	}
	more, err := n.identity(cluster, access)
	if err != nil {
		return nil, err
	}
	all := nats.GetDefaultOptions()
	for _, option := range append(options, more...) {
		if err := option(&all); err != nil {
			return nil, fmt.Errorf("nats: %w", err)
		}
	}
	all.Servers = cluster.Servers
	go n.run(all)
	return n, nil
}

// ErrClear is returned where a password would leave in clear.
var ErrClear = fmt.Errorf("%w: a password or creds need TLS: servers as tls://HOST:PORT, or ca in the cluster's file",
	config.ErrConfig)

// ErrAccess is returned if a process says in several ways who it is.
var ErrAccess = fmt.Errorf("%w: only one of secret, seed and creds can be used", config.ErrConfig)

// hidden returns ErrClear if a password would leave this machine without TLS. With an authority or
// a certificate all is by TLS. Credentials count as a password: their JWT is shown, and it may be one
// that needs no signature. A seed never leaves; it signs a number that the server made up.
func hidden(cluster *config.Cluster, access config.Access) error {
	if cluster.CA != "" || access.Cert != "" {
		return nil
	}
	for _, server := range cluster.Servers {
		place, err := parse(server)
		if err != nil {
			return fmt.Errorf("%w: a server is no URL: %v", config.ErrConfig, errors.Unwrap(err))
		}
		if access.Secret+access.Creds == "" && place.User == nil {
			continue
		}
		host := net.ParseIP(place.Hostname())
		if isHere := place.Hostname() == "localhost" || host != nil && host.IsLoopback(); place.Scheme != "tls" &&
			!isHere {
			return fmt.Errorf("%w: %s", ErrClear, place.Host)
		}
	}
	return nil
}

// identity returns the options that say who this process is, and which servers it believes.
// All files are read again for each connection, so new files need no restart.
func (n *NATS) identity(cluster *config.Cluster, access config.Access) (options []nats.Option, err error) {
	if access.Cert != "" {
		read := func() (*tls.Certificate, error) {
			certificate, err := tls.LoadX509KeyPair(access.Cert, access.Key)
			return &certificate, err
		}
		if _, err := read(); err != nil {
			return nil, err
		}
		n.certificate = read
		options = append(options, nats.Secure(&tls.Config{MinVersion: tls.VersionTLS12,
			GetClientCertificate: func(*tls.CertificateRequestInfo) (*tls.Certificate, error) { return read() }}))
	}
	if cluster.CA != "" {
		options = append(options, nats.RootCAs(cluster.CA))
	}
	user, err := user(access)
	if err != nil {
		return nil, err
	}
	if user != nil {
		options = append(options, user)
	}
	return append(options, nats.SetCustomDialer(&dialer{n, cluster, access})), nil
}

// user returns the option that says which user of NATS this process is, nil if it is none.
func user(access config.Access) (nats.Option, error) {
	switch {
	case access.Secret != "" && access.Seed+access.Creds != "" || access.Seed != "" && access.Creds != "":
		return nil, ErrAccess
	case access.Seed != "":
		option, err := nats.NkeyOptionFromSeed(access.Seed)
		return option, named(access.Seed, err)
	case access.Creds != "":
		option, tried := nats.UserCredentials(access.Creds), nats.Options{}
		err := option(&tried)
		if err == nil {
			_, err = tried.UserJWT()
		}
		if err == nil {
			_, err = tried.SignatureCB(nil)
		}
		return option, named(access.Creds, err)
	case access.User != "" && access.Secret == "":
		return nil, fmt.Errorf("%w: user %q has no secret, seed or creds", config.ErrConfig, access.User)
	case access.User != "":
		text, err := os.ReadFile(access.Secret)
		return nats.UserInfo(access.User, strings.TrimSpace(string(text))), err
	}
	return nil, nil
}

// named names the file with which an error came about.
func named(path string, err error) error {
	if err == nil {
		return nil
	}
	return fmt.Errorf("%s: %w", path, err)
}

// dialer reads how this process shows who it is, and the authority, before each connection.
type dialer struct {
	*NATS
	cluster *config.Cluster
	access  config.Access
}

// Dial connects to a server. The library calls it while it has the connection to itself. What can't
// be read, as it is being renewed, stays as it was.
func (d *dialer) Dial(network, address string) (net.Conn, error) {
	if connection := d.current.Load(); connection != nil {
		if user, err := user(d.access); err == nil && user != nil {
			_ = user(&connection.Opts)
		}
		pool := x509.NewCertPool()
		if text, err := os.ReadFile(d.cluster.CA); err == nil && pool.AppendCertsFromPEM(text) {
			connection.Opts.TLSConfig = connection.Opts.TLSConfig.Clone()
			connection.Opts.TLSConfig.RootCAs = pool
		}
	}
	if !isListed(d.cluster, address) {
		return nil, fmt.Errorf("%w: %s", errUnlisted, address)
	}
	connection, err := net.DialTimeout(network, address, time.Second)
	if d.dialed.Store(&err); err == nil {
		d.wire.Store(&wire{connection, time.Now()})
	}
	return connection, err
}

// wire is a connection to a server.
type wire struct {
	net.Conn
	since time.Time
}

// Move leaves a server that lives and reaches nobody whom this process needs, for the next one. It does nothing while the connection is
// younger than this age: where nobody is there, no server has a storm of those who look for them.
func (n *NATS) Move(age time.Duration) {
	now := n.wire.Load()
	if n.servers > 1 && n.Connected() && now != nil && time.Since(now.since) >= age && n.wire.CompareAndSwap(now, nil) {
		_ = now.Close() // the library takes the next server then
	}
}

// errUnlisted is returned for a server that another one named, and the cluster's file does not.
var errUnlisted = errors.New("this is none of the cluster's servers")

// isListed returns whether an address is that of a server of the cluster's file. The library finds
// the addresses of a name itself, and also goes to servers that a server names.
func isListed(cluster *config.Cluster, address string) bool {
	for _, server := range cluster.Servers {
		host, port := endpoint(server)
		if net.JoinHostPort(host, port) == address {
			return true
		}
		if !strings.HasSuffix(address, ":"+port) || net.ParseIP(host) != nil {
			continue
		}
		found, _ := net.LookupHost(host)
		for _, one := range found {
			if net.JoinHostPort(one, port) == address {
				return true
			}
		}
	}
	return false
}

// ports are those of servers that name none, where it is not 4222.
var ports = map[string]string{"ws": "80", "wss": "443"}

// endpoint returns the host and the port of a server.
func endpoint(server string) (host, port string) {
	at, err := parse(server)
	if err != nil {
		return "", ""
	}
	if port = at.Port(); port != "" {
		return at.Hostname(), port
	}
	if port = ports[at.Scheme]; port == "" {
		port = "4222"
	}
	return at.Hostname(), port
}

// parse reads a server's URL.
func parse(server string) (*url.URL, error) {
	if !strings.Contains(server, "://") {
		server = "nats://" + server
	}
	return url.Parse(server)
}

// CertificateEnd returns when the certificate in this process's files ends, and 0 if there is none
// that can be read.
func (n *NATS) CertificateEnd() time.Time {
	if n.certificate == nil {
		return time.Time{}
	}
	shown, err := n.certificate()
	if err != nil {
		return time.Time{}
	}
	first, err := x509.ParseCertificate(shown.Certificate[0])
	if err != nil {
		return time.Time{}
	}
	return first.NotAfter
}

// lastError returns what the library says went wrong last. While the library dials, that is what it said before.
func (n *NATS) lastError() error {
	connection := n.current.Load()
	if connection == nil {
		return nil
	}
	said := make(chan struct{})
	go func() {
		defer close(said)
		why := connection.LastError()
		n.why.Store(&why)
	}()
	select {
	case <-said:
	case <-time.After(aMoment):
	}
	if why := n.why.Load(); why != nil {
		return *why
	}
	return nil
}

// Why returns why there is no connection, as far as it is known.
func (n *NATS) Why() error {
	why := n.lastError()
	if dialed := n.dialed.Load(); why == nil && dialed != nil {
		why = *dialed
	}
	return why
}

// ErrRefused is returned if a server lets no connection of a user in, or lets it listen to no mailbox of its own: it is a wrong user, or
// has a wrong password, or may not do what it tries.
var ErrRefused = errors.New("the server of NATS refuses the user")

// Refusal returns ErrRefused, and what the server said, if the one that was tried last refuses the user. It returns nil if none did so far.
func (n *NATS) Refusal() error {
	why := n.refusals.ofMailbox()
	if why == nil && !n.Connected() {
		why = ofUser(n.lastError())
	}
	if why == nil {
		return nil
	}
	return fmt.Errorf("%w: %v", ErrRefused, why)
}

// ofUser returns an error if it says that the server does not let the user in, and else nil.
func ofUser(err error) error {
	for _, refused := range []error{nats.ErrAuthorization, nats.ErrAuthExpired, nats.ErrAuthRevoked, nats.ErrAccountAuthExpired} {
		if errors.Is(err, refused) {
			return err
		}
	}
	return nil
}

// explained is an error, and the refusal that is why. errors.Is finds both.
type explained struct{ what, why error }

func (e explained) Error() string        { return fmt.Sprintf("%v: %v", e.what, e.why) }
func (e explained) Is(target error) bool { return errors.Is(e.why, target) }
func (e explained) Unwrap() error        { return e.what }

// errSilent is why there is no connection if nothing else is known.
var errSilent = errors.New("none said a word so far")

// Explain returns an error, with why there is no connection if there is none, or why the server refuses the user: then errors.Is finds
// ErrRefused, too.
func (n *NATS) Explain(err error) error {
	if err == nil {
		return nil
	}
	if refusal := n.Refusal(); refusal != nil {
		return explained{err, refusal}
	}
	if n.Connected() {
		return err
	}
	why := n.Why()
	if why == nil {
		why = errSilent
	}
	return fmt.Errorf("%w: no server of NATS is there: %v", err, why)
}

// Listen returns the messages that come to a mailbox. What finds no room is dropped, and counted: a
// reminder repeats it.
func (n *NATS) Listen(subject string) (<-chan Message, error) {
	box := &mailbox{subject: subject, messages: make(chan Message, next), left: make(chan struct{}), room: newRoom()}
	takes := func(m *nats.Msg) {
		if one := (Message{m.Subject, m.Data}); !box.room.put(one) {
			n.drops.Add(one.Sender())
		}
	}
	go n.handOut(box)
	n.mutex.Lock()
	n.mailboxes = append(n.mailboxes, box)
	n.mutex.Unlock()
	n.subscribes(&box.subscription, func(connection *nats.Conn) (*nats.Subscription, error) {
		subscription, err := connection.Subscribe(subject, takes)
		if err == nil {
			err = subscription.SetPendingLimits(Room, RoomBytes)
		}
		return subscription, err
	})
	return box.messages, nil
}

// handOut hands out what comes to a mailbox, until nobody reads it any more.
func (n *NATS) handOut(box *mailbox) {
	out := handed{to: box.messages, sizes: make([]int, next+1)}
	for {
		m, isThere := box.room.take()
		for isThere && !out.hasRoom(len(m.Data)) {
			select {
			case <-time.After(time.Millisecond): // the others wait in their room
			case <-box.left:
				return
			case <-n.closed:
				return
			}
		}
		to, came := box.messages, box.room.came
		if isThere {
			came = nil
		} else {
			to = nil
		}
		select {
		case to <- m:
			out.note(len(m.Data))
		case <-came:
		case <-box.left:
			return
		case <-n.closed:
			return
		}
	}
}

// Pass hands what comes to a mailbox to a function. All these mailboxes have one goroutine, and room for so many messages together.
func (n *NATS) Pass(subject string, to func(Message)) error {
	n.forget(subject)
	box, came := &passed{to: to}, n.passes()
	n.mutex.Lock()
	n.passed[subject] = box
	n.mutex.Unlock()
	n.subscribes(&box.subscription, func(connection *nats.Conn) (*nats.Subscription, error) {
		return connection.ChanSubscribe(subject, came)
	})
	return nil
}

// subscribes lets the library take what comes to a mailbox, behind what was said before.
func (n *NATS) subscribes(to **nats.Subscription, subscribe func(*nats.Conn) (*nats.Subscription, error)) {
	n.out.does(func(connection *nats.Conn) {
		subscription, err := subscribe(connection)
		if err != nil {
			n.refusals.handle(connection, nil, err)
		}
		n.mutex.Lock()
		defer n.mutex.Unlock()
		*to = subscription
	})
}

// unsubscribes ends what subscribes began.
func (n *NATS) unsubscribes(of **nats.Subscription) {
	n.out.does(func(*nats.Conn) {
		n.mutex.Lock()
		subscription := *of
		n.mutex.Unlock()
		_ = subscription.Unsubscribe()
	})
}

// passes returns where all comes that functions take.
func (n *NATS) passes() chan *nats.Msg {
	n.mutex.Lock()
	defer n.mutex.Unlock()
	if n.came == nil {
		n.came = make(chan *nats.Msg, next)
		go n.pass()
	}
	return n.came
}

// pass hands what comes to the functions that take it, until the connection is closed.
func (n *NATS) pass() {
	for {
		select {
		case m := <-n.came:
			n.mutex.Lock()
			box, isThere := n.passed[m.Sub.Subject]
			n.mutex.Unlock()
			if isThere {
				box.to(Message{m.Subject, m.Data})
			}
		case <-n.closed:
			return
		}
	}
}

// forget ends a mailbox of which a function takes all, if there is one, and keeps what it counted.
func (n *NATS) forget(subject string) {
	n.mutex.Lock()
	defer n.mutex.Unlock()
	if box, isThere := n.passed[subject]; isThere {
		n.lost += dropped(box.subscription)
		delete(n.passed, subject)
		n.unsubscribes(&box.subscription)
	}
}

// dropped returns how many messages of a subscription found no room.
func dropped(subscription *nats.Subscription) uint64 {
	count, err := subscription.Dropped()
	if err != nil {
		return 0
	}
	return uint64(count)
}

// handed counts the bytes of the messages that were handed out, and not read yet.
type handed struct {
	to          chan<- Message
	sizes       []int // of the last ones: one more than may be handed out
	count, read int
	bytes       int
}

// hasRoom returns whether a message of this size may be handed out. One alone may have any size.
func (h *handed) hasRoom(size int) bool {
	for ; h.count-h.read > len(h.to); h.read++ {
		h.bytes -= h.sizes[h.read%len(h.sizes)]
	}
	return h.bytes == 0 || h.bytes+size <= nextBytes
}

// note notes that a message was handed out.
func (h *handed) note(size int) {
	h.sizes[h.count%len(h.sizes)] = size
	h.bytes += size
	h.count++
}

// Leave ends what Listen or Pass began.
func (n *NATS) Leave(subject string) {
	n.forget(subject)
	n.mutex.Lock()
	defer n.mutex.Unlock()
	kept := n.mailboxes[:0]
	for _, box := range n.mailboxes {
		if box.subject != subject {
			kept = append(kept, box)
			continue
		}
		n.lost += dropped(box.subscription)
		n.unsubscribes(&box.subscription)
		close(box.left)
	}
	for i := len(kept); i < len(n.mailboxes); i++ {
		n.mailboxes[i] = nil
	}
	n.mailboxes = kept
}

// Waiting returns how many messages wait.
func (n *NATS) Waiting() (count int) {
	n.mutex.Lock()
	defer n.mutex.Unlock()
	count = len(n.came)
	for _, box := range n.mailboxes {
		count += len(box.messages) + box.room.count()
		if pending, _, err := box.subscription.Pending(); err == nil {
			count += pending
		}
	}
	return count
}

// Dropped returns how many messages found no room.
func (n *NATS) Dropped() (count uint64) {
	n.mutex.Lock()
	defer n.mutex.Unlock()
	count = n.lost + n.drops.Load()
	for _, box := range n.mailboxes {
		count += dropped(box.subscription)
	}
	for _, box := range n.passed {
		count += dropped(box.subscription)
	}
	return count
}

// Drops counts, by their senders, the messages of which a sender had too many.
func (n *NATS) Drops() *Drops { return &n.drops }

// Connected returns whether there is a connection.
func (n *NATS) Connected() bool { return n.link.Load() == isUp }

// Returns returns how often the connection came back. A first one that came late counts too. An attempt that a server
// refused does not; only the statistics of nats.Conn count it.
func (n *NATS) Returns() uint64 { return n.returns.Load() }

// Close sends what was given to Send, if that takes less than a second, and ends the connection.
func (n *NATS) Close() {
	n.closing.Do(func() { close(n.closed) })
	select {
	case <-n.ended:
	case <-time.After(mostLate):
	}
}
