// Package bounded answers HTTP within bounds: who sends nothing, reads nothing, or connects again and again takes neither all files of a
// process nor all connections.
package bounded

import (
	"errors"
	"io"
	"log"
	"net"
	"net/http"
	"sync"
	"syscall"
	"time"
)

// Brief is how long a client may take to send a request, and how long it may keep a connection without one.
const Brief = 5 * time.Second

// What an address has that shows numbers: how long a reply may take, and how many connections there may be.
const (
	longestReply = 10 * time.Second
	MostShown    = 16
)

// Server returns a server of replies of any length. What a client does wrong is not logged. The time of a request's body is the handler's
// matter: with a time for a whole request package http would end a reply that takes longer.
func Server(handler http.Handler) *http.Server {
	return &http.Server{Handler: handler, ReadHeaderTimeout: Brief, IdleTimeout: Brief, MaxHeaderBytes: 1 << 14, ErrorLog: log.New(io.Discard, "", 0)}
}

// Shows returns a server of short replies to requests without a body: who sends or reads slowly keeps no connection.
func Shows(handler http.Handler) *http.Server {
	server := Server(handler)
	server.ReadTimeout, server.WriteTimeout = Brief, longestReply
	return server
}

// Connections counts those that there are. The zero value has none.
type Connections struct {
	mutex sync.Mutex
	all   int64
	of    map[int]int64 // by users, if there are any
}

// Load returns how many there are.
func (c *Connections) Load() int64 {
	c.mutex.Lock()
	defer c.mutex.Unlock()
	return c.all
}

// ofOne is how many times as many connections one user may have as are left.
const ofOne = 3

// begin notes a connection of a user, and returns false if it is one too many, of all or of the user's.
func (c *Connections) begin(user int, most int64) bool {
	c.mutex.Lock()
	defer c.mutex.Unlock()
	if left := most - c.all; most > 0 && (left <= 0 || user != Nobody && c.of[user] >= ofOne*left) {
		return false
	}
	if c.of == nil {
		c.of = map[int]int64{}
	}
	c.all++
	c.of[user]++
	return true
}

func (c *Connections) end(user int) {
	c.mutex.Lock()
	defer c.mutex.Unlock()
	c.all--
	if c.of[user]--; c.of[user] == 0 {
		delete(c.of, user)
	}
}

// Nobody is the user of a connection of which nothing says whose it is.
const Nobody = -1

// Listener ends connections that are too many as soon as they come: who is there stays.
type Listener struct {
	net.Listener
	Most    int64 // any number if 0
	Now     *Connections
	UserOf  func(net.Conn) int // whose a connection is, or Nobody; nil if they are nobody's
	Refused func()             // called for each that is ended, unless it is nil
}

// Accept returns the next connection that is not one too many.
func (l Listener) Accept() (net.Conn, error) {
	for {
		one, err := l.Listener.Accept()
		if err != nil {
			return nil, err
		}
		user := Nobody
		if l.UserOf != nil {
			user = l.UserOf(one)
		}
		if l.Now.begin(user, l.Most) {
			return &connection{Conn: one, ends: func() { l.Now.end(user) }}, nil
		}
		if l.Refused != nil {
			l.Refused()
		}
		_ = one.Close()
	}
}

// connection says once that it ends.
type connection struct {
	net.Conn
	once sync.Once
	ends func()
}

// Close ends it.
func (c *connection) Close() error {
	defer c.once.Do(c.ends)
	return c.Conn.Close()
}

// SyscallConn returns its file, for what the kernel knows of it.
func (c *connection) SyscallConn() (syscall.RawConn, error) {
	if file, is := c.Conn.(syscall.Conn); is {
		return file.SyscallConn()
	}
	return nil, errors.New("bounded: a connection without a file")
}

// CloseWrite ends one half of it. Package http does so before it leaves a client with an unread body.
func (c *connection) CloseWrite() error {
	if half, is := c.Conn.(interface{ CloseWrite() error }); is {
		return half.CloseWrite()
	}
	return nil
}
