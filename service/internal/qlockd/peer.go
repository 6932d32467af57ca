package qlockd

import (
	"context"
	"errors"
	"net"
	"os"
	"os/user"
	"strconv"
	"strings"
	"sync"
	"syscall"
	"time"

	"calvundek.example/service/internal/bounded"
	"golang.org/x/sys/unix"
)

// peer is the process at the other end of a connection, as the kernel names it: who made the connection.
type peer struct {
	Pid     int    `json:"pid,omitempty"` // 0 if it is in another namespace of processes
	UID     int    `json:"uid"`
	User    string `json:"user,omitempty"`
	Command string `json:"command,omitempty"`
}

// nobody is the user of a connection of which the kernel says nothing.
const nobody = bounded.Nobody

// login returns the user's name, or else its number.
func (p peer) login() string {
	if p.User == "" {
		return strconv.Itoa(p.UID)
	}
	return p.User
}

// caller is who made a connection. That is looked up with the first call that asks for it, as it may take time.
type caller struct {
	connection net.Conn
	once       sync.Once
	peer       peer
}

type callerKey struct{}

// withCaller puts who made a connection into its context.
func withCaller(ctx context.Context, connection net.Conn) context.Context {
	return context.WithValue(ctx, callerKey{}, &caller{connection: connection})
}

// peerIn returns the process at the other end of the connection of a context.
func peerIn(ctx context.Context) peer {
	c, is := ctx.Value(callerKey{}).(*caller)
	if !is {
		return peer{UID: nobody}
	}
	c.once.Do(func() { c.peer = peerOf(c.connection) })
	return c.peer
}

// control calls a function with the file of a connection, if it has one.
func control(connection net.Conn, f func(file int)) {
	socket, is := connection.(syscall.Conn)
	if !is {
		return
	}
	if raw, err := socket.SyscallConn(); err == nil {
		_ = raw.Control(func(file uintptr) { f(int(file)) })
	}
}

// whose returns the process and the user at the other end of a connection, 0 and nobody if the kernel does not say.
func whose(connection net.Conn) (pid, uid int) {
	uid = nobody
	control(connection, func(file int) {
		if said, err := unix.GetsockoptUcred(file, unix.SOL_SOCKET, unix.SO_PEERCRED); err == nil {
			pid, uid = int(said.Pid), int(said.Uid)
		}
	})
	return pid, uid
}

// userOf returns the user at the other end of a connection.
func userOf(connection net.Conn) int {
	_, uid := whose(connection)
	return uid
}

// peerOf returns the process at the other end of a connection.
func peerOf(connection net.Conn) (p peer) {
	p.Pid, p.UID = whose(connection)
	p.User = nameOf(p.UID)
	if command, err := os.ReadFile("/proc/" + strconv.Itoa(p.Pid) + "/comm"); p.Pid > 0 && err == nil {
		p.Command = strings.TrimSpace(string(command))
	}
	return p
}

// look is how often the kernel is asked whether a connection has ended.
const look = time.Second

// attend returns a context that ends with the connection of another one, or half of it. That context does so at once, but
// not any more once a byte came behind the request: package http looks no further. So the kernel is asked, too.
func attend(parent context.Context) (context.Context, context.CancelFunc) {
	ctx, cancel := context.WithCancel(parent)
	c, is := parent.Value(callerKey{}).(*caller)
	if !is {
		return ctx, cancel
	}
	go func() {
		ticker := time.NewTicker(look)
		defer ticker.Stop()
		for {
			select {
			case <-ctx.Done():
				return
			case <-ticker.C:
				if events(c.connection, unix.POLLRDHUP|unix.POLLHUP|unix.POLLERR) {
					cancel()
				}
			}
		}
	}()
	return ctx, cancel
}

// events returns whether one of some events came to a connection: POLLRDHUP if the other end shut half of it down, POLLHUP if it closed it.
func events(connection net.Conn, some int16) (came bool) {
	control(connection, func(file int) {
		asked := []unix.PollFd{{Fd: int32(file), Events: unix.POLLRDHUP}}
		if _, err := unix.Poll(asked, 0); err == nil {
			came = asked[0].Revents&some != 0
		}
	})
	return came
}

// lookUp returns a user by its number.
var lookUp = user.LookupId

// names are the names of users that were looked up.
var names sync.Map

// nameOf returns the name of a user, "" if there is none. A name that was not to be had just now is looked up again.
func nameOf(uid int) string {
	if name, found := names.Load(uid); found {
		return name.(string)
	}
	name, nobody := "", user.UnknownUserIdError(0)
	if found, err := lookUp(strconv.Itoa(uid)); err == nil {
		name = found.Username
	} else if !errors.As(err, &nobody) {
		return ""
	}
	names.Store(uid, name)
	return name
}
