package qlockd

import (
	"errors"
	"fmt"
	"net"
	"os"
	"os/user"
	"strconv"
	"syscall"

	"calvundek.example/service/internal/config"
)

// ErrInUse is returned if another agent has the socket.
var ErrInUse = errors.New("another agent has the socket")

// socket is where an agent listens. Its lock keeps other agents away, also while they start.
type socket struct {
	*net.UnixListener
	lock *os.File
}

// Close removes the socket, and lets others have it.
func (s *socket) Close() error {
	defer s.lock.Close()
	return s.UnixListener.Close()
}

// Listen makes the socket. Its own user and root may connect, and who is in the group, if one is named. It takes the place
// of a socket that nobody listens to any more. A file beside it, which stays, has the lock.
func Listen(path, group string) (net.Listener, error) {
	number := -1
	if group != "" {
		found, err := user.LookupGroup(group)
		if err != nil {
			return nil, fmt.Errorf("%w: group: %v", config.ErrConfig, err)
		}
		if number, err = strconv.Atoi(found.Gid); err != nil {
			return nil, fmt.Errorf("%w: group: %v", config.ErrConfig, err)
		}
	}
	lock, err := lockOf(path)
	if err != nil {
		return nil, err
	}
	listener, err := listen(path, number)
	if err != nil {
		_ = lock.Close()
		return nil, err
	}
	return &socket{listener, lock}, nil
}

// lockOf takes the lock of a socket.
func lockOf(path string) (*os.File, error) {
	lock, err := os.OpenFile(path+".lock", os.O_RDWR|os.O_CREATE, 0o600)
	if err != nil {
		return nil, err
	}
	if err = syscall.Flock(int(lock.Fd()), syscall.LOCK_EX|syscall.LOCK_NB); errors.Is(err, syscall.EWOULDBLOCK) {
		err = fmt.Errorf("%w: %s", ErrInUse, path)
	}
	if err != nil {
		_ = lock.Close()
		return nil, err
	}
	return lock, nil
}

// listen makes a socket for a group, or for none if its number is below 0.
func listen(path string, group int) (*net.UnixListener, error) {
	if err := removeStale(path); err != nil {
		return nil, err
	}
	mask := syscall.Umask(0o177) // until it has its group
	listener, err := net.ListenUnix("unix", &net.UnixAddr{Name: path, Net: "unix"})
	syscall.Umask(mask)
	if err != nil || group < 0 {
		return listener, err
	}
	if err = os.Chown(path, -1, group); err == nil {
		err = os.Chmod(path, 0o660)
	}
	if err != nil {
		_ = listener.Close()
		return nil, err
	}
	return listener, nil
}

// removeStale removes a socket that an agent left behind. It fails if one listens there, or it is no socket.
func removeStale(path string) error {
	info, err := os.Lstat(path)
	if errors.Is(err, os.ErrNotExist) {
		return nil
	} else if err != nil {
		return err
	}
	if info.Mode()&os.ModeSocket == 0 {
		return fmt.Errorf("%w: %s is there, and is no socket", config.ErrConfig, path)
	}
	if connection, err := net.Dial("unix", path); err == nil {
		_ = connection.Close()
		return fmt.Errorf("%w: %s", ErrInUse, path)
	} else if !errors.Is(err, syscall.ECONNREFUSED) {
		return err
	}
	return os.Remove(path)
}
