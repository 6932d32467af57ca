// Package unit tells systemd how a program of its units does.
package unit

import (
	"fmt"
	"net"
	"os"
	"strconv"
	"time"
)

// Notify tells systemd that the program has started, and then, as often as its unit wants it, that
// its loop goes round. Without a unit it does nothing.
func Notify(isLively func(within time.Duration) bool, ended <-chan struct{}) error {
	socket := os.Getenv("NOTIFY_SOCKET")
	if socket == "" {
		return nil
	}
	connection, err := net.Dial("unixgram", socket)
	if err != nil {
		return fmt.Errorf("systemd: %w", err)
	}
	if _, err := connection.Write([]byte("READY=1")); err != nil {
		return fmt.Errorf("systemd: %w", err)
	}
	micros, err := strconv.Atoi(os.Getenv("WATCHDOG_USEC"))
	if err != nil || micros <= 0 {
		return connection.Close()
	}
	go watch(connection, time.Duration(micros)*time.Microsecond, isLively, ended)
	return nil
}

// watch says that the loop goes round, thrice in the time after which systemd ends a process that
// does not.
func watch(connection net.Conn, most time.Duration, isLively func(within time.Duration) bool, ended <-chan struct{}) {
	defer connection.Close()
	ticker := time.NewTicker(most / 3)
	defer ticker.Stop()
	for {
		select {
		case <-ended:
			return
		case <-ticker.C:
			if isLively(most / 2) {
				_, _ = connection.Write([]byte("WATCHDOG=1"))
			}
		}
	}
}
