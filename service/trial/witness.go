package main

import (
	"bufio"
	"errors"
	"fmt"
	"io"
	"net"
	"os"
	"strings"
	"sync"
	"time"

	"calvundek.example/service/internal/boot"
)

// errHistory is returned for a file that is no history.
var errHistory = errors.New("the history can't be read")

// witness hears workers over a socket, and lets the judge judge what they and the trial say. It is outside of the workers'
// processes. What it took it can keep, so that it can be judged again.
type witness struct {
	mutex    sync.Mutex
	listener net.Listener
	judge    *judge
	history  *bufio.Writer // nil to keep none
	file     io.Closer
}

// newWitness returns a witness that listens at a path, and keeps a history in a file, "" for none.
func newWitness(path string, ttl time.Duration, open bool, history string) (*witness, error) {
	w := &witness{judge: newJudge(ttl, open)}
	if history != "" {
		file, err := os.Create(history)
		if err != nil {
			return nil, err
		}
		w.history, w.file = bufio.NewWriter(file), file
		fmt.Fprintf(w.history, "ttl %d open %v\n", ttl.Microseconds(), open)
	}
	var err error
	if w.listener, err = net.Listen("unix", path); err != nil {
		return nil, err
	}
	go func() {
		for {
			c, err := w.listener.Accept()
			if err != nil {
				return
			}
			go w.serve(c)
		}
	}()
	return w, nil
}

// serve talks with one worker, which says its name first.
func (w *witness) serve(c net.Conn) {
	defer c.Close()
	in, name := bufio.NewScanner(c), ""
	for in.Scan() {
		words := strings.Fields(in.Text())
		if words[0] == "name" {
			name = words[1]
			words = append(words[:1], words[2:]...)
		}
		if _, err := fmt.Fprintln(c, w.take(name, words)); err != nil {
			break
		}
	}
	w.take(name, []string{"bye"})
}

// take takes a line, and returns the reply.
func (w *witness) take(who string, words []string) string {
	w.mutex.Lock()
	defer w.mutex.Unlock()
	at := boot.Uptime().Truncate(time.Microsecond)
	if w.history != nil {
		fmt.Fprintln(w.history, at.Microseconds(), who, strings.Join(words, " "))
	}
	return w.judge.take(at, who, words)
}

// note notes what the trial does, or sees.
func (w *witness) note(words ...interface{}) { w.take("-", strings.Fields(fmt.Sprintln(words...))) }

// judgeHistory judges a history again.
func judgeHistory(path string) (f findings, err error) {
	file, err := os.Open(path)
	if err != nil {
		return f, err
	}
	defer file.Close()
	in, ttl, open, at := bufio.NewScanner(file), int64(0), false, time.Duration(0)
	if !in.Scan() {
		return f, errHistory
	}
	if _, err := fmt.Sscanf(in.Text(), "ttl %d open %t", &ttl, &open); err != nil {
		return f, fmt.Errorf("%w: %v", errHistory, err)
	}
	j := newJudge(time.Duration(ttl)*time.Microsecond, open)
	for in.Scan() {
		words := strings.Fields(in.Text())
		if len(words) < 3 {
			return f, fmt.Errorf("%w: %q", errHistory, in.Text())
		}
		at = number(words[0])
		j.take(at, words[1], words[2:])
	}
	return j.finish(at), in.Err()
}

// isInside returns whether a worker of a process is inside somewhere.
func (w *witness) isInside(process string) bool {
	return w.find(func(p *pass) bool { return p.who.process == process }) != nil
}

// busy returns a place in which somebody is, "" if there is none.
func (w *witness) busy() string {
	if p := w.find(func(*pass) bool { return true }); p != nil {
		return p.place.name
	}
	return ""
}

// find returns one of some that are inside, nil if there is none.
func (w *witness) find(which func(p *pass) bool) *pass {
	w.mutex.Lock()
	defer w.mutex.Unlock()
	for _, one := range w.judge.workers {
		for _, p := range one.passes {
			if p.isInside() && which(p) {
				return p
			}
		}
	}
	return nil
}

// look returns what was found so far.
func (w *witness) look() findings {
	w.mutex.Lock()
	defer w.mutex.Unlock()
	f := w.judge.found
	f.Faults = map[string]int{}
	for name, count := range w.judge.found.Faults {
		f.Faults[name] = count
	}
	return f
}

// end returns what was found.
func (w *witness) end() findings {
	w.listener.Close()
	w.mutex.Lock()
	defer w.mutex.Unlock()
	if w.history != nil {
		_ = w.history.Flush()
		_ = w.file.Close()
		w.history = nil
	}
	return w.judge.finish(boot.Uptime())
}
