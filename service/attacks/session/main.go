// Command session is a session that obeys the lines of its input, for the attacks beside it:
//
//	lock NAME WAIT       held NAME PASS, or failed NAME WHY
//	unlock NAME          unlocked NAME, or failed NAME WHY
//	many PREFIX COUNT    takes locks PREFIX-0 .. and gives them back; many COUNT failed N WHY
//	take PREFIX COUNT    takes locks PREFIX-0 .. and keeps them; taken COUNT failed N WHY
//	close                closed WHY
//
// It says "open NUMBER" first, and "lost NAME" when a lock may be lost that it has. With -ports it prints ports that nobody uses, and
// keeps others from them until its input ends.
package main

import (
	"bufio"
	"context"
	"encoding/hex"
	"flag"
	"fmt"
	"io"
	"os"
	"strconv"
	"strings"
	"sync"
	"time"

	"calvundek.example/service/internal/local"
	"calvundek.example/service/locks"
)

// each is how many locks are taken beside each other, and patience how long each call of a crowd
// waits.
const (
	each     = 64
	patience = 8 * time.Second
)

// session is a client and the locks that it has.
type session struct {
	*locks.Client
	mutex sync.Mutex
	held  map[string]*locks.Held
}

func main() {
	var c locks.Config
	flag.StringVar(&c.Cluster, "c", "", "the cluster's file")
	flag.StringVar(&c.Seed, "seed", "", "the file of the seed")
	flag.StringVar(&c.User, "user", "", "the user")
	flag.StringVar(&c.Cert, "cert", "", "the file of the certificate")
	flag.StringVar(&c.Key, "key", "", "the file of its key")
	ports := flag.Bool("ports", false, "print ports that nobody uses, and keep them")
	flag.Parse()
	if *ports {
		free, err := local.FreePorts(local.BlockSize - 1)
		if err != nil {
			fmt.Fprintln(os.Stderr, "session:", err)
			os.Exit(1)
		}
		fmt.Println(strings.Trim(fmt.Sprint(free), "[]"))
		_, _ = io.Copy(io.Discard, os.Stdin)
		return
	}
	ctx, cancel := context.WithTimeout(context.Background(), 20*time.Second)
	client, err := locks.Open(ctx, c)
	cancel()
	if err != nil {
		fmt.Println("failed open", err)
		os.Exit(1)
	}
	s := &session{Client: client, held: map[string]*locks.Held{}}
	s.say("open %d", client.Number())
	for in := bufio.NewScanner(os.Stdin); in.Scan(); {
		if s.obey(strings.Fields(in.Text())) {
			return
		}
	}
}

func (s *session) say(format string, words ...interface{}) {
	s.mutex.Lock()
	defer s.mutex.Unlock()
	fmt.Printf(format+"\n", words...)
}

// obey obeys the words of a line, and returns whether it was the last one.
func (s *session) obey(words []string) bool {
	switch {
	case len(words) == 3 && words[0] == "lock":
		wait, _ := time.ParseDuration(words[2])
		if pass, err := s.take(words[1], wait); err != nil {
			s.say("failed %s %v", words[1], err)
		} else {
			s.say("held %s %s", words[1], pass)
		}
	case len(words) == 2 && words[0] == "unlock":
		if err := s.give(words[1]); err != nil {
			s.say("failed %s %v", words[1], err)
		} else {
			s.say("unlocked %s", words[1])
		}
	case len(words) == 3 && words[0] == "many":
		s.say("many %s failed %s", words[2], s.crowd(words[1], words[2], true))
	case len(words) == 3 && words[0] == "take":
		s.say("taken %s failed %s", words[2], s.crowd(words[1], words[2], false))
	case len(words) == 1 && words[0] == "close":
		ctx, cancel := context.WithTimeout(context.Background(), 5*time.Second)
		defer cancel()
		s.say("closed %v", s.Close(ctx))
		return true
	}
	return false
}

// take takes a lock, and returns its pass.
func (s *session) take(name string, wait time.Duration) (string, error) {
	ctx, cancel := context.WithTimeout(context.Background(), wait)
	defer cancel()
	h, err := s.Lock(ctx, name)
	if err != nil {
		return "", err
	}
	s.mutex.Lock()
	s.held[name] = h
	s.mutex.Unlock()
	go func() {
		<-h.Lost()
		s.mutex.Lock()
		has := s.held[name] == h
		s.mutex.Unlock()
		if has {
			s.say("lost %s", name)
		}
	}()
	return hex.EncodeToString(h.Token()), nil
}

// give gives a lock back.
func (s *session) give(name string) error {
	s.mutex.Lock()
	h := s.held[name]
	delete(s.held, name)
	s.mutex.Unlock()
	if h == nil {
		return locks.ErrNotHeld
	}
	return h.Unlock()
}

// crowd takes many locks, and gives them back or keeps them. It returns how many it did not get,
// and why.
func (s *session) crowd(prefix, count string, back bool) string {
	n, _ := strconv.Atoi(count)
	failed, why := 0, error(nil)
	var mutex sync.Mutex
	var group sync.WaitGroup
	for first := 0; first < each; first++ {
		group.Add(1)
		go func(first int) {
			defer group.Done()
			for i := first; i < n; i += each {
				name := fmt.Sprintf("%s-%d", prefix, i)
				_, err := s.take(name, patience)
				if err == nil && back {
					err = s.give(name)
				}
				if err != nil {
					mutex.Lock()
					failed, why = failed+1, err
					mutex.Unlock()
				}
			}
		}(first)
	}
	group.Wait()
	return fmt.Sprintf("%d %v", failed, why)
}
