package main

import (
	"bufio"
	"context"
	"encoding/json"
	"errors"
	"fmt"
	"math/rand"
	"net"
	"os"
	"path/filepath"
	"sort"
	"strings"
	"sync"
	"time"

	"calvundek.example/service/agent"
	"calvundek.example/service/internal/boot"
	"calvundek.example/service/internal/config"
	"calvundek.example/service/locks"
	"calvundek.example/service/transport"
)

// noise is a transport that loses, repeats and delays messages of a client, in both directions.
type noise struct {
	transport.Transport
	percent int
}

func (n noise) Send(mailbox string, message []byte) error {
	if rand.Intn(100) < n.percent {
		return nil
	}
	if rand.Intn(100) < n.percent {
		again := append([]byte(nil), message...)
		time.AfterFunc(time.Duration(rand.Intn(100))*time.Millisecond, func() { _ = n.Transport.Send(mailbox, again) })
	}
	return n.Transport.Send(mailbox, message)
}

func (n noise) Listen(mailbox string) (<-chan transport.Message, error) {
	clean, err := n.Transport.Listen(mailbox)
	if err != nil {
		return nil, err
	}
	noisy := make(chan transport.Message, transport.Room)
	go func() {
		for message := range clean {
			if rand.Intn(100) < n.percent {
				continue
			}
			noisy <- message
			if rand.Intn(100) < n.percent {
				noisy <- message
			}
		}
	}()
	return noisy, nil
}

// Pass is Listen for the mailboxes of sessions of shards.
func (n noise) Pass(mailbox string, to func(transport.Message)) error {
	_, err := transport.Pass(n.Transport, mailbox, func(message transport.Message) {
		if rand.Intn(100) < n.percent {
			return
		}
		to(message)
		if rand.Intn(100) < n.percent {
			to(message)
		}
	})
	return err
}

func (n noise) Leave(mailbox string) { transport.Leave(n.Transport, mailbox) }

// mouth talks with the witness. Several goroutines use it.
type mouth struct {
	mutex sync.Mutex
	out   net.Conn
	in    *bufio.Reader
}

func (m *mouth) say(words ...interface{}) string {
	m.mutex.Lock()
	defer m.mutex.Unlock()
	if _, err := fmt.Fprintln(m.out, words...); err != nil {
		os.Exit(0) // the trial is over
	}
	reply, err := m.in.ReadString('\n')
	if err != nil {
		os.Exit(0)
	}
	return strings.TrimSpace(reply)
}

// habits are how a worker passes through the locks.
type habits struct {
	Kind, Name              string
	Cluster, Witness, Agent string // the cluster's file, the sockets of the witness and of the agent
	Bin                     string // the folder of the programs
	Places, Each            int    // how many locks there are, and how many goroutines pass through them
	Noise, Stays            int    // how many of 100 messages are lost or repeated, and how many of 1000 passes stay inside
	TTL                     time.Duration
}

// work passes through the locks again and again, in several goroutines, until it is killed.
func work(text string) error {
	rand.Seed(time.Now().UnixNano() + int64(os.Getpid()))
	var h habits
	if err := json.Unmarshal([]byte(text), &h); err != nil {
		return err
	}
	var mouths []*mouth
	for i := 0; i < h.Each; i++ {
		c, err := net.Dial("unix", h.Witness)
		if err != nil {
			return err
		}
		m := &mouth{out: c, in: bufio.NewReader(c)}
		by := ""
		if h.Agent != "" {
			by = filepath.Base(h.Agent)
		}
		m.say("name", fmt.Sprintf("%s-%d/%d", h.Name, os.Getpid(), i), by)
		mouths = append(mouths, m)
	}
	if h.Kind == "locks" {
		for {
			h.complain(h.live(mouths))
		}
	}
	for _, m := range mouths {
		go func(m *mouth) {
			for {
				h.complain(h.once(m))
			}
		}(m)
	}
	select {}
}

// complain writes why a pass failed, and waits a moment.
func (h habits) complain(err error) {
	if err != nil {
		fmt.Fprintln(os.Stderr, h.Name, err)
		time.Sleep(time.Duration(rand.Intn(100)) * time.Millisecond)
	}
}

// once makes one pass, or a session with some.
func (h habits) once(m *mouth) error {
	switch h.Kind {
	case "brief":
		return h.brief(m)
	case "by-agent":
		return h.pass(m, byAgent(h.Agent))
	case "curl":
		return h.pass(m, byCurl(h.Agent))
	}
	time.Sleep(time.Duration(rand.Intn(300)) * time.Millisecond) // a run costs much
	return h.pass(m, h.byRun)
}

// open opens a session. The function that it returns ends its connection, and may be called again.
func (h habits) open(noisy int, mouths ...*mouth) (*locks.Client, func(), error) {
	cluster, err := config.ReadCluster(h.Cluster)
	if err != nil {
		return nil, nil, err
	}
	link, err := transport.Connect(cluster, config.Access{}, "worker")
	if err != nil {
		return nil, nil, err
	}
	ctx, cancel := context.WithTimeout(context.Background(), 20*time.Second)
	defer cancel()
	for _, m := range mouths {
		m.say("wait")
	}
	client, err := locks.Open(ctx, locks.Config{Cluster: h.Cluster, Transport: noise{link, noisy}})
	for _, m := range mouths {
		m.say("session")
	}
	if err != nil {
		link.Close()
		return nil, nil, err
	}
	var once sync.Once
	return client, func() { once.Do(link.Close) }, nil
}

// live is one session, until it is over.
func (h habits) live(mouths []*mouth) error {
	client, end, err := h.open(h.Noise, mouths...)
	if err != nil {
		return err
	}
	defer end()
	defer closeSoon(client)
	var all sync.WaitGroup
	for _, m := range mouths {
		all.Add(1)
		go func(m *mouth) {
			defer all.Done()
			for client.Err() == nil {
				h.complain(h.pass(m, byLocks(client)))
			}
		}(m)
	}
	all.Wait()
	return client.Err()
}

func closeSoon(client *locks.Client) {
	brief, cancel := context.WithTimeout(context.Background(), time.Second)
	defer cancel()
	_ = client.Close(brief)
}

// brief is a session that takes one to four locks, and is closed, or dies while it has them.
func (h habits) brief(m *mouth) error {
	client, end, err := h.open(0, m)
	if err != nil {
		return err
	}
	defer end()
	names := map[string]bool{}
	for n := 1 + rand.Intn(4); n > 0; n-- {
		name := choosePlace(h.Places)
		if rand.Intn(10) > 0 { // a lock of which a holder dies is nobody's for a TTL
			name = fmt.Sprintf("seldom-%d", rand.Intn(10*h.Places))
		}
		names[name] = true
	}
	var sorted []string // else two could wait for one another
	for name := range names {
		sorted = append(sorted, name)
	}
	sort.Strings(sorted)
	var all []*visit
	for _, name := range sorted {
		v, failed := h.enter(m, byLocks(client), call{lock: name, wait: h.TTL})
		if err = failed; v == nil {
			break
		}
		v.write()
		all = append(all, v)
	}
	if rand.Intn(2) == 0 {
		end()
		for _, v := range all {
			v.die()
		}
		all = nil
	}
	for _, v := range all {
		if failed := v.leave(); err == nil {
			err = failed
		}
	}
	closeSoon(client)
	time.Sleep(time.Duration(rand.Intn(500)) * time.Millisecond) // the dead have numbers for a while
	return err
}

// choosePlace chooses one of a few places, or sometimes one that is used seldom, or a new one.
func choosePlace(places int) string {
	switch rand.Intn(20) {
	case 0:
		return fmt.Sprintf("new-%d", rand.Int63())
	case 1, 2:
		return fmt.Sprintf("seldom-%d", rand.Intn(10*places))
	}
	return fmt.Sprintf("place-%d", rand.Intn(places))
}

// pass takes a lock, stays inside until it is lost or for some time, adds one to the count twice,
// and gives the lock back. It writes also after Lost, so only the guard keeps late writes out.
func (h habits) pass(m *mouth, take taker) error {
	c := call{lock: choosePlace(h.Places), wait: 4 * h.TTL, tries: rand.Intn(7) == 0, turns: rand.Intn(4) == 0}
	if rand.Intn(15) == 0 { // it gives up soon
		c.wait = time.Duration(1+rand.Intn(50)) * time.Millisecond
	}
	v, err := h.enter(m, take, c)
	if v == nil {
		return err
	}
	if c.turns {
		v.showTurn(h.TTL)
	}
	if rand.Intn(1000) < h.Stays {
		v.m.say("stay", v.lock)
		select {
		case <-v.lost:
		case <-time.After(h.TTL * 3 / 2):
		}
	}
	v.write()
	return v.leave()
}

// visit is a pass that is inside.
type visit struct {
	held
	m    *mouth
	lock string
	left chan struct{} // closed when it is over
	told chan struct{} // closed when it will not be told any more that the lock is lost
}

// enter takes a lock. It returns nil and no error if the lock was not to be had, and that is as it may be.
func (h habits) enter(m *mouth, take taker, c call) (*visit, error) {
	word := "wait"
	if c.tries {
		word = "try"
	}
	m.say(word, c.lock)
	began := time.Now()
	ctx, cancel := context.WithTimeout(context.Background(), c.wait)
	defer cancel()
	got, err := take(ctx, c)
	entered := boot.Uptime()
	if err != nil {
		for word, fault := range map[string]error{"nothing": errNothing, "retired": locks.ErrRetired, "early": errEarly} {
			if errors.Is(err, fault) {
				m.say("fault", word, h.Name, c.lock, "after", time.Since(began), strings.ReplaceAll(err.Error(), "\n", " "))
			}
		}
		if errors.Is(err, locks.ErrHeld) || errors.Is(err, agent.ErrHeld) {
			m.say("held", c.lock)
			return nil, nil
		}
		m.say("nowait", c.lock)
		if errors.Is(err, context.DeadlineExceeded) {
			err = nil
		}
		return nil, err
	}
	m.say("enter", c.lock, entered.Microseconds(), fmt.Sprintf("%x", got.token))
	v := &visit{got, m, c.lock, make(chan struct{}), make(chan struct{})}
	go func() {
		defer close(v.told)
		select {
		case <-v.lost:
			m.say("lost", c.lock, boot.Uptime().Microseconds())
		case <-v.left:
		}
	}()
	return v, nil
}

// showTurn shows the lock's turn to the witness, if it has one.
func (v *visit) showTurn(wait time.Duration) {
	ctx, cancel := context.WithTimeout(context.Background(), wait)
	defer cancel()
	if turn, err := v.turn(ctx); err == nil {
		v.m.say("turn", v.lock, turn)
	}
}

// over ends what tells the witness that the lock is lost.
func (v *visit) over() {
	close(v.left)
	<-v.told
}

// leave gives the lock back.
func (v *visit) leave() error {
	v.over()
	v.m.say("leave", v.lock)
	err := v.unlock()
	if errors.Is(err, locks.ErrLapsed) || errors.Is(err, agent.ErrLost) || errors.Is(err, errLapsed) {
		v.m.say("lapsed", v.lock)
		return nil
	}
	v.m.say("done", v.lock)
	return err
}

// die notes that its session is heard no more.
func (v *visit) die() {
	v.over()
	v.m.say("die", v.lock)
}

// write adds one to the count of the place twice.
func (v *visit) write() {
	for i := 0; i < 2; i++ {
		count := 0
		if _, err := fmt.Sscan(v.m.say("read", v.lock), &count); err != nil {
			return // the guard refuses it
		}
		work := rand.Intn(3)
		if rand.Intn(50) == 0 {
			work = rand.Intn(300)
		}
		time.Sleep(time.Duration(work) * time.Millisecond)
		v.m.say("write", v.lock, count+1)
	}
}
