package main

import (
	"bytes"
	"errors"
	"fmt"
	"math/rand"
	"os"
	"os/exec"
	"path/filepath"
	"strings"
	"sync"
	"syscall"
	"time"

	"calvundek.example/service/internal/local"
)

var (
	errStarted = errors.New("a voter without its state has started")
	errEnded   = errors.New("a process has ended by itself")
	errOlder   = errors.New("a voter with an older copy of its state goes on")
	errSlow    = errors.New("a voter does not start")
	errFull    = errors.New("a voter with a full disk ended for another reason")
)

// player plays incidents, one kind after the other at random. What is down or stands still comes back by itself.
type player struct {
	cluster *local.Cluster
	workers []*local.Process
	witness *witness
	ttl     time.Duration
	options options
	random  *rand.Rand
	deck    []int // kinds that are still to be drawn

	mutex   sync.Mutex
	away    map[*local.Process]bool // what is down, or stands still
	back    sync.WaitGroup
	counts  map[string]int
	failure error
}

// kinds are the incidents, and how often each is drawn.
var kinds = []struct {
	name   string
	weight int
	play   func(p *player)
	has    func(o options) bool // nil if it is always there
}{
	{"voters killed", 6, func(p *player) { p.kill(p.cluster.Voters) }, nil},
	{"clients killed", 6, func(p *player) { p.kill(p.workers) }, nil},
	{"agents killed", 2, func(p *player) { p.kill(p.cluster.Agents) }, hasAgents},
	{"servers killed", 3, func(p *player) { p.kill(p.cluster.Servers) }, nil},
	{"clients stopped for longer than the TTL", 4, func(p *player) { p.stop(p.workers, p.ttl*3/2) }, nil},
	{"agents stopped for longer than the TTL", 2, func(p *player) { p.stop(p.cluster.Agents, p.ttl*3/2) }, hasAgents},
	{"voters stopped", 2, func(p *player) { p.stop(p.cluster.Voters, p.ttl/2) }, nil},
	{"servers frozen", 1, func(p *player) { p.stop(p.cluster.Servers, 4*time.Second) }, nil},
	{"voters that lost their state", 1, func(p *player) { p.alone(p.loseState) }, nil},
	{"older copies put back", 1, func(p *player) { p.alone(p.putOlder) }, nil},
	{"older copies of the last run that went on", 1, func(p *player) { p.alone(p.returnTo) }, hasIslands},
	{"times all voters were killed at once", 1, (*player).killAll, nil},
	{"sessions that operators ended", 2, func(p *player) { p.evict("evict") }, nil},
	{"sessions that operators ended at once", 1, func(p *player) { p.evict("evict-now") }, nil},
	{"locks that operators unlocked", 2, (*player).unlock, nil},
	{"herds of runs", 1, (*player).herd, hasAgents},
	{"voters cut off", 3, func(p *player) { p.cut(p.cluster.Voters, (*local.Island).Cut) }, hasIslands},
	{"voters that are not heard", 3, func(p *player) { p.cut(p.cluster.Voters, (*local.Island).Mute) }, hasIslands},
	{"clients cut off", 3, func(p *player) { p.cut(p.workers, (*local.Island).Cut) }, hasIslands},
	{"clients that are not heard", 3, func(p *player) { p.cut(p.workers, (*local.Island).Mute) }, hasIslands},
	{"agents cut off", 1, func(p *player) { p.cut(p.cluster.Agents, (*local.Island).Cut) },
		func(o options) bool { return o.Islands && o.allKinds }},
	{"servers cut off from one another", 2, (*player).part, hasIslands},
	{"full disks", 2, (*player).fill, func(o options) bool { return o.SmallDisk }},
}

func hasIslands(o options) bool { return o.Islands }
func hasAgents(o options) bool  { return o.allKinds }

// isKind returns whether incidents of a kind are played.
func isKind(name string) bool {
	for _, kind := range kinds {
		if kind.name == name {
			return true
		}
	}
	return false
}

// draw draws the next incident, as from a deck of cards: each kind comes as often as its weight says.
func (p *player) draw() int {
	if len(p.deck) == 0 {
		for i, kind := range kinds {
			weight, isSet := p.options.weights[kind.name]
			if !isSet {
				weight = kind.weight
			}
			for n := 0; n < weight && (kind.has == nil || kind.has(p.options)); n++ {
				p.deck = append(p.deck, i)
			}
		}
		p.random.Shuffle(len(p.deck), func(i, j int) { p.deck[i], p.deck[j] = p.deck[j], p.deck[i] })
	}
	last := len(p.deck) - 1
	drawn := p.deck[last]
	p.deck = p.deck[:last]
	return drawn
}

// burst plays incidents for some time, and waits until all is back.
func (p *player) burst(length time.Duration) error {
	for end := time.Now().Add(length); time.Now().Before(end) && p.failed() == nil; {
		if p.options.open { // only what needs the guard
			p.stop(p.workers, p.ttl*3/2)
			p.back.Wait()
			continue
		}
		kind := kinds[p.draw()]
		p.mutex.Lock()
		p.counts[kind.name]++
		p.mutex.Unlock()
		kind.play(p)
		time.Sleep(time.Duration(100+p.random.Intn(500)) * time.Millisecond)
	}
	p.back.Wait()
	return p.failed()
}

// calm lets the clients pass without an incident, long enough that whoever waits has to enter.
func (p *player) calm() error {
	length, before := 3*p.ttl+500*time.Millisecond, p.witness.look().Passes
	for end := time.Now().Add(length); time.Now().Before(end) && p.failed() == nil; {
		time.Sleep(50 * time.Millisecond)
	}
	if p.failed() == nil && p.witness.look().Passes == before {
		return fmt.Errorf("%w: nobody passed for %v without an incident", errFaults, length)
	}
	return p.failed()
}

// limp lets the clients pass while one voter is down, after a client was killed, too: whoever waits has to enter all the same.
func (p *player) limp() error {
	p.kill(p.workers)
	var err error
	p.alone(func(_ int, one *local.Process) error {
		one.Kill()
		err = p.calm()
		return one.Start()
	})
	if err == nil {
		err = p.failed()
	}
	return err
}

// tell tells the witness what happens to a process.
func (p *player) tell(word string, one *local.Process) { p.witness.note(word, process(one)) }

// process returns the name of a process as the witness knows it.
func process(one *local.Process) string { return fmt.Sprintf("%s-%d", one.Name, one.Pid()) }

// choose returns a process that is there, and notes that it is away. It returns nil if there is none.
func (p *player) choose(from []*local.Process) *local.Process {
	p.mutex.Lock()
	defer p.mutex.Unlock()
	one := from[p.random.Intn(len(from))]
	if p.away[one] {
		return nil
	}
	p.away[one] = true
	return one
}

// later brings a process back after some time.
func (p *player) later(one *local.Process, after time.Duration, back func() error) {
	p.back.Add(1)
	go func() {
		defer p.back.Done()
		time.Sleep(after)
		if err := back(); err != nil {
			p.fail(err)
		}
		p.tell("touch", one)
		p.isAway(one, false)
	}()
}

func (p *player) isAway(one *local.Process, away bool) {
	p.mutex.Lock()
	defer p.mutex.Unlock()
	p.away[one] = away
}

func (p *player) kill(from []*local.Process) {
	one := p.choose(from)
	if one == nil {
		return
	}
	p.tell("gone", one)
	one.Kill()
	down := time.Duration(0)
	if p.random.Intn(2) == 0 {
		down = time.Duration(p.random.Intn(3000)) * time.Millisecond
	}
	p.later(one, down, one.Start)
}

func (p *player) stop(from []*local.Process, length time.Duration) {
	one := p.choose(from)
	if one == nil {
		return
	}
	for i := 0; i < 2000 && from[0] == p.workers[0] && !p.witness.isInside(process(one)); i++ {
		time.Sleep(time.Millisecond) // a client stands still while it is inside, if it comes inside soon
	}
	one.SignalAll(syscall.SIGSTOP)
	p.tell("still", one)
	p.later(one, length, func() error {
		p.tell("still", one)
		one.SignalAll(syscall.SIGCONT)
		return nil
	})
}

// cut cuts a process off, in both directions or in one.
func (p *player) cut(from []*local.Process, cut func(i *local.Island, cut bool) error) {
	one := p.choose(from)
	if one == nil {
		return
	}
	p.cutFor(one, func(isCut bool) error { return cut(one.Island, isCut) })
}

// part cuts two servers off from one another, which their clients still reach.
func (p *player) part() {
	one := p.choose(p.cluster.Servers)
	if one == nil {
		return
	}
	other := one
	for other == one {
		other = p.cluster.Servers[p.random.Intn(len(p.cluster.Servers))]
	}
	p.cutFor(one, func(cut bool) error { return one.Part(other.Island, cut) })
}

// cutFor cuts something of a process for some time.
func (p *player) cutFor(one *local.Process, cut func(cut bool) error) {
	p.tell("touch", one)
	if err := cut(true); err != nil {
		p.fail(err)
	}
	p.later(one, p.ttl/2+time.Duration(p.random.Int63n(int64(2*p.ttl))), func() error { return cut(false) })
}

// fill fills the disk of the first voter. Once it needs more room it has to end by itself, and it goes on from its state
// when there is room again.
func (p *player) fill() {
	one := p.choose(p.cluster.Voters[:1])
	if one == nil {
		return
	}
	p.tell("touch", one)
	if err := p.cluster.FillDisk(); err != nil {
		p.fail(err)
	}
	p.later(one, 0, func() error {
		ended := one.Ended(10 * time.Second)
		if err := p.cluster.EmptyDisk(); err != nil {
			return err
		}
		if !ended { // what it wrote found room in its file
			return nil
		}
		if !strings.Contains(lastLine(one.Log()), "the state can't be saved") {
			return fmt.Errorf("%s: %w: %s", one.Name, errFull, lastLine(one.Log()))
		}
		p.mutex.Lock()
		p.counts["voters that ended on a full disk"]++
		p.mutex.Unlock()
		return one.Start()
	})
}

// letGo is what the grants are counted as that voters let go at an operator's word.
const letGo = "grants let go for operators"

// evict lets an operator end a session of a client or an agent. Nobody else gets what it has while it may work, unless
// that is let go at once.
func (p *player) evict(word string) {
	session, one := p.anySession()
	if one == "" {
		return
	}
	p.witness.note(word, one)
	if word == "evict" {
		p.order(func() {}, "evict", session)
	} else {
		p.order(func() { p.witness.note("evicted", one) }, "evict", "--now", session)
	}
}

// anySession returns the number of some session that is open, and of which process it is; "" if there is none.
func (p *player) anySession() (session, of string) {
	var sessions [][2]string
	processes := map[string]string{}
	for _, one := range append(append([]*local.Process{}, p.workers...), p.cluster.Agents...) {
		processes[fmt.Sprint(one.Pid())] = process(one)
	}
	_, statuses := p.cluster.Ask()
	for number := range statuses {
		for _, s := range p.cluster.Sessions(number) {
			if words := strings.Fields(s.Note); len(words) > 1 && processes[words[1]] != "" {
				sessions = append(sessions, [2]string{s.Session, processes[words[1]]})
			}
		}
	}
	if len(sessions) == 0 {
		return "", ""
	}
	chosen := sessions[p.random.Intn(len(sessions))]
	return chosen[0], chosen[1]
}

// herd runs many programs under locks of their own at once. Each has to get its lock, or to wait for as long as it may.
func (p *player) herd() {
	p.back.Add(1)
	go func() {
		defer p.back.Done()
		var runs sync.WaitGroup
		for i := 0; i < herdSize; i++ {
			runs.Add(1)
			go func(i int) {
				defer runs.Done()
				c, began := call{wait: 6 * p.ttl}, time.Now()
				run := exec.Command(filepath.Join(p.cluster.Bin, "qlockctl"), "run", "-c", p.cluster.File,
					"--wait", c.wait.String(), fmt.Sprint("herd-", i), "true")
				out, _ := run.CombinedOutput()
				if err := notRun(run.ProcessState.ExitCode(), string(out), c, time.Since(began)); errors.Is(err, errEarly) {
					p.witness.note("fault", "early", strings.ReplaceAll(err.Error(), "\n", " "))
				}
			}(i)
		}
		runs.Wait()
	}()
}

// herdSize is how many programs come at once.
const herdSize = 30

// unlock lets an operator unlock a lock in which somebody is, if there is one.
func (p *player) unlock() {
	if place := p.witness.busy(); place != "" {
		p.witness.note("unlock", place)
		p.order(func() { p.witness.note("unlocked", place) }, "unlock", place)
	}
}

// order orders something as an operator, while other incidents go on. Those who lose something by
// it are excused for a TTL longer: what tells them so may be lost.
func (p *player) order(end func(), words ...string) {
	p.back.Add(1)
	go func() {
		defer p.back.Done()
		gone := p.cluster.LetGo(words...)
		time.AfterFunc(p.ttl, end)
		p.mutex.Lock()
		defer p.mutex.Unlock()
		p.counts[letGo] += gone
	}()
}

// fail notes why the trial can't go on.
func (p *player) fail(err error) {
	p.mutex.Lock()
	defer p.mutex.Unlock()
	if p.failure == nil {
		p.failure = err
	}
}

// failed returns why the trial can't go on, nil if it can.
func (p *player) failed() error {
	p.mutex.Lock()
	defer p.mutex.Unlock()
	return p.failure
}

// allThere waits until all voters are there. Those that no plan has any more end: they can't start again.
func (p *player) allThere() {
	p.back.Wait()
	p.cluster.Dismiss()
}

// alone does something to a voter, once all the others are there.
func (p *player) alone(do func(i int, one *local.Process) error) {
	p.allThere()
	i := p.random.Intn(len(p.cluster.Voters))
	one := p.cluster.Voters[i]
	p.tell("touch", one)
	if err := do(i, one); err != nil {
		p.fail(err)
	}
	p.tell("touch", one)
}

// state returns where the state of a voter is.
func (p *player) state(i int) string { return filepath.Join(p.cluster.Data(i), "voter.db") }

// loseState takes a voter's state away. It must not start then. It is made again by what the others know.
func (p *player) loseState(i int, one *local.Process) error {
	one.Kill()
	p.witness.note("lost-state", one.Name)
	defer p.witness.note("lost-state", one.Name)
	if err := os.Remove(p.state(i)); err != nil {
		return err
	}
	if err := one.Start(); err != nil {
		return err
	}
	if !one.Ended(10*time.Second) || !strings.Contains(one.Log(), "there is no state") {
		return fmt.Errorf("%s: %w", one.Name, errStarted)
	}
	var err error
	for try := 0; try < 4; try++ { // each takes half a minute at most: others may be away, or cut off from the command
		if err = p.cluster.InitLost(i); err == nil {
			return one.Start()
		}
	}
	return err
}

// putOlder puts an older copy of a voter's state back. It has to end by itself, and goes on from the newest one.
func (p *player) putOlder(i int, one *local.Process) error {
	path := p.state(i)
	one.Kill()
	older, err := os.ReadFile(path)
	if err != nil {
		return err
	}
	if err := one.Start(); err != nil {
		return err
	}
	time.Sleep(p.ttl/2 + time.Second) // the others hear of the start
	one.Kill()
	newest, err := os.ReadFile(path)
	if err != nil {
		return err
	}
	if err := os.WriteFile(path, older, 0o600); err != nil {
		return err
	}
	if err := one.Start(); err != nil {
		return err
	}
	if !bytes.Equal(older, newest) && (!one.Ended(10*time.Second) || !strings.Contains(lastLine(one.Log()), "an older copy")) {
		return fmt.Errorf("%s: %w", one.Name, errOlder)
	}
	one.Kill()
	if err := os.WriteFile(path, newest, 0o600); err != nil {
		return err
	}
	return one.Start()
}

// returnTo puts a copy of a voter's state back that was taken while it ran. It goes on from there.
func (p *player) returnTo(i int, one *local.Process) error {
	path := p.state(i)
	if !one.Says("event=start ", 20*time.Second) { // a copy of before its start is refused
		return fmt.Errorf("%s: %w", one.Name, errSlow)
	}
	one.Signal(syscall.SIGSTOP) // it writes nothing meanwhile
	older, err := os.ReadFile(path)
	one.Signal(syscall.SIGCONT)
	if err != nil {
		return err
	}
	time.Sleep(p.ttl/2 + time.Duration(p.random.Int63n(int64(p.ttl))))
	one.Kill()
	if err := os.WriteFile(path, older, 0o600); err != nil {
		return err
	}
	return one.Start()
}

// killAll kills all voters at once, and starts them, or all but one at first.
func (p *player) killAll() {
	p.allThere()
	p.witness.note("all-ended", "")
	for _, one := range p.cluster.Voters {
		p.isAway(one, true)
		p.tell("gone", one)
		one.Kill()
	}
	late := p.random.Intn(2 * len(p.cluster.Voters))
	for i, one := range p.cluster.Voters {
		after := time.Duration(0)
		if i == late {
			after = 4 * p.ttl
		}
		p.later(one, after, one.Start)
	}
}

// check returns an error if a process has ended that was not killed.
func (p *player) check() error {
	for _, group := range [][]*local.Process{p.cluster.Voters, p.cluster.Servers, p.cluster.Agents, p.workers} {
		for _, one := range group {
			if one.Ended(0) {
				return fmt.Errorf("%w: %s: %s", errEnded, one.Name, lastLine(one.Log()))
			}
		}
	}
	return nil
}

func lastLine(text string) string {
	lines := strings.Split(strings.TrimSpace(text), "\n")
	return lines[len(lines)-1]
}
