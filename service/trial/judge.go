package main

import (
	"encoding/hex"
	"fmt"
	"sort"
	"strconv"
	"strings"
	"time"

	"calvundek.example/service/qlock"
)

// The faults that the judge looks for. A fault has more words behind its name if something that happened before may be why.
const (
	twoInside    = "two inside that were not let go"
	torn         = "writes of a pass after one of a later pass"
	lostUpdates  = "lost updates"
	turnsFell    = "turns that fell"
	longWaits    = "waits longer than 3 TTL while a quorum served"
	freeTries    = "tries that failed of a free lock"
	nobodyServes = "times no quorum served for 3 TTL though its voters ran"
	nothingSaid  = "calls that returned neither a lock nor an error"
	gaveUpEarly  = "runs that gave up before their time"
	saidRetired  = "calls that were refused as of a retired plan"
)

// reported are the faults that workers report themselves, by the words of their lines.
var reported = map[string]string{"nothing": nothingSaid, "early": gaveUpEarly, "retired": saidRetired,
	"nobody-serves": nobodyServes}

// pass is a call for a lock, or for a session, and what follows if it got it. Times are by CLOCK_BOOTTIME.
type pass struct {
	who     *worker
	place   *place        // nil of a call for a session
	since   time.Duration // when it asked
	tries   bool
	token   []byte
	entered time.Duration // 0 while it asks
	ended   time.Duration // when it was told that the lock may be lost, or left; 0 before
	excused bool          // it stood still, a voter lost its state, or an operator let it go
	stays   bool          // for longer than a lease lasts
	over    bool          // the guard admitted another one since
	late    bool          // its long wait was counted
}

func (p *pass) isInside() bool { return p.entered > 0 && p.ended == 0 }

// place is what one lock protects: a count with its guard. The judge knows who says to be inside, and who asks.
type place struct {
	name   string
	fence  *qlock.Fence
	count  int
	last   *pass // that was admitted last
	passes map[*pass]bool
	stayed time.Duration // when the last one left that stayed for long
	doubt  time.Duration // when something last happened to one that was inside or asked, or died
	mayBe  bool          // somebody who died may have the lock: nobody entered since
	died   bool          // that was so once
	left   time.Duration // when the last one was inside or asked
	orders int           // how many orders of operators may let its grants go now
	turns  []turned      // of those that asked for one, in the order in which they entered
}

type turned struct {
	entered time.Duration
	turn    uint64
}

// worker is one line of passes, in a process of some name and number, perhaps by an agent.
type worker struct {
	name, process, agent string
	passes               map[string]*pass // by the lock's name, "" for a session
	touched              time.Duration    // when something last happened to its process or its agent
}

// is returns whether a process is the worker's or that of its agent.
func (w *worker) is(process string) bool { return w.process == process || w.isBy(process) }

func (w *worker) isBy(process string) bool {
	return w.agent != "" && strings.HasPrefix(process, w.agent+"-")
}

// pair is two that were inside at once, until one of them says when it ended.
type pair struct{ first, second *pass }

// findings are what the judge counts.
type findings struct {
	Passes, Writes, Tries, Turns, Gone int
	Met, Refused, Lost, Stays          int
	Doubtful                           int // failed tries of a lock that nobody had since a holder died
	LongestWait                        time.Duration
	Faults                             map[string]int
}

// afterAll is said of a fault that followed when all voters had ended.
const afterAll = " after all voters ended"

// known are faults that are counted, and make no run fail. A session of a shard that is just opened may go by a plan that was retired
// meanwhile. And voters that were all killed wait for those that do not come back, then for a TTL.
var known = map[string]bool{saidRetired: true, nobodyServes + afterAll: true}

// faults returns how many faults were found that are not known.
func (f findings) faults() (sum int) {
	for name, count := range f.Faults {
		if !known[name] {
			sum += count
		}
	}
	return sum
}

// losses returns how often something showed that a lock was lost while it was held.
func (f findings) losses() int { return f.Lost + f.Met + f.Refused }

// judge judges a history, line by line: what each worker did, and what the trial did to whom. It reads no clock. It calls
// the library for the guard alone.
type judge struct {
	ttl     time.Duration
	open    bool // the guard admits everything: a fault on purpose
	places  map[string]*place
	workers map[string]*worker
	ordered map[string]int // how many orders of operators may end the sessions of a process now
	pairs   []pair
	found   findings
	said    int

	disturbed time.Duration            // when the last thing happened to anybody
	servers   time.Duration            // and to the servers
	serving   time.Duration            // since when a quorum says that it serves, 0 if none does
	acts      map[string]time.Duration // when operators last did what: "evict", "exchange", "retire", and "all-ended" of voters
}

func newJudge(ttl time.Duration, open bool) *judge {
	return &judge{ttl: ttl, open: open, places: map[string]*place{}, workers: map[string]*worker{},
		ordered: map[string]int{}, found: findings{Faults: map[string]int{}}, acts: map[string]time.Duration{}}
}

// fault counts a fault, and prints the first ones.
func (j *judge) fault(at time.Duration, name, format string, words ...interface{}) {
	j.found.Faults[name]++
	if j.said++; j.said <= 40 {
		fmt.Printf("%.3f %s: "+format+"\n", append([]interface{}{at.Seconds(), name}, words...)...)
	}
}

// take takes a line, and returns what its worker has to know. What a worker says begins with its name, and what the trial
// says with "-".
func (j *judge) take(at time.Duration, who string, words []string) string {
	if who == "-" {
		j.takeIncident(at, words)
		return "ok"
	}
	one := j.workers[who]
	if words[0] == "name" {
		j.workers[who] = &worker{name: who, process: strings.SplitN(who, "/", 2)[0], agent: strings.Join(words[1:], ""),
			passes: map[string]*pass{}}
		return "ok"
	} else if one == nil { // it was taken for dead
		return "late"
	}
	words = append(words, "")
	p := one.passes[words[1]]
	switch {
	case words[0] == "wait" || words[0] == "try":
		j.ask(at, one, words[1], words[0] == "try")
	case words[0] == "fault":
		j.report(at, one, words)
	case words[0] == "bye":
		j.leaveAll(at, one)
	case p == nil:
		return "late"
	case words[0] == "enter":
		j.enter(p, number(words[2]), words[3])
	case words[0] == "turn":
		j.turn(at, p, uint64(number(words[2])/time.Microsecond))
	case words[0] == "read":
		return j.read(at, p)
	case words[0] == "write":
		return j.write(at, p, words[2])
	default:
		j.end(at, p, words)
	}
	return "ok"
}

// number reads a time in microseconds, or a number.
func number(word string) time.Duration {
	n, _ := strconv.ParseInt(word, 10, 64)
	return time.Duration(n) * time.Microsecond
}

func (j *judge) place(name string) *place {
	if j.places[name] == nil {
		fence, err := qlock.NewFence()
		if err != nil {
			panic(err)
		}
		j.places[name] = &place{name: name, fence: fence, passes: map[*pass]bool{}}
	}
	return j.places[name]
}

// ask notes that a worker waits for a lock or a session, or tries to get it.
func (j *judge) ask(at time.Duration, one *worker, lock string, tries bool) {
	p := &pass{who: one, since: at, tries: tries}
	if lock != "" {
		p.place = j.place(lock)
		p.place.passes[p] = true
	}
	one.passes[lock] = p
}

// end takes a line that ends a call or a pass, or a part of it.
func (j *judge) end(at time.Duration, p *pass, words []string) {
	switch words[0] {
	case "session", "nowait": // it has a session, or gave up
		j.judgeWait(at, p)
		j.remove(at, p)
	case "held": // a try failed, as somebody else had the lock or asked before
		j.judgeTry(at, p)
		j.remove(at, p)
	case "stay":
		p.stays = true
		j.found.Stays++
	case "lost": // it was told so
		j.found.Lost++
		j.over(number(words[2]), p)
		j.doubt(at, p, true)
	case "leave":
		j.found.Passes++
		j.over(at, p)
		if p.stays {
			p.place.stayed = at
		}
	case "lapsed": // it left, and heard as it gave the lock back that it had lost it
		j.found.Lost++
		j.doubt(at, p, true)
		j.remove(at, p)
	case "done": // it gave the lock back
		j.remove(at, p)
	case "die": // its session is heard no more
		j.found.Gone++
		j.doubt(at, p, true)
		j.over(at, p)
		j.remove(at, p)
	}
}

// over notes that one is not inside any more.
func (j *judge) over(at time.Duration, p *pass) {
	if p.isInside() {
		p.ended = at
		j.settle(p)
	}
}

// remove forgets a call.
func (j *judge) remove(at time.Duration, p *pass) {
	for lock, other := range p.who.passes {
		if other == p {
			delete(p.who.passes, lock)
		}
	}
	if p.place != nil {
		delete(p.place.passes, p)
		p.place.left = at
	}
}

// doubt notes that something happened to one that asks or is inside. If it may have died, it may have the lock until
// somebody enters.
func (j *judge) doubt(at time.Duration, p *pass, mayBe bool) {
	if p.place != nil {
		p.place.doubt, p.place.mayBe, p.place.died = at, p.place.mayBe || mayBe, p.place.died || mayBe
	}
}

// leaveAll notes that the process of a worker is gone.
func (j *judge) leaveAll(at time.Duration, one *worker) {
	for _, p := range one.passes {
		j.doubt(at, p, true)
		j.over(at, p)
		j.remove(at, p)
	}
	delete(j.workers, one.name)
}

// enter notes that one is inside, and who was there already.
func (j *judge) enter(p *pass, at time.Duration, token string) {
	j.judgeWait(at, p)
	p.entered, p.place.mayBe = at, false
	p.token, _ = hex.DecodeString(token)
	for process, orders := range j.ordered {
		p.excused = p.excused || orders > 0 && p.who.is(process)
	}
	p.excused = p.excused || p.place.orders > 0
	for other := range p.place.passes {
		if other != p && other.isInside() {
			j.pairs = append(j.pairs, pair{other, p})
		}
	}
}

// settle judges those that were inside together with one that has ended now.
func (j *judge) settle(p *pass) {
	var rest []pair
	for _, both := range j.pairs {
		if both.first == p || both.second == p {
			j.judgePair(p.ended, both)
		} else {
			rest = append(rest, both)
		}
	}
	j.pairs = rest
}

// judgePair judges two that were inside, of which one ended then.
func (j *judge) judgePair(ended time.Duration, both pair) {
	later := latest(both.first.entered, both.second.entered)
	switch {
	case both.first.excused || both.second.excused:
		j.found.Met++
	case ended > later:
		j.fault(later, twoInside+j.afterExchanges(later), "%s: %s and %s, for %v at least", both.first.place.name,
			both.first.who.name, both.second.who.name, ended-later)
	}
}

func latest(times ...time.Duration) (last time.Duration) {
	for _, t := range times {
		if t > last {
			last = t
		}
	}
	return last
}

// afterExchanges returns what to say if operators ended a session, retired a plan and began to exchange the next one within
// a TTL.
func (j *judge) afterExchanges(at time.Duration) string {
	evict, retire, exchange := j.acts["evict"], j.acts["retire"], j.acts["exchange"]
	last := latest(evict, retire, exchange)
	isHasty := evict > 0 && retire > 0 && retire <= exchange && last-evict <= j.ttl && last-retire <= j.ttl
	if !isHasty || at-last > 2*j.ttl {
		return ""
	}
	return ", after evict, retire and exchange within a TTL"
}

// turn judges the turn of one that is inside: it is greater than those of all that entered before, and less than those of
// all that entered later. Who stood still may say it late.
func (j *judge) turn(at time.Duration, p *pass, turn uint64) {
	if p.excused || !p.isInside() {
		return
	}
	j.found.Turns++
	turns := p.place.turns
	i := sort.Search(len(turns), func(i int) bool { return turns[i].entered > p.entered })
	why := ""
	if j.acts["exchange"] > 0 {
		why = " after an exchange"
	}
	if i > 0 && turns[i-1].turn >= turn {
		j.fault(at, turnsFell+why, "%s: %d of %s, after %d", p.place.name, turn, p.who.name, turns[i-1].turn)
	} else if i < len(turns) && turns[i].turn <= turn {
		j.fault(at, turnsFell+why, "%s: %d of %s, before %d", p.place.name, turn, p.who.name, turns[i].turn)
	}
	turns = append(turns, turned{})
	copy(turns[i+1:], turns[i:])
	turns[i] = turned{p.entered, turn}
	p.place.turns = turns
}

// judgeWait judges how long a call waits while a quorum serves, since the last thing that happened to it, to the servers, or
// to somebody who was before it in the queue.
func (j *judge) judgeWait(at time.Duration, p *pass) {
	if p.entered > 0 || p.tries || p.late || j.serving == 0 {
		return
	}
	since := latest(p.since, p.who.touched, j.servers, j.serving)
	if p.place != nil {
		for other := range p.place.passes {
			if other.stays {
				return
			}
		}
		since = latest(since, p.place.stayed, p.place.doubt)
	}
	waited := at - since
	if waited > j.found.LongestWait {
		j.found.LongestWait = waited
	}
	if p.late = waited > 3*j.ttl; p.late {
		why := ""
		if ended := j.acts["all-ended"]; ended > 0 && since-ended < 8*time.Second+2*j.ttl {
			why = afterAll
		}
		j.fault(at, longWaits+why, "%s has waited for %v", p.who.name, waited)
	}
}

// judgeTry judges a try that failed, as somebody else had the lock, or had asked before. It is known who did if nothing
// happened to anybody for two TTL. For a TTL messages of who left may be under way.
func (j *judge) judgeTry(at time.Duration, p *pass) {
	j.found.Tries++
	if len(p.place.passes) == 1 && !p.place.mayBe && p.since-p.place.left > j.ttl && p.since-j.disturbed > 2*j.ttl {
		if p.place.died { // a voter that was not asked since may have a request that was withdrawn by a lost message
			j.found.Doubtful++
			return
		}
		j.fault(at, freeTries, "%s: %s, and nobody was there", p.place.name, p.who.name)
	}
}

// report takes a fault that a worker or the trial saw itself.
func (j *judge) report(at time.Duration, one *worker, words []string) {
	name, why := reported[words[1]], ""
	switch {
	case name == gaveUpEarly && latest(one.touched, j.servers, j.acts["evict"]) > at-latest(30*time.Second, 3*j.ttl):
		return // its session may have been ended
	case name == saidRetired && one.touched > j.acts["exchange"]:
		return // it may have heard of no exchange
	case name == nobodyServes && at-j.acts["all-ended"] < 8*time.Second+4*j.ttl:
		why = afterAll
	}
	j.fault(at, name+why, "%s", strings.Join(words[2:], " "))
}

// read shows a pass, and returns the count: what decides a write is read under the same pass.
func (j *judge) read(at time.Duration, p *pass) string {
	if !j.admit(at, p) {
		return "late"
	}
	return strconv.Itoa(p.place.count)
}

// write admits a pass and writes, in one step.
func (j *judge) write(at time.Duration, p *pass, count string) string {
	if !j.admit(at, p) {
		return "late"
	}
	if count != strconv.Itoa(p.place.count+1) {
		j.fault(at, lostUpdates, "%s: %s is written over %d", p.place.name, count, p.place.count)
	}
	p.place.count++
	j.found.Writes++
	return "ok"
}

// admit shows a pass to the guard. It remembers by itself which passes are over.
func (j *judge) admit(at time.Duration, p *pass) bool {
	if _, err := p.place.fence.Admit(p.token); err != nil {
		j.found.Refused++
		if !j.open {
			return false
		}
	}
	if p.over {
		j.fault(at, torn+j.afterExchanges(at), "%s: %s comes back after a later one", p.place.name, p.who.name)
	}
	if p.place.last != nil && p.place.last != p {
		p.place.last.over = true
	}
	p.place.last = p
	return true
}

// takeIncident takes a line of the trial: WORD and whom it concerns.
func (j *judge) takeIncident(at time.Duration, words []string) {
	words = append(words, "")
	word, whom := words[0], words[1]
	switch word {
	case "serve": // since when a quorum says that it serves
		j.serving = number(whom)
		for _, one := range j.workers {
			for _, p := range one.passes {
				j.judgeWait(at, p)
			}
		}
		return
	case "fault":
		j.report(at, &worker{}, words)
		return
	case "still", "gone", "touch": // a process stands still or goes on, is killed now, or something else happens to it
		j.happens(at, word, whom)
	case "evict", "evict-now": // an operator ends the session of a process, or lets go at once what it has, until "evicted"
		j.happens(at, word, whom)
		j.acts["evict"] = at
		if word == "evict-now" {
			j.ordered[whom]++
		}
	case "evicted":
		j.ordered[whom]--
	case "unlock": // an operator lets a lock go, until "unlocked"
		j.place(whom).orders++
		j.place(whom).doubt = at
		j.excuse(func(p *pass) bool { return p.place == j.places[whom] })
	case "unlocked":
		j.place(whom).orders--
	case "lost-state": // a voter lost its state: whoever is inside may have lost its vote before it knows
		j.excuse(func(*pass) bool { return true })
	case "plan": // exchange, or retire
		j.acts[whom] = at
	case "all-ended": // all voters were killed
		j.acts[word] = at
	}
	j.disturbed = at
}

// excuse notes that some of those that ask or are inside may be let go before they know.
func (j *judge) excuse(which func(p *pass) bool) {
	for _, one := range j.workers {
		for _, p := range one.passes {
			p.excused = p.excused || p.place != nil && which(p)
		}
	}
}

// happens notes what happens to a process: to its workers, or to those of an agent.
func (j *judge) happens(at time.Duration, word, process string) {
	if strings.HasPrefix(process, "nats-") {
		j.servers = at
		return
	}
	for _, one := range j.workers {
		if !one.is(process) {
			continue
		}
		one.touched = at
		for _, p := range one.passes {
			j.doubt(at, p, true)
			// who is inside by an agent that stands still is told by its library, but an old lock may come late to who asks
			p.excused = p.excused || word == "evict-now" || word == "still" && (one.process == process || p.entered == 0)
		}
		if word == "gone" && one.process == process {
			j.leaveAll(at, one)
		}
	}
}

// finish judges what is open at the end, and returns what was found.
func (j *judge) finish(at time.Duration) findings {
	for _, both := range j.pairs {
		if at-latest(both.first.entered, both.second.entered) > time.Second {
			j.judgePair(at, both)
		}
	}
	return j.found
}
