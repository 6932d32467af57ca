// Package simulation runs a whole cluster from one seed, in one goroutine and in virtual time: voters, clients, broker,
// disks and clocks. The voters are the daemon of package voter, stepped in place of its loop. The clients are small ones of
// this package, over the proved client. A run is repeated exactly by its seed.
//
//	service/go run ./simulation/cmd -seed 1 -runs 100 -events 100000
//
// After each event it checks, in true virtual time:
//
//   - at most one client works with a lock: it is inside, and its lease by its own clock, with the time to stop, has not ended;
//   - a guard admits no pass of an earlier request after one of a later one, and refuses nobody who works;
//   - nothing leaves a voter that depends on what its disk does not have at that moment;
//   - no voter gives a number of a grant twice, and no run of it takes one stamp from two sessions;
//   - no voter hears that a claim is taken back by which its session goes on;
//   - in the end, once all faults stopped, everybody who wants a lock gets it within a bound.
package simulation

import (
	"fmt"
	"hash/fnv"
	"math/rand"
	"time"

	"calvundek.example/service/internal/config"
	"calvundek.example/service/internal/level"
	"calvundek.example/service/qlock"
)

// Options of a run.
type Options struct {
	Seed         int64
	Events       int   // until the faults stop
	Wrong        Wrong // the duties that the hosts break; none is right
	Trace        func(line string)
	Only         []string // the kinds of incidents that may happen, by their names; all of them if there is none
	Calm         bool     // no incident happens by chance
	Often        bool     // incidents come often, and programs want locks at once
	Brief        bool     // programs want locks at once, and stay inside briefly
	Copies       bool     // copies of states are made often, and mostly the newest one is put back
	ShowMessages bool     // in the schedule
}

// Figures count what happened in a run.
type Figures struct {
	Passes    uint64 // locks that were given back
	Steps     uint64 // events
	Messages  uint64 // that were sent
	Virtual   time.Duration
	Shows     uint64 // passes that a guard admitted
	Refused   uint64 // passes that a guard refused
	Turns     uint64 // that voters said to those who worked
	Lost      uint64 // locks that may have been lost while they were held
	Longest   time.Duration
	Incidents map[string]uint64
}

// Add adds the figures of another run.
func (f *Figures) Add(g Figures) {
	f.Passes, f.Steps, f.Messages, f.Virtual = f.Passes+g.Passes, f.Steps+g.Steps, f.Messages+g.Messages, f.Virtual+g.Virtual
	f.Shows, f.Refused, f.Turns, f.Lost = f.Shows+g.Shows, f.Refused+g.Refused, f.Turns+g.Turns, f.Lost+g.Lost
	if g.Longest > f.Longest {
		f.Longest = g.Longest
	}
	if f.Incidents == nil {
		f.Incidents = map[string]uint64{}
	}
	for kind, count := range g.Incidents {
		f.Incidents[kind] += count
	}
}

// Result is what became of a run.
type Result struct {
	Figures
	Hash  uint64 // of all events
	Fault error  // what was violated, nil if nothing was
}

// Violation is a fault of a run: which check found it, and what it saw.
type Violation struct {
	Check string
	Saw   string
	At    time.Duration
}

func (v *Violation) Error() string {
	return fmt.Sprintf("%s: %s (at %.6f s)", v.Check, v.Saw, v.At.Seconds())
}

// instant is a time of the true clock, in nanoseconds since the run began.
type instant int64

func after(t instant, d time.Duration) instant { return t + instant(d) }

// happening is something that happens at a time.
type happening struct {
	at    instant
	order uint64 // of events of one time, the one that was planned first comes first
	do    func()
}

// queue has the events that are to come, as a heap.
type queue []happening

func (q queue) before(i, j int) bool {
	return q[i].at < q[j].at || q[i].at == q[j].at && q[i].order < q[j].order
}

func (q *queue) push(e happening) {
	*q = append(*q, e)
	for i := len(*q) - 1; i > 0 && q.before(i, (i-1)/2); i = (i - 1) / 2 {
		(*q)[i], (*q)[(i-1)/2] = (*q)[(i-1)/2], (*q)[i]
	}
}

func (q *queue) pop() happening {
	first, last := (*q)[0], len(*q)-1
	(*q)[0] = (*q)[last]
	(*q)[last] = happening{}
	*q = (*q)[:last]
	for i := 0; ; {
		least := i
		for child := 2*i + 1; child <= 2*i+2 && child < last; child++ {
			if q.before(child, least) {
				least = child
			}
		}
		if least == i {
			return first
		}
		(*q)[i], (*q)[least] = (*q)[least], (*q)[i]
		i = least
	}
}

// world is one run.
type world struct {
	Options
	Figures
	random  *rand.Rand
	now     instant
	coming  queue
	planned uint64
	hash    uint64
	fault   error

	cluster *config.Cluster
	ttl     time.Duration
	isWorst bool   // all voters have the fastest clock, and all clients the slowest one
	block   uint64 // how many grants a voter may give before it asks for more
	broker  broker
	voters  []*place
	clients []*client
	locks   []*witness // what is watched of each lock
	watch   watch

	sessions   map[string]*client // by the session's name, as voters call it
	takenBack  map[claim]bool     // the claims of which a voter heard that they are taken back
	forgets    *place             // a voter that lost something, and does not serve yet
	startsCopy *place             // a voter that starts from an older copy
	rests      instant            // until then no client opens a session
	nextLook   instant
	noise      noise
	incidents  incidents
	questions  int     // of operators
	healed     instant // when the faults stopped, 0 before
	calmed     instant // when the last of them was over
	bound      time.Duration
}

// coteries are those that a run chooses from.
var coteries = []string{
	"voters = [\"a\", \"b\", \"c\"]\nquorums = [[\"a\", \"b\"], [\"a\", \"c\"], [\"b\", \"c\"]]\n",
	"voters = [\"hub\", \"r1\", \"r2\", \"r3\"]\nquorums = [[\"hub\", \"r1\"], [\"hub\", \"r2\"], [\"hub\", \"r3\"], [\"r1\", \"r2\", \"r3\"]]\n",
	"voters = [\"a\", \"b\", \"c\", \"d\"]\nquorums = [[\"a\", \"b\", \"c\"], [\"a\", \"b\", \"d\"], [\"a\", \"c\", \"d\"], [\"b\", \"c\", \"d\"]]\n",
	"voters = [\"a\", \"b\", \"c\", \"d\", \"e\"]\nquorums = [[\"a\", \"b\", \"c\"], [\"a\", \"b\", \"d\"], [\"a\", \"b\", \"e\"], [\"a\", \"c\", \"d\"], [\"a\", \"c\", \"e\"], " +
		"[\"a\", \"d\", \"e\"], [\"b\", \"c\", \"d\"], [\"b\", \"c\", \"e\"], [\"b\", \"d\", \"e\"], [\"c\", \"d\", \"e\"]]\n",
}

// plans are the plans of the coteries, which are found once.
var plans = map[string]*qlock.Plan{}

func planOf(coterie string) (*qlock.Plan, error) {
	if plans[coterie] == nil {
		plan, err := qlock.FindPlan(coterie)
		if err != nil {
			return nil, err
		}
		plans[coterie] = plan
	}
	return plans[coterie], nil
}

// Run makes a run.
func Run(o Options) (result Result) {
	w := newWorld(o)
	defer func() {
		if why := recover(); why != nil { // the seed is not lost
			w.violated("panic", "%v", why)
			result = Result{Figures: w.Figures, Hash: w.hash, Fault: w.fault}
		}
	}()
	if err := w.begin(); err != nil {
		return Result{Fault: err}
	}
	for w.fault == nil && !w.isOver() {
		w.next()
	}
	w.Virtual = time.Duration(w.now)
	for _, p := range w.voters {
		w.Incidents["shards forgotten"] += p.disk.floors
	}
	return Result{Figures: w.Figures, Hash: w.hash, Fault: w.fault}
}

func newWorld(o Options) *world {
	w := &world{Options: o, random: rand.New(rand.NewSource(o.Seed)), hash: 14695981039346656037}
	w.Incidents = map[string]uint64{}
	return w
}

// begin makes voters and clients.
func (w *world) begin() error {
	plan, err := planOf(coteries[w.random.Intn(len(coteries))])
	if err != nil {
		return err
	}
	w.ttl = time.Second * time.Duration(1+w.random.Intn(3))
	w.isWorst = w.random.Intn(4) == 0
	w.block = []uint64{0, 4, 64}[w.random.Intn(3)]
	w.bound = longestWait + 3*w.ttl
	w.cluster = &config.Cluster{ID: "sim", Servers: []string{"none"}, TTL: config.Duration{Duration: w.ttl},
		Coterie: plan.Coterie, Plan: plan.Text}
	if w.random.Intn(2) == 0 {
		w.cluster.Level = level.Newest
	}
	if err := w.cluster.Check(); err != nil {
		return err
	}
	w.broker = broker{world: w, boxes: map[string][]*box{}}
	w.noise = calm
	w.watch = newWatch()
	w.sessions, w.takenBack = map[string]*client{}, map[claim]bool{}
	for i := 1 + w.random.Intn(3); i > 0; i-- {
		lock, err := newWitness(w, fmt.Sprint("lock-", len(w.locks)))
		if err != nil {
			return err
		}
		w.locks = append(w.locks, lock)
	}
	for number, name := range w.cluster.Names() {
		p := newPlace(w, number, name)
		w.voters = append(w.voters, p)
		if err := p.init(); err != nil {
			return err
		}
		p.start()
	}
	w.beginIncidents()
	for i := 2 + w.random.Intn(4); i > 0; i-- {
		w.clients = append(w.clients, newClient(w, len(w.clients)))
	}
	return nil
}

// next lets the next event happen.
func (w *world) next() {
	if len(w.coming) == 0 {
		w.violated("liveness", "nothing is to come any more")
		return
	}
	e := w.coming.pop()
	w.now = e.at
	w.Steps++
	e.do()
	w.checkExclusion()
	if w.healed == 0 && w.Steps >= uint64(w.Events) {
		w.heal()
	}
	if w.healed > 0 {
		w.checkWaits()
	}
}

// isOver returns whether all have what they wanted after the faults stopped.
func (w *world) isOver() bool { return w.healed > 0 && w.allServed() }

// at plans an event.
func (w *world) at(t instant, do func()) {
	if t < w.now {
		t = w.now
	}
	w.planned++
	w.coming.push(happening{t, w.planned, do})
}

// in plans an event after a while.
func (w *world) in(d time.Duration, do func()) { w.at(after(w.now, d), do) }

// violated notes what a check found. The first one counts.
func (w *world) violated(check, format string, words ...interface{}) {
	if w.fault == nil {
		w.fault = &Violation{check, fmt.Sprintf(format, words...), time.Duration(w.now)}
		w.log("VIOLATED %v", w.fault)
	}
}

// note puts something that happened into the hash of the run.
func (w *world) note(words ...uint64) {
	const prime = 1099511628211
	w.hash = (w.hash ^ uint64(w.now)) * prime
	for _, word := range words {
		w.hash = (w.hash ^ word) * prime
	}
}

// noteText puts a text into the hash.
func (w *world) noteText(text []byte) {
	sum := fnv.New64a()
	_, _ = sum.Write(text)
	w.note(sum.Sum64())
}

// log writes a line of the schedule, if somebody reads it.
func (w *world) log(format string, words ...interface{}) {
	if w.Trace != nil {
		w.Trace(fmt.Sprintf("%12.6f ", time.Duration(w.now).Seconds()) + fmt.Sprintf(format, words...))
	}
}

// chance returns true so often of a million.
func (w *world) chance(ppm int) bool { return ppm > 0 && w.random.Intn(1000000) < ppm }

// upTo returns a random time up to a bound.
func (w *world) upTo(most time.Duration) time.Duration {
	if most <= 0 {
		return 0
	}
	return time.Duration(w.random.Int63n(int64(most)))
}

// clock is a clock that goes at a rate of its own.
type clock struct {
	since instant       // when its rate last changed
	base  time.Duration // what it showed then
	rate  int64         // in millionths of the true one
}

// shows returns what the clock shows at a time, in whole microseconds of the true clock.
func (c *clock) shows(t instant) time.Duration {
	return c.base + time.Duration(int64(t-c.since)/1000*c.rate/1000)
}

// when returns the first time at which the clock shows this, or more.
func (c *clock) when(shown time.Duration) instant {
	left := int64(shown - c.base)
	if left <= 0 {
		return c.since
	}
	return c.since + instant((left*1000+c.rate-1)/c.rate*1000)
}

// sets another rate from a time on.
func (c *clock) sets(t instant, rate int64) {
	c.base, c.since, c.rate = c.shows(t), t, rate
}
