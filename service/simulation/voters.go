package simulation

import (
	"errors"
	"fmt"
	"io"
	"sort"
	"time"

	"calvundek.example/service/internal/config"
	"calvundek.example/service/internal/event"
	"calvundek.example/service/internal/voter"
	"calvundek.example/service/transport"
)

// quietLog is the log of voters, whose words nobody reads.
var quietLog = func() *event.Log {
	log := event.To(io.Discard)
	log.SetLeast(event.Error + 1)
	return log
}()

// The slowest and the fastest clock, in millionths of the true one: 0.9 of a TTL by the slowest clock takes no longer than a TTL by
// the fastest one.
const (
	slowest = 950000
	fastest = 1050000
)

// rate returns a rate of a clock, of a voter or a client.
func (w *world) rate(ofVoter bool) int64 {
	switch least, most := int64(slowest), int64(fastest); {
	case w.Wrong.Clocks:
		return []int64{700000, 1300000}[w.random.Intn(2)]
	case w.isWorst && ofVoter:
		return most
	case w.isWorst:
		return least
	case w.random.Intn(4) == 0:
		return least
	case w.random.Intn(3) == 0:
		return most
	default:
		return least + w.random.Int63n(most-least)
	}
}

// place is a voter of the cluster: its disk, its clock, and the process that runs.
type place struct {
	*world
	number int
	own    *config.Voter
	disk   *disk
	clock  clock
	cut    bool     // from the broker
	run    *process // nil if none runs
	twin   *process // of wrong hosts: a second process with the same disk
	steps  *process // the process that makes a step now
	copies []rows   // older copies of the disk
	newest rows     // what was there when an older copy was put in its place
	isLost bool     // the state was lost, and is not made again yet
	isMade bool     // others are asked for that
	waits  bool     // it is to start again later
}

// process is a run of a voter.
type process struct {
	*place
	daemon  *voter.Daemon
	present instant // it has done all up to then, which is after the world's time if that took a while
	still   instant // it stands still until then
	due     instant // when its next step is planned, 0 for none
	ended   bool
	boxes   map[string]*box
	inbox   [voter.Operators + 1]chan transport.Message
	turned  time.Time // when its last turn ended, by its clock
	stale   bool      // of wrong hosts: its clock shows that time

	nextSave  saving // how the next save ends, if not as usual
	leaves    int    // after so many messages it dies, if that is not 0
	standsIn  int    // after so many readings of the clock it stands still, if that is not 0
	standsFor time.Duration
	unnoticed bool   // of wrong hosts: the others let it be
	saves     uint64 // how often its state was saved before

	stamps map[stampOf]string // which session's REQUEST it took under a stamp
}

// stampOf is a stamp of a client's number.
type stampOf struct {
	number int
	stamp  uint64
}

func newPlace(w *world, number int, name string) *place {
	p := &place{world: w, number: number, disk: newDisk(), own: &config.Voter{Voter: name, Data: name, MaxLocks: 100,
		First: config.Duration{Duration: 250 * time.Millisecond}, Most: config.Duration{Duration: time.Second}}}
	p.clock = clock{base: time.Hour + w.upTo(time.Hour), rate: w.rate(true)}
	p.disk.saving = p.saving
	return p
}

// source hands out random bytes of the world.
type source struct{ *world }

func (s source) Read(into []byte) (int, error) { return s.random.Read(into) }

// around returns the surroundings of a process, nil for one that only makes a state.
func (p *place) around(r *process) voter.Surroundings {
	return voter.Surroundings{Random: source{p.world}, Disk: p.disk, Block: p.block,
		Now: func() time.Time { return p.date(r) }}
}

// date reads the clock of a process. Each reading takes a moment, and the process may stand still there.
func (p *place) date(r *process) time.Time {
	if r == nil {
		return dateOf(p.clock.shows(p.now))
	}
	if r.stale {
		return r.turned
	}
	r.present = after(r.present, time.Microsecond)
	if r.standsIn > 0 {
		if r.standsIn--; r.standsIn == 0 {
			p.log("voter %d stands still within a step for %v", p.number, r.standsFor)
			r.present = after(r.present, r.standsFor)
		}
	}
	return dateOf(p.clock.shows(r.present))
}

// dateOf returns what a clock shows as a date, and shownBy the other way.
func dateOf(shown time.Duration) time.Time { return time.Unix(0, int64(shown)) }

func shownBy(date time.Time) time.Duration { return time.Duration(date.UnixNano()) }

// init makes the state of a new voter.
func (p *place) init() error {
	_, err := voter.InitIn(p.around(nil), p.own, p.cluster)
	return err
}

// saving says how a save of the process that makes a step ends. It takes a while.
func (p *place) saving() saving {
	r := p.steps
	if r == nil {
		return saves
	}
	r.present = after(r.present, 50*time.Microsecond+p.upTo(p.incidents.slowest))
	how := r.nextSave
	r.nextSave = saves
	switch {
	case r.ended:
		return dies
	case how == dies || how == diesAfter:
		p.log("voter %d dies %s", p.number, map[saving]string{dies: "before a save", diesAfter: "after a save"}[how])
		r.ended = true
		return how
	case p.disk.full && p.Wrong.FailedSave:
		return lies
	case p.disk.full && p.random.Intn(4) == 0:
		return failsLate
	case p.disk.full:
		return fails
	case p.Wrong.SendsFirst:
		return isBehind
	}
	return saves
}

// start starts the voter, if its state is there and it does not run.
func (p *place) start() {
	if p.waits = false; p.run == nil && !p.isLost {
		p.run = p.open(false)
	}
}

// open opens the state in a new process. It returns nil if that did not succeed.
func (p *place) open(unnoticed bool) *process {
	r := &process{place: p, present: p.now, boxes: map[string]*box{}, stamps: map[stampOf]string{}, unnoticed: unnoticed}
	r.saves, _ = p.disk.saved().Saves()
	p.steps = r
	d, err := voter.OpenIn(p.around(r), p.own, p.cluster, r, quietLog)
	p.steps = nil
	if err != nil {
		r.leave()
		p.failed(err)
		return nil
	}
	r.daemon, r.turned = d, dateOf(p.clock.shows(r.present))
	start, _, _ := p.disk.saved().Starts()
	p.log("voter %d starts, for the %d. time by its state", p.number, start)
	r.plan(p.now)
	return r
}

// Send sends a message of the process.
func (r *process) Send(mailbox string, message []byte) error {
	if r.ended {
		return nil
	}
	r.checkSent(mailbox, message)
	if !r.cut {
		r.broker.send(r.present, mailbox, message)
	}
	if r.leaves > 0 {
		if r.leaves--; r.leaves == 0 {
			r.log("voter %d dies after a message", r.number)
			r.ended = true
		}
	}
	return nil
}

// room is how many messages a mailbox has room for.
const room = 1 << 10

// kinds says how a voter takes what comes to a mailbox, by the word of the mailbox.
var kinds = map[string]voter.From{"v": voter.Clients, "p": voter.Voters, "read": voter.Readers, "write": voter.Operators}

// Listen returns what comes to a mailbox.
func (r *process) Listen(mailbox string) (<-chan transport.Message, error) {
	from := kinds[wordOf(mailbox, 2)]
	if from == voter.Nobody {
		return nil, fmt.Errorf("mailbox %q", mailbox)
	}
	messages := make(chan transport.Message, room)
	r.inbox[from] = messages
	r.boxes[mailbox] = &box{takes: func(m transport.Message) {
		if r.cut || r.ended {
			return
		}
		if from == voter.Clients {
			r.checkTaken(m)
		}
		if from == voter.Voters && r.unnoticed {
			m = r.forged(m)
		}
		select {
		case messages <- m:
			r.plan(r.now)
		default: // no room: it is lost
		}
	}}
	r.broker.listen(mailbox, r.boxes[mailbox])
	return messages, nil
}

// leave ends the mailboxes of the process.
func (r *process) leave() {
	r.ended = true
	var mailboxes []string
	for mailbox := range r.boxes {
		mailboxes = append(mailboxes, mailbox)
	}
	sort.Strings(mailboxes)
	for _, mailbox := range mailboxes {
		r.broker.leave(mailbox, r.boxes[mailbox])
	}
}

// plan plans the next step at a time, if none comes before.
func (r *process) plan(t instant) {
	if t < r.present {
		t = r.present
	}
	if t < r.still {
		t = r.still
	}
	if r.due > 0 && r.due <= t {
		return
	}
	r.due = t
	r.at(t, func() {
		switch {
		case r.ended || r.due != t:
		case r.now < r.still:
			r.due = 0
			r.plan(r.still)
		default:
			r.due = 0
			r.step()
		}
	})
}

// step takes a message, if there is one, and makes a turn, as the loop of the daemon does.
func (r *process) step() {
	r.present, r.steps = r.now, r
	r.stale = r.Wrong.StaleTime
	r.daemon.Take(r.choose())
	r.stale = false
	until, err := r.daemon.Turn()
	r.turned = dateOf(r.clock.shows(r.present))
	r.steps = nil
	r.note(uint64(r.number), uint64(r.present))
	switch {
	case r.ended:
		r.isOver()
		r.restartLater(r.place)
	case err != nil:
		r.isOver()
		r.failed(err)
	default:
		r.plan(r.clock.when(shownBy(until)))
		for _, messages := range r.inbox {
			if len(messages) > 0 {
				r.plan(r.present)
			}
		}
	}
}

// choose takes a message of some mailbox that has one.
func (r *process) choose() (voter.From, transport.Message) {
	var have [voter.Operators + 1]voter.From
	n := 0
	for from, messages := range r.inbox {
		if len(messages) > 0 {
			have[n] = voter.From(from)
			n++
		}
	}
	if n == 0 {
		return voter.Nobody, transport.Message{}
	}
	from := have[0]
	if n > 1 {
		from = have[r.random.Intn(n)]
	}
	return from, <-r.inbox[from]
}

// isOver notes that the process is over. What it did not save is gone.
func (r *process) isOver() {
	r.leave()
	switch r {
	case r.place.run:
		r.place.run = nil
	case r.twin:
		r.place.twin = nil
	}
	r.disk.behind = nil
}

// kill ends the voter's process at once.
func (p *place) kill() {
	if p.run != nil {
		p.log("voter %d is killed", p.number)
		p.run.isOver()
	}
}

// end ends the voter's process by a signal.
func (p *place) end() {
	r := p.run
	if r == nil || p.now < r.present || p.now < r.still {
		return
	}
	p.log("voter %d is ended", p.number)
	r.present, p.steps = p.now, r
	_ = r.daemon.End() // a save that fails is that of a crash
	p.steps = nil
	r.isOver()
}

// failed notes why a process did not start, or ended by itself.
func (p *place) failed(err error) {
	p.log("voter %d ends: %v", p.number, err)
	p.note(uint64(p.number), 7)
	switch {
	case errors.Is(err, voter.ErrOlder):
		p.refused(p)
	case errors.Is(err, voter.ErrSave), errors.Is(err, errFull):
		p.restartLater(p)
	default:
		p.violated("state", "voter %d: %v", p.number, err)
	}
}
