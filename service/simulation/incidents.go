package simulation

import (
	"encoding/hex"
	"encoding/json"
	"errors"
	"fmt"
	"strconv"
	"time"

	"calvundek.example/service/internal/level"
	"calvundek.example/service/internal/operator"
	"calvundek.example/service/internal/voter"
	"calvundek.example/service/internal/wire"
	"calvundek.example/service/transport"
)

// kind is a kind of incidents. It returns false if it can't happen now.
type kind struct {
	name    string
	happens func(*world) bool
}

// kinds of incidents. Those of voters do not happen while an older copy of a state starts: what nobody can see is one of which all
// who know better are away.
var ofVoters = []kind{
	{"voters killed", func(w *world) bool {
		p := w.someVoter()
		if p != nil {
			p.kill()
			w.restartLater(p)
		}
		return p != nil
	}},
	{"voters that die beside a save", func(w *world) bool {
		p := w.someVoter()
		if p != nil {
			p.run.nextSave = []saving{dies, diesAfter}[w.random.Intn(2)]
		}
		return p != nil
	}},
	{"voters that die between messages", func(w *world) bool {
		p := w.someVoter()
		if p != nil {
			p.run.leaves = 1 + w.random.Intn(4)
		}
		return p != nil
	}},
	{"voters ended", func(w *world) bool {
		p := w.someVoter()
		if p != nil {
			p.end()
			w.restartLater(p)
		}
		return p != nil
	}},
	{"voters that stand still", func(w *world) bool {
		p := w.someVoter()
		if p != nil {
			p.run.still = after(w.now, w.upTo(2*w.ttl))
			w.log("voter %d stands still until %v", p.number, time.Duration(p.run.still))
		}
		return p != nil
	}},
	{"voters that stand still within a step", func(w *world) bool {
		p := w.someVoter()
		if p != nil {
			p.run.standsIn, p.run.standsFor = 1+w.random.Intn(20), w.upTo(2*w.ttl)
		}
		return p != nil
	}},
	{"voters cut off", func(w *world) bool {
		p := w.voters[w.random.Intn(len(w.voters))]
		if p.cut {
			return false
		}
		p.cut = true
		w.log("voter %d is cut off", p.number)
		w.in(w.upTo(3*w.ttl), func() { p.cut = false; w.log("voter %d is connected", p.number) })
		return true
	}},
	{"full disks", func(w *world) bool {
		p := w.voters[w.random.Intn(len(w.voters))]
		if p.disk.full {
			return false
		}
		p.disk.full = true
		w.log("the disk of voter %d is full", p.number)
		w.in(w.upTo(2*w.ttl), func() { p.disk.full = false; w.log("the disk of voter %d has room", p.number) })
		return true
	}},
	{"states lost", func(w *world) bool {
		p := w.someVoter()
		if p == nil || w.forgets != nil {
			return false
		}
		w.loses(p)
		return true
	}},
	{"clients that stand still once voters go on", func(w *world) bool {
		c := w.someClient()
		if c == nil || c.still > w.now || c.stage != isOpen {
			return false
		}
		ends := after(c.clock.when(c.beat+c.beats+ticks), w.upTo(10*time.Millisecond)) // its next heartbeat waits for them
		for _, p := range w.voters {
			if p.run != nil && p.run.present <= w.now && w.random.Intn(8) > 0 {
				p.run.still = ends
			}
		}
		w.log("voters stand still until %v, then client %d", time.Duration(ends), c.id)
		w.at(after(ends, w.upTo(20*time.Millisecond)), func() {
			if c.stage != isEnded && c.still <= w.now && w.healed == 0 {
				c.standsStill(w.upTo(3 * w.ttl))
			}
		})
		return true
	}},
	{"older copies of states", func(w *world) bool { return w.putsCopy() }},
	{"servers frozen", func(w *world) bool {
		w.broker.thawsAt = after(w.now, w.upTo(2*w.ttl))
		w.log("the broker stands still until %v", time.Duration(w.broker.thawsAt))
		return true
	}},
	{"times of noise", func(w *world) bool {
		w.noise = noise{lost: w.random.Intn(200000), twice: w.random.Intn(200000), late: w.random.Intn(200000),
			usual: w.upTo(50 * time.Millisecond), latest: w.upTo(3 * w.ttl)}
		w.log("the broker: %+v", w.noise)
		w.in(w.upTo(5*w.ttl), func() {
			if w.healed == 0 {
				w.noise = w.incidents.noise
			}
		})
		return true
	}},
}

// ofClients are kinds of incidents that may happen at any time.
var ofClients = []kind{
	{"clients killed", func(w *world) bool {
		c := w.someClient()
		if c != nil {
			w.log("client %d is killed", c.id)
			c.isOver()
			c.opensAgain(w.upTo(w.ttl))
		}
		return c != nil
	}},
	{"clients whose next session is given up", func(w *world) bool {
		c := w.someClient()
		if c != nil {
			w.log("client %d is killed", c.id)
			c.isOver()
			c.hasty = true
			c.opensAgain(0)
		}
		return c != nil
	}},
	{"clients that stand still", func(w *world) bool {
		c := w.someClient()
		if c != nil && c.still < w.now {
			d := w.upTo(3 * w.ttl)
			w.log("client %d stands still for %v", c.id, d)
			c.standsStill(d)
		}
		return c != nil
	}},
	{"clients cut off", func(w *world) bool {
		c := w.someClient()
		if c == nil || c.cut {
			return false
		}
		c.cut = true
		w.log("client %d is cut off", c.id)
		w.in(w.upTo(3*w.ttl), func() { c.cut = false; w.log("client %d is connected", c.id) })
		return true
	}},
	{"sessions that close", func(w *world) bool {
		c := w.someClient()
		if c == nil || c.stage != isOpen || c.draining || c.still > w.now {
			return false
		}
		c.drain()
		c.flush()
		return true
	}},
	{"times without sessions", func(w *world) bool {
		if w.rests > w.now || len(w.Only) == 0 && w.random.Intn(30) > 0 {
			return false
		}
		w.rests = after(w.now, 70*time.Second+w.upTo(time.Minute)) // after a minute the numbers may be forgotten
		w.log("all clients close their sessions until %v", time.Duration(w.rests))
		return true
	}},
	{"levels that are raised", func(w *world) bool {
		w.log("an operator raises the level to %d", level.Newest)
		w.orders(fmt.Sprintf("level %d\n", level.Newest))
		return true
	}},
	{"sessions that operators end", func(w *world) bool {
		c := w.someClient()
		if c == nil || c.stage != isOpen {
			return false
		}
		w.log("an operator ends the session of client %d, number %d", c.id, c.header.Number)
		w.evicts(c.header.Number)
		return true
	}},
	{"clocks that change their rates", func(w *world) bool {
		if w.random.Intn(2) == 0 {
			p := w.voters[w.random.Intn(len(w.voters))]
			p.clock.sets(w.now, w.rate(true))
			return true
		}
		c := w.clients[w.random.Intn(len(w.clients))]
		c.clock.sets(w.now, w.rate(false))
		return true
	}},
}

// evicts lets an operator end the session of a number at all voters.
func (w *world) evicts(number int) {
	words := fmt.Sprintf("evict %d\n", number)
	if w.Wrong.EvictsAtOnce {
		words = fmt.Sprintf("evict %d now\n", number)
	}
	w.orders(words)
}

// orders lets an operator say something to all voters.
func (w *world) orders(words string) {
	w.questions++
	h := wire.Header{Cluster: w.cluster.ID, Coterie: w.cluster.Marks()[0], Kind: wire.FromOperator, Name: fmt.Sprint("q", w.questions)}
	for _, p := range w.voters {
		w.broker.send(w.now, wire.WriteBox(w.cluster.ID, p.number, "alice"), append(h.Append(nil), words...))
	}
}

// Kinds returns the names of all kinds of incidents.
func Kinds() (names []string) {
	for _, k := range append(append([]kind(nil), ofVoters...), ofClients...) {
		names = append(names, k.name)
	}
	return names
}

// incidents are what may happen in a run. Each run has some kinds, and its own habits.
type incidents struct {
	ofVoters, ofClients []kind
	pause               time.Duration // from one to the next one, at most
	down                time.Duration // how long a voter is down, at most
	noise               noise         // what the broker does the rest of the time
	slowest             time.Duration // a save
	thinks, stays       time.Duration // how long a program does not want a lock, and is inside, at most
	longStays           int           // one of so many passes stays for longer than a TTL, none if 0
}

// beginIncidents chooses what may happen.
func (w *world) beginIncidents() {
	i := &w.incidents
	pick := func(of ...time.Duration) time.Duration { return of[w.random.Intn(len(of))] }
	*i = incidents{pause: pick(200*time.Millisecond, time.Second, 4*time.Second), down: pick(100*time.Millisecond, w.ttl, 3*w.ttl),
		slowest: pick(time.Millisecond, 5*time.Millisecond, 50*time.Millisecond), thinks: pick(10*time.Millisecond, 200*time.Millisecond, 2*time.Second),
		stays: pick(5*time.Millisecond, 50*time.Millisecond, w.ttl), longStays: []int{0, 10, 100}[w.random.Intn(3)], noise: calm}
	if w.random.Intn(2) == 0 {
		i.noise = noise{lost: w.random.Intn(20000), twice: w.random.Intn(20000), late: w.random.Intn(20000), usual: pick(time.Millisecond, 10*time.Millisecond), latest: w.ttl}
	}
	if w.Often {
		i.pause, i.thinks, i.stays = 500*time.Millisecond, 10*time.Millisecond, w.ttl
	}
	if w.Brief {
		i.thinks, i.stays = 10*time.Millisecond, 5*time.Millisecond
		i.longStays = []int{0, 100, 1000}[w.random.Intn(3)]
		i.pause = pick(time.Second, 4*time.Second, 10*time.Second)
	}
	choose := func(of []kind) (some []kind) {
		for _, k := range of {
			if isOf(w.Only, k.name) && (len(w.Only) > 0 || w.random.Intn(2) == 0) {
				some = append(some, k)
			}
		}
		return some
	}
	i.ofVoters, i.ofClients = choose(ofVoters), choose(ofClients)
	if w.Calm {
		return
	}
	w.noise = i.noise
	w.in(w.upTo(i.pause), w.incident)
	w.in(w.upTo(w.ttl), w.copies)
	if w.Wrong.TwoProcesses {
		w.in(w.upTo(w.ttl), w.startsTwins)
	}
}

func isOf(names []string, name string) bool {
	for _, one := range names {
		if one == name {
			return true
		}
	}
	return len(names) == 0
}

// incident lets something happen, and plans the next incident.
func (w *world) incident() {
	if w.healed > 0 {
		return
	}
	some := append([]kind(nil), w.incidents.ofClients...)
	if w.startsCopy == nil {
		some = append(some, w.incidents.ofVoters...)
	}
	if len(some) > 0 {
		if k := some[w.random.Intn(len(some))]; k.happens(w) {
			w.Incidents[k.name]++
			w.noteText([]byte(k.name))
		}
	}
	w.in(w.upTo(2*w.incidents.pause), w.incident)
}

// someVoter returns a voter that runs and is not within a step, nil if there is none.
func (w *world) someVoter() *place {
	p := w.voters[w.random.Intn(len(w.voters))]
	if p.run == nil || p.run.present > w.now {
		return nil
	}
	return p
}

// someClient returns a client that has a session, or is about to get one, nil if there is none.
func (w *world) someClient() *client {
	c := w.clients[w.random.Intn(len(w.clients))]
	if c.stage == isEnded {
		return nil
	}
	return c
}

// restartLater starts a voter again after a while.
func (w *world) restartLater(p *place) {
	if p.waits || p.isLost {
		return
	}
	p.waits = true
	down := w.incidents.down
	if w.healed > 0 {
		down = 100 * time.Millisecond
	}
	w.in(time.Millisecond+w.upTo(down), p.start)
}

// refused goes on with a voter of which another one said that its state is an older copy: the newest one is put back, or the state
// is lost.
func (w *world) refused(p *place) {
	if p.newest == nil {
		w.violated("state", "voter %d is refused, and its state is the newest one", p.number)
		return
	}
	w.Incidents["older copies refused"]++
	newest := p.newest
	p.newest = nil
	if w.random.Intn(2) == 0 {
		w.log("the newest state of voter %d is put back", p.number)
		p.disk.put(newest)
		w.restartLater(p)
		return
	}
	w.forgets = p
	w.loses(p)
}

// copies takes a copy of some voter's disk from time to time.
func (w *world) copies() {
	if w.healed > 0 {
		return
	}
	if p := w.voters[w.random.Intn(len(w.voters))]; !p.isLost && p.newest == nil {
		if len(p.copies) == 4 {
			p.copies = append(p.copies[:0:0], p.copies[1:]...)
		}
		p.copies = append(p.copies, p.disk.rows.copied())
	}
	if w.Copies {
		w.in(w.upTo(w.ttl/4), w.copies)
		return
	}
	w.in(w.upTo(2*w.ttl), w.copies)
}

// putsCopy puts an older copy of a voter's disk in its place, and starts it. All others are there, so one that knows better
// answers.
func (w *world) putsCopy() bool {
	p := w.voters[w.random.Intn(len(w.voters))]
	if w.forgets != nil || w.startsCopy != nil || p.isLost || len(p.copies) == 0 || p.run != nil && p.run.present > w.now || p.disk.full {
		return false
	}
	meta, err := p.disk.saved().Meta()
	start, ceiling, _ := p.disk.starts()
	knows := w.Wrong.OlderCopy
	for _, other := range w.voters {
		if other == p || w.Wrong.OlderCopy {
			continue
		}
		if other.run == nil || !other.run.daemon.Serves() || other.cut || other.disk.full || other.run.still > w.now || other.run.present > w.now ||
			other.run.nextSave != saves || other.run.leaves > 0 || other.run.standsIn > 0 {
			return false
		}
		if kept, err := other.disk.saved().Peer(p.number); err == nil && kept.Identity == meta.Identity && kept.Start == start && kept.Ceiling >= ceiling {
			knows = true
		}
	}
	if err != nil || !knows || p.cut || w.now < w.broker.thawsAt {
		return false
	}
	older := p.copies[w.random.Intn(len(p.copies))]
	if w.Copies && w.random.Intn(4) > 0 {
		older = p.copies[len(p.copies)-1]
	}
	if theirs, err := (voter.Saved{Rows: durable{older}}).Meta(); err != nil || theirs.Identity != meta.Identity && !w.Wrong.OlderCopy {
		p.copies = nil // of before the state was lost
		return false
	}
	p.kill()
	p.newest = p.disk.rows.copied()
	p.disk.put(older)
	w.log("an older copy of the state of voter %d is put in its place", p.number)
	w.startsCopy, w.forgets = p, p
	if w.Wrong.OlderCopy {
		p.run = p.open(true)
	} else {
		p.start()
	}
	w.in(100*time.Millisecond, func() { w.awaits(p) })
	return true
}

// awaits waits until a voter that forgot something serves again.
func (w *world) awaits(p *place) {
	if p.run == nil || !p.run.daemon.Serves() {
		w.in(100*time.Millisecond, func() { w.awaits(p) })
		return
	}
	p.newest = nil
	if w.forgets == p {
		w.forgets = nil
	}
	if w.startsCopy == p {
		w.startsCopy = nil
	}
}

// loses lets a voter lose its state. It is made again.
func (w *world) loses(p *place) {
	w.log("voter %d loses its state", p.number)
	if p.run != nil {
		p.run.isOver()
	}
	meta, _ := p.disk.saved().Meta()
	p.disk.put(rows{})
	p.isLost, p.isMade, p.newest, p.copies, w.forgets = true, false, nil, nil, p
	if w.Wrong.StartsEmpty {
		w.in(w.upTo(w.incidents.down), func() { w.startsEmpty(p, meta) })
		return
	}
	w.in(w.upTo(w.incidents.down), func() { w.makes(p) })
}

// makes begins to make a state again that was lost.
func (w *world) makes(p *place) {
	if p.isLost && !p.isMade {
		p.isMade = true
		w.asksOthers(p)
	}
}

// question is a question of one who makes a state again.
type question struct {
	replies []operator.Reply
	heard   int
}

// asksOthers asks the other voters what they know, and makes a state of what they reply, as `init --lost` does.
func (w *world) asksOthers(p *place) {
	random := make([]byte, 16)
	_, _ = w.random.Read(random)
	from, name := strconv.Itoa(p.number), hex.EncodeToString(random)
	h := wire.Header{Cluster: w.cluster.ID, Coterie: w.cluster.Marks()[0], Kind: wire.FromOperator, Name: name}
	q := &question{}
	for v, other := range w.cluster.Names() {
		if v != p.number {
			q.replies = append(q.replies, operator.Reply{Voter: v, Name: other, Err: operator.ErrSilent})
		}
	}
	boxes, box := wire.ReplyBoxes(w.cluster.ID, wire.SessionName(from, name)), &box{}
	box.takes = func(m transport.Message) {
		h, body, err := wire.Read(m.Data)
		for i := range q.replies {
			if r := &q.replies[i]; err == nil && r.Voter == h.Number && r.Err != nil && !p.cut {
				if r.Body = body; json.Valid(body) {
					r.Err = nil
					q.heard++
				}
			}
		}
	}
	w.broker.listen(boxes, box)
	begins := w.now
	var asks func()
	asks = func() {
		if q.heard == len(q.replies) || after(begins, 2*time.Second) < w.now {
			w.broker.leave(boxes, box)
			w.makesAgain(p, q.replies)
			return
		}
		for _, r := range q.replies {
			if r.Err != nil && !p.cut {
				w.broker.send(w.now, wire.ReadBox(w.cluster.ID, r.Voter, from), append(h.Append(nil), "knows\n"...))
			}
		}
		w.in(100*time.Millisecond, asks)
	}
	asks()
}

// makesAgain makes the state of a voter of what others replied, if these are enough, and starts it.
func (w *world) makesAgain(p *place, replies []operator.Reply) {
	meta, err := voter.MakeAgain(p.around(nil), p.own, w.cluster, replies)
	if errors.Is(err, voter.ErrNew) { // it never served
		meta, err = voter.InitIn(p.around(nil), p.own, w.cluster)
	}
	switch {
	case errors.Is(err, voter.ErrFewer):
		w.in(w.upTo(time.Second), func() { w.asksOthers(p) })
		return
	case err != nil:
		w.violated("state", "voter %d is not made again: %v", p.number, err)
		return
	}
	w.log("the state of voter %d is made again, as run %d", p.number, meta.Run)
	p.isLost = false
	p.start()
	w.in(100*time.Millisecond, func() { w.awaits(p) })
}

// heal stops all faults.
func (w *world) heal() {
	w.healed, w.calmed = w.now, w.now
	w.log("no fault happens any more")
	w.noise, w.broker.thawsAt, w.rests = calm, w.now, w.now
	for _, p := range w.voters {
		p := p
		p.cut, p.disk.full = false, false
		if r := p.run; r != nil {
			r.nextSave, r.leaves, r.standsIn = saves, 0, 0
			if r.present > w.calmed {
				w.calmed = r.present // it stands still within a step
			}
			if r.still > w.now {
				r.still = w.now
				r.plan(w.now)
			}
		} else {
			w.in(w.upTo(100*time.Millisecond), p.start)
			w.in(w.upTo(100*time.Millisecond), func() { w.makes(p) })
		}
	}
	for _, c := range w.clients {
		c.cut = false
		if c.still > w.now {
			c.still = w.now
		}
		for _, l := range c.locks {
			if c.stage == isEnded {
				c.opensAgain(c.upTo(c.ttl)) // it may rest
				break
			}
			if l.think(); l.held != nil {
				l.held.endsSoon()
			}
		}
	}
}
