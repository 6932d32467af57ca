package simulation

import (
	"bytes"
	"encoding/json"
	"fmt"
	"strings"
	"time"

	"calvundek.example/service/internal/voter"
	"calvundek.example/service/internal/wire"
	"calvundek.example/service/qlock"
	"calvundek.example/service/transport"
)

// wordOf returns a word of a mailbox, "" if it has too few.
func wordOf(mailbox string, which int) string {
	for ; which > 0; which-- {
		dot := strings.IndexByte(mailbox, '.')
		if dot < 0 {
			return ""
		}
		mailbox = mailbox[dot+1:]
	}
	if dot := strings.IndexByte(mailbox, '.'); dot >= 0 {
		return mailbox[:dot]
	}
	return mailbox
}

// grantOf is a number of a grant of a voter's vote for a lock.
type grantOf struct {
	place  int
	lock   string
	number uint64
}

// givenTo is to whom a grant was given.
type givenTo struct {
	client  int
	stamp   uint64
	session string
}

// watch is what is noted of all voters.
type watch struct {
	grants  map[grantOf]givenTo
	entered map[string]map[stampOf]string // by lock: which session entered under a stamp of its number
}

func newWatch() watch {
	return watch{grants: map[grantOf]givenTo{}, entered: map[string]map[stampOf]string{}}
}

// witness sees who is inside a lock, and has the guard of what it protects.
type witness struct {
	*world
	name   string
	isRare bool // it is wanted seldom
	inside []*held
	guard  *qlock.Fence
	last   *held // whose pass was admitted last
	turn   uint64

	highest uint64 // of the turns that voters said
}

func newWitness(w *world, name string) (*witness, error) {
	guard, err := qlock.NewFence()
	w.watch.entered[name] = map[stampOf]string{}
	return &witness{world: w, name: name, isRare: w.random.Intn(6) == 0, guard: guard}, err
}

// enters notes that a client is inside.
func (l *witness) enters(h *held) {
	l.inside = append(l.inside, h)
	of := stampOf{h.client.header.Number, h.stamp}
	if before, again := l.watch.entered[l.name][of]; again && before != h.client.name {
		l.violated("stamps", "two sessions entered %s under stamp %d of number %d", l.name, h.stamp, of.number)
	}
	l.watch.entered[l.name][of] = h.client.name
}

// leaves notes that a client is out.
func (l *witness) leaves(h *held) {
	for i, one := range l.inside {
		if one == h {
			l.inside = append(l.inside[:i], l.inside[i+1:]...)
			return
		}
	}
}

// checkExclusion looks for two who work with one lock.
func (w *world) checkExclusion() {
	for _, l := range w.locks {
		if len(l.inside) < 2 {
			continue
		}
		var works *held
		for _, h := range l.inside {
			if !h.works(w.now) {
				continue
			}
			if works != nil {
				w.violated("exclusion", "client %d (stamp %d, by voters %b) and client %d (stamp %d, by voters %b) work with %s",
					works.client.id, works.stamp, works.quorum, h.client.id, h.stamp, h.quorum, l.name)
				return
			}
			works = h
		}
	}
}

// shows shows a pass to the guard. Whoever works has to be admitted.
func (l *witness) shows(h *held) {
	turn, err := l.guard.Admit(h.pass)
	l.log("client %d shows the pass of stamp %d for %s: turn %d, %v", h.client.id, h.stamp, l.name, turn, err)
	l.note(turn, h.stamp)
	if err != nil {
		l.Refused++
		if h.works(l.now) {
			l.violated("guard", "client %d works with %s under stamp %d, and is refused: %v", h.client.id, l.name, h.stamp, err)
		}
		return
	}
	l.Shows++
	switch {
	case l.last == h && turn != l.turn:
		l.violated("guard", "turns %d and %d of one pass of %s", l.turn, turn, l.name)
	case l.last != h && turn <= l.turn:
		l.violated("guard", "turn %d of another pass of %s after turn %d", turn, l.name, l.turn)
	case l.last != h && h.wasLast:
		l.violated("guard", "a pass of %s under stamp %d of client %d is admitted after a later one", l.name, h.stamp, h.client.id)
	}
	l.last, l.turn, h.wasLast = h, turn, true
}

// checkSent looks at what leaves a voter: the disk has to have what it says.
func (r *process) checkSent(mailbox string, message []byte) {
	switch wordOf(mailbox, 2) {
	case "c":
		r.checkSaid(strings.TrimSuffix(strings.TrimPrefix(mailbox, "qlock."+r.cluster.ID+".c."), mailbox[strings.LastIndexByte(mailbox, '.'):]), message)
	case "p":
		r.checkWord(mailbox, message)
	case "o":
		if h, lines, err := wire.Read(message); err == nil {
			r.checkHeader(h)
			var knows voter.Knows
			if json.Unmarshal(lines, &knows) == nil { // else it is another answer
				r.checkKnows(knows, "an operator")
			}
		}
	}
}

// unsaved notes that a message says what the disk does not have.
func (r *process) unsaved(format string, words ...interface{}) {
	r.violated("unsaved", "voter %d "+format, append([]interface{}{r.number}, words...)...)
}

// checkHeader looks at the header of a message.
func (r *process) checkHeader(h wire.Header) {
	if start, _, err := r.disk.starts(); err != nil || h.Start > start {
		r.unsaved("speaks in start %d, and the disk has %d (%v)", h.Start, start, err)
	}
}

// checkSaid looks at what a voter says to a session.
func (r *process) checkSaid(session string, message []byte) {
	h, lines, err := wire.Read(message)
	if err != nil {
		r.violated("protocol", "voter %d sends what it can't read: %q", r.number, message)
		return
	}
	r.checkHeader(h)
	if h.Lapses > 0 {
		r.checkLapses(session, h.Lapses)
	}
	for r.fault == nil {
		lock, line, rest, found := wire.Next(lines)
		if !found {
			return
		}
		if lines = rest; string(lock) == "." {
			r.checkControl(session, bytes.Fields(line))
		} else {
			r.checkLine(session, string(lock), line)
		}
	}
}

// checkLapses looks for a count of lapses of a session: that of the number that it has, or the greatest while it has none.
func (r *process) checkLapses(session string, lapses uint64) {
	most, c := uint64(0), r.sessions[session]
	for number := 0; number < qlock.MaxClients; number++ {
		if c != nil && c.header.Epoch > 0 && number != c.header.Number {
			continue
		}
		if row, err := r.disk.session(number); err == nil && row.Lapses > most {
			most = row.Lapses
		}
	}
	if most < lapses {
		r.unsaved("says %d lapses to %s, and the disk has %d", lapses, session, most)
	}
}

// checkLine looks at a line of a vote.
func (r *process) checkLine(session, lock string, line []byte) {
	said := wire.ReadLine(line)
	words := bytes.Fields(line)
	var grant uint64
	switch string(said.Word) {
	case "locked":
		r.checkStamp(session, said)
		grant, _ = wire.Decimal(words[4])
		of, to := grantOf{r.number, lock, grant}, givenTo{said.To, said.Stamp, session}
		if before, again := r.watch.grants[of]; again && before != to {
			r.violated("grants", "voter %d gives grant %d of %s to %+v, which %+v had", r.number, grant, lock, to, before)
		}
		r.watch.grants[of] = to
	case "fail":
		r.checkStamp(session, said)
		return
	case "inquire":
		grant = said.Stamp
	default:
		return
	}
	saved, err := r.disk.vote(lock)
	_, ceiling, _ := r.disk.starts()
	switch {
	case err != nil:
		r.violated("state", "voter %d: %v", r.number, err)
	case grant > saved.given:
		r.unsaved("says %q of %s, and the disk has no grant above %d", line, lock, saved.given)
	case grant > ceiling:
		r.unsaved("says %q of %s, and the disk has the ceiling %d", line, lock, ceiling)
	case string(said.Word) == "locked" && grant == saved.held.Number && (saved.held.Client != uint64(said.To) || saved.held.Stamp != said.Stamp):
		r.unsaved("says %q of %s, and the disk has %+v", line, lock, saved.held)
	}
}

// checkStamp looks whether a run of a voter took one stamp from two sessions.
func (r *process) checkStamp(session string, said wire.Line) {
	of := stampOf{said.To, said.Stamp}
	if before, again := r.stamps[of]; again && before != session {
		r.violated("stamps", "voter %d takes stamp %d of number %d from %s and from %s", r.number, said.Stamp, said.To, before, session)
	}
	r.stamps[of] = session
}

// checkControl looks at a line of control.
func (r *process) checkControl(session string, words [][]byte) {
	if len(words) == 0 {
		return
	}
	number := func(i int) uint64 {
		if i >= len(words) {
			return 0
		}
		n, _ := wire.Decimal(words[i])
		return n
	}
	switch word := string(words[0]); word {
	case "claimed", "opened":
		row, err := r.disk.session(int(number(1)))
		if err != nil || row.Epoch < number(2) || row.Epoch == number(2) && row.Base < number(3) || row.Reserved < number(4) {
			r.unsaved("says %q to %s, and the disk has %+v (%v)", bytes.Join(words, []byte(" ")), session, row, err)
		}
	case "gone":
		saved, err := r.disk.vote(string(words[1]))
		if c := r.sessions[session]; err == nil && c != nil && saved.held.Number > 0 && saved.held.Stamp == number(2) &&
			saved.held.Client == uint64(c.header.Number) && c.header.Epoch > 0 {
			r.unsaved("says %q to %s, and the disk has %+v", bytes.Join(words, []byte(" ")), session, saved.held)
		}
	}
}

// checkWord looks at what a voter says to another one.
func (r *process) checkWord(mailbox string, message []byte) {
	h, lines, err := wire.Read(message)
	if err != nil {
		return
	}
	r.checkHeader(h)
	var said struct {
		Word    string       `json:"word"`
		Start   uint64       `json:"start"`
		Ceiling uint64       `json:"ceiling"`
		Why     string       `json:"why"`
		Knows   *voter.Knows `json:"knows"`
	}
	if json.Unmarshal(lines, &said) != nil || said.Why != "" {
		return
	}
	to, _ := wire.Decimal([]byte(wordOf(mailbox, 3)))
	switch said.Word {
	case "known", "kept":
		kept, err := r.disk.saved().Peer(int(to))
		if err != nil || kept.Start < said.Start || said.Word == "kept" && kept.Ceiling < said.Ceiling {
			r.unsaved("says %q to voter %d, and the disk has %+v (%v)", said.Word, to, kept, err)
		}
	}
	if said.Knows != nil {
		r.checkKnows(*said.Knows, fmt.Sprint("voter ", to))
	}
}

// checkKnows looks at what a voter says that it knows of sessions.
func (r *process) checkKnows(knows voter.Knows, whom string) {
	for number := 0; number < qlock.MaxClients; number++ {
		row, is := knows.Sessions[number]
		if saved, err := r.disk.session(number); is && (err != nil || saved.Epoch < row.Epoch || saved.Reserved < row.Reserved) {
			r.unsaved("says %+v of number %d to %s, and the disk has %+v (%v)", row, number, whom, saved, err)
		}
	}
}

// checkTaken looks at what comes to a voter of a session: a claim that is taken back is none that the session makes, or by which it has its
// number. The words that take claims back may come late, so no session claims an epoch again.
func (r *process) checkTaken(m transport.Message) {
	h, lines, err := wire.Read(m.Data)
	c := r.sessions[wire.SessionName(m.Sender(), h.Name)]
	for err == nil && c != nil {
		_, line, rest, found := wire.Next(lines)
		if !found {
			return
		}
		said, wrong := qlock.ReadClientSays(line)
		lines = rest
		isTakenBack := wrong == nil && said.Kind == qlock.Drop && said.First > 0
		if isTakenBack {
			r.takenBack[claim{c.name, said.Number, said.First}] = true
		}
		if isTakenBack && said.Number == c.asked && said.First == c.claims.Claimed(c.asked) {
			r.violated("claims", "voter %d hears that client %d takes epoch %d of number %d back, which it claims", r.number, c.id, said.First, said.Number)
		}
	}
}

// claim is a claim of a session.
type claim struct {
	session string
	number  int
	epoch   uint64
}

// checkOwn looks at a number that a session has by a claim: no voter heard that this was taken back.
func (c *client) checkOwn(epoch uint64) {
	if c.takenBack[claim{c.name, c.asked, epoch}] {
		c.violated("claims", "client %d goes on by epoch %d of number %d, and a voter has heard that this is taken back", c.id, epoch, c.asked)
	}
}

// longestWait is how long somebody may wait for a lock once all faults stopped, besides three TTLs.
const longestWait = time.Second

// checkWaits looks for somebody who waits for too long after the faults stopped.
func (w *world) checkWaits() {
	if w.now < w.nextLook {
		return
	}
	w.nextLook = after(w.now, 100*time.Millisecond)
	for _, c := range w.clients {
		for _, l := range c.locks {
			since := l.since
			if since < w.calmed {
				since = w.calmed
			}
			if l.wants && after(since, w.bound) < w.now {
				w.violated("liveness", "client %d has waited for %s for %v, since no fault happens any more", c.id, l.name, time.Duration(w.now-since))
			}
		}
	}
	if after(w.calmed, 3*w.bound) < w.now {
		w.violated("liveness", "not everybody got all locks in %v", 3*w.bound)
	}
}

// allServed returns whether each client had each lock since the faults stopped.
func (w *world) allServed() bool {
	for _, c := range w.clients {
		for _, l := range c.locks {
			if !l.served {
				return false
			}
		}
	}
	return true
}
