package qlock

import (
	"bytes"
	"math/rand"
	"testing"
)

// world is three voters and clients of one lock, and all messages that were ever sent. Any of them may come now, or again.
type world struct {
	voters  []*Voter
	saved   []*Voter // what a voter comes back with after a crash, but for what it forgets then
	clients []*Client
	highest []uint64 // the highest stamp that a number ever used
	given   []uint64 // the grants that a voter ever gave
	lines   [][]byte
	random  *rand.Rand

	entries, anew, evicted, reborn int
}

// rules are how a world is played; the zero value is right.
type rules struct {
	below   uint64 // a client that begins anew begins so far below its last stamp
	evicts  bool   // voters let grants go at random
	loses   bool   // voters lose their states
	forgets bool   // a voter that lost its state is made as if it were new
}

var quorums = []uint64{0b011, 0b101, 0b110}

func newWorld(t *testing.T, seed int64) *world {
	w := &world{random: rand.New(rand.NewSource(seed)), highest: make([]uint64, 3), given: make([]uint64, 3)}
	for i := uint8(0); i < 3; i++ {
		v, err := NewVoter(i, MaxStamp)
		if err != nil {
			t.Fatal(err)
		}
		c, err := NewClient(i, MaxStamp)
		if err != nil {
			t.Fatal(err)
		}
		w.voters, w.clients = append(w.voters, v), append(w.clients, c)
		saved := *v
		w.saved = append(w.saved, &saved)
	}
	return w
}

// send keeps lines that were sent. They stay for ever, so they may come late, and again.
func (w *world) send(lines []byte, _ error) {
	for _, line := range bytes.Split(bytes.TrimSpace(lines), []byte("\n")) {
		if len(line) > 0 {
			w.lines = append(w.lines, append([]byte(nil), line...))
		}
	}
}

// deliver lets one line come, mostly a late one.
func (w *world) deliver() {
	if len(w.lines) == 0 {
		return
	}
	i := w.random.Intn(len(w.lines))
	if w.random.Intn(4) > 0 {
		i = len(w.lines) - 1 - w.random.Intn(1+len(w.lines)/8)
	}
	line := w.lines[i]
	to := int(bytes.Fields(line)[2][0] - '0')
	if line[0] == 'r' { // request, relinquish, release
		w.stepVoter(to, func(v *Voter) ([]byte, error) { return v.Take(line, nil) })
		return
	}
	lines, entered, err := w.clients[to].Take(line, nil)
	if entered {
		w.entries++
	}
	w.send(lines, err)
}

// stepVoter saves a voter after a step that sends, if it has to be saved.
func (w *world) stepVoter(i int, step func(v *Voter) ([]byte, error)) {
	lines, err := step(w.voters[i])
	if held, _ := w.voters[i].Held(); held.Number > w.given[i] {
		w.given[i] = held.Number
	}
	if len(lines) > 0 && w.voters[i].MustSave(w.saved[i]) {
		*w.saved[i] = *w.voters[i]
	}
	w.send(lines, err)
}

func (w *world) ask(i int) {
	lines, err := w.clients[i].Ask(quorums[w.random.Intn(3)], nil)
	if err != nil {
		return
	}
	if shown, _ := w.clients[i].Shows(); shown.Stamp > w.highest[i] {
		w.highest[i] = shown.Stamp
	}
	w.send(lines, nil)
}

// beginAnew puts a client without a state in the place of one that is gone.
func (w *world) beginAnew(i int, below uint64) {
	clock := w.highest[i]
	if clock < below {
		return
	}
	w.clients[i], _ = ClientAnew(uint8(i), MaxStamp, clock-below)
	w.anew++
}

// crash brings a voter back from its save, or makes one that lost it.
func (w *world) crash(i int, how rules) {
	if !how.loses || w.random.Intn(3) > 0 {
		*w.voters[i] = *w.saved[i]
		_ = w.voters[i].Forget() // the state is one that a call wrote
		return
	}
	above := w.given[i]
	if how.forgets {
		above = 0
	}
	w.voters[i], _ = RebornVoter(uint8(i), above, MaxStamp)
	*w.saved[i] = *w.voters[i]
	w.reborn++
}

func (w *world) evict(i int) {
	held, _ := w.voters[i].Held()
	if held.Number == 0 {
		return
	}
	w.evicted++
	w.stepVoter(i, func(v *Voter) ([]byte, error) { return v.Evict(held.Number, nil) })
}

// step does something at random.
func (w *world) step(how rules) {
	i := w.random.Intn(3)
	switch w.random.Intn(20) {
	case 0, 1:
		w.ask(i)
	case 2:
		w.send(w.clients[i].Leave(nil))
	case 3:
		if w.random.Intn(4) == 0 {
			w.send(w.clients[i].GiveUp(nil))
		}
	case 4:
		w.send(w.clients[i].Remind(nil))
		w.send(w.clients[i].Renew(nil))
	case 5:
		w.stepVoter(i, func(v *Voter) ([]byte, error) { return v.Remind(nil) })
	case 6:
		if w.random.Intn(3) == 0 {
			w.crash(i, how)
		}
	case 7:
		if w.random.Intn(3) == 0 {
			w.beginAnew(i, how.below)
		}
	case 8:
		if how.evicts {
			w.evict(i)
		}
	default:
		w.deliver()
	}
}

func (w *world) inside() (n int) {
	for _, c := range w.clients {
		if shown, _ := c.Shows(); shown.Phase == Inside {
			n++
		}
	}
	return n
}

const worlds, steps = 1000, 400

// meetings returns how many worlds had two inside.
func meetings(t *testing.T, how rules) (broken, entries, anew int) {
	for seed := int64(0); seed < worlds; seed++ {
		w := newWorld(t, seed)
		for n := 0; n < steps; n++ {
			if w.step(how); w.inside() > 1 {
				broken++
				break
			}
		}
		entries, anew = entries+w.entries, anew+w.anew
	}
	return broken, entries, anew
}

// A client that begins anew above all stamps of its number needs to remember nothing else: one is inside at a time. One
// that begins below its last stamp breaks the lock, so these worlds would show it.
func TestClientsThatBeginAnew(t *testing.T) {
	broken, entries, anew := meetings(t, rules{})
	t.Logf("%d entries, %d clients begun anew, %d worlds with two inside", entries, anew, broken)
	if broken > 0 || entries == 0 || anew == 0 {
		t.Error("two were inside, or nothing happened")
	}
	if broken, _, _ = meetings(t, rules{below: 2}); broken == 0 {
		t.Error("clients that begin below their stamps break no world: these worlds show nothing")
	}
}

// judge shows passes to a guard, and remembers after which passes others were admitted.
type judge struct {
	fence *Fence
	shown [][]byte
	over  map[string]bool // passes after which another one was admitted
	last  string
	turn  uint64

	admitted, refused, torn int
}

// collect keeps the passes of all that are inside.
func (j *judge) collect(w *world) {
	for _, c := range w.clients {
		if pass, err := c.Pass(); err == nil && (len(j.shown) == 0 || !bytes.Equal(pass, j.shown[len(j.shown)-1])) {
			j.shown = append(j.shown, pass)
		}
	}
}

// show shows one of the passes, a late one or the newest.
func (j *judge) show(w *world) {
	if len(j.shown) == 0 {
		return
	}
	pass := j.shown[len(j.shown)-1-w.random.Intn(len(j.shown))*w.random.Intn(2)]
	turn, err := j.fence.Admit(pass)
	if err != nil {
		j.refused++
		return
	}
	j.admitted++
	same := string(pass) == j.last
	if j.over[string(pass)] || same != (turn == j.turn) || turn < j.turn {
		j.torn++
	}
	if !same {
		j.over[j.last] = true
	}
	j.last, j.turn = string(pass), turn
}

func judged(t *testing.T, how rules) (admitted, refused, torn, meetings int) {
	for seed := int64(0); seed < worlds; seed++ {
		w := newWorld(t, seed)
		fence, err := NewFence()
		if err != nil {
			t.Fatal(err)
		}
		j := &judge{fence: fence, over: map[string]bool{}}
		for n := 0; n < steps; n++ {
			w.step(how)
			if w.inside() > 1 {
				meetings++
			}
			j.collect(w)
			if w.random.Intn(3) == 0 {
				j.show(w)
			}
		}
		admitted, refused, torn = admitted+j.admitted, refused+j.refused, torn+j.torn
	}
	return admitted, refused, torn, meetings
}

// Whatever voters let go, and whatever they and clients lose, no two of the passes that the guard admits interleave, and
// turns name passes. With voters that number their grants from 1 again they do, so these worlds would show it.
func TestGuardWhateverIsLetGo(t *testing.T) {
	admitted, refused, torn, meetings := judged(t, rules{evicts: true, loses: true})
	t.Logf("%d admitted, %d refused, %d steps with two inside, %d out of order", admitted, refused, meetings, torn)
	if torn > 0 || admitted == 0 || refused == 0 || meetings == 0 {
		t.Error("passes interleave, or nothing happened")
	}
	if _, _, torn, _ = judged(t, rules{evicts: true, loses: true, forgets: true}); torn == 0 {
		t.Error("voters that forget their grants tear no pass: these worlds show nothing")
	}
}
