package transport

import (
	"strings"
	"sync"
)

// leastWeight is how much of the room of a mailbox a message takes at least.
const leastWeight = RoomBytes / Room

// weight returns how much of the room of a mailbox a message takes.
func weight(m Message) int {
	if len(m.Data) < leastWeight {
		return leastWeight
	}
	return len(m.Data)
}

// ofOne is how many times as much of it a sender may have as is free.
const ofOne = 3

// room has what came to a mailbox, and is not handed out yet, in its order. One sender leaves some of it free, so there is always some for
// those who send little.
type room struct {
	mutex   sync.Mutex
	waiting []Message
	used    int
	by      map[string]int // of each sender that has something there
	came    chan struct{}
}

func newRoom() *room { return &room{by: map[string]int{}, came: make(chan struct{}, 1)} }

// put puts a message behind the others, and returns false if there is no room for one of its sender.
func (r *room) put(m Message) bool {
	r.mutex.Lock()
	defer r.mutex.Unlock()
	from, more, free := m.Sender(), weight(m), RoomBytes-r.used
	if more > free || r.by[from]+more > ofOne*free {
		return false
	}
	r.waiting = append(r.waiting, m)
	r.by[from], r.used = r.by[from]+more, r.used+more
	select {
	case r.came <- struct{}{}:
	default:
	}
	return true
}

// take takes the first message out, if there is one.
func (r *room) take() (m Message, isThere bool) {
	r.mutex.Lock()
	defer r.mutex.Unlock()
	if len(r.waiting) == 0 {
		return m, false
	}
	m, r.waiting[0] = r.waiting[0], Message{}
	r.waiting = r.waiting[1:]
	from, less := m.Sender(), weight(m)
	r.used -= less
	if r.by[from] -= less; r.by[from] == 0 {
		delete(r.by, from)
	}
	return m, true
}

// count returns how many messages wait.
func (r *room) count() int {
	r.mutex.Lock()
	defer r.mutex.Unlock()
	return len(r.waiting)
}

// mostSenders is how many senders are counted apart.
const mostSenders = 64

// Drops are messages that found no room, counted by who sent them. The zero value has none.
type Drops struct {
	mutex sync.Mutex
	all   uint64
	by    map[string]uint64
}

// Add counts a message of a sender. Those of very many senders are counted under no name, and no name has bytes that nobody shows.
func (d *Drops) Add(sender string) {
	d.mutex.Lock()
	defer d.mutex.Unlock()
	if d.by == nil {
		d.by = map[string]uint64{}
	}
	sender = strings.ToValidUTF8(sender, "?")
	if _, isKnown := d.by[sender]; !isKnown && len(d.by) >= mostSenders {
		sender = ""
	}
	d.all++
	d.by[sender]++
}

// Load returns how many there are.
func (d *Drops) Load() uint64 {
	d.mutex.Lock()
	defer d.mutex.Unlock()
	return d.all
}

// AddTo adds how many there are of each sender to other counts.
func (d *Drops) AddTo(counts map[string]uint64) {
	d.mutex.Lock()
	defer d.mutex.Unlock()
	for sender, count := range d.by {
		counts[sender] += count
	}
}
