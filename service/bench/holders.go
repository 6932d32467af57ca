package main

import (
	"errors"
	"fmt"
	"os"
	"sort"
	"strings"
	"sync"
	"time"

	"calvundek.example/service/internal/config"
	"calvundek.example/service/internal/level"
	"calvundek.example/service/internal/local"
	"calvundek.example/service/internal/wire"
	"calvundek.example/service/qlock"
	"calvundek.example/service/transport"
)

// holders are many processes, each of which holds many locks for a long time, with a session in the shard of each lock.
//
// One machine has no room for as many clients. So a driver says to the voters what the clients of these processes say: it claims a number in
// the shard of each lock, asks a quorum for the lock, and from then on each process beats. No two processes want one lock, and the driver
// keeps some hundred bytes for each. It is no client for anything else.
type holders struct {
	processes, each int
	length          time.Duration
}

// The errors of a measurement.
var (
	errHolders = errors.New("some locks are not to be had")
	errStart   = errors.New("the voter does not serve again")
)

// atOnce is how many locks are asked for at once. The cluster is new, so each session is the first one of its number.
const (
	atOnce = 1 << 12
	epoch  = 1
	stamps = 64
)

// holding is a lock that a process holds, and its session.
type holding struct {
	lock, session string
	process       *holder
	place         int // on the roll of the process
	number        int
	quorum        uint64
	claimed       uint64 // the voters at which the session has its number
	locked        uint64 // those whose votes it has
	entries       []uint64
}

// holder is a process, by what its beats to each voter say.
type holder struct {
	name     string
	holdings []*holding
	beats    []toVoter
}

// toVoter is what a process says to a voter with each beat, by the first places of shares, which of these it did not acknowledge yet, and
// which it refused.
type toVoter struct {
	shares  map[int]wire.Ask
	count   uint64
	left    time.Time
	waits   map[int]bool
	refused map[int]bool
}

// driver says what holders say.
type driver struct {
	cluster *config.Cluster
	plan    *qlock.Plan
	mark    string
	link    *transport.NATS

	mutex      sync.Mutex
	holders    []*holder
	byProcess  map[string]*holder
	bySession  map[string]*holding
	replies    []time.Duration // how long voters took to acknowledge beats
	unanswered int             // shares of beats that were not acknowledged before the next one
}

// measure lets all processes take their locks, and prints what voters do while these are held, and how long one takes to start then.
func (h holders) measure(cluster *local.Cluster) error {
	d, err := h.driver(cluster)
	if err != nil {
		return err
	}
	rest, err := d.all()
	if err != nil {
		return err
	}
	go d.listen()
	ended := make(chan struct{})
	defer close(ended)
	go d.beat(ended)
	began := time.Now()
	for len(rest) > 0 {
		chunk := rest[:least(atOnce, len(rest))]
		if err := d.take(chunk); err != nil {
			return err
		}
		if rest = rest[len(chunk):]; len(rest)/atOnce%16 == 0 {
			fmt.Fprintf(os.Stderr, "%.0f s: %d locks are left\n", time.Since(began).Seconds(), len(rest))
		}
	}
	fmt.Printf("%d processes hold %d locks each: they got them in %.0f s\n", h.processes, h.each, time.Since(began).Seconds())
	if err := d.watch(cluster, h.length); err != nil {
		return err
	}
	if err := startOf(cluster, 0); err != nil {
		return err
	}
	return d.renewAll(cluster, 0)
}

func least(a, b int) int {
	if a < b {
		return a
	}
	return b
}

// driver makes the processes and the names of their locks.
func (h holders) driver(cluster *local.Cluster) (*driver, error) {
	settings, err := config.ReadCluster(cluster.File)
	if err != nil {
		return nil, err
	}
	d := &driver{cluster: settings, plan: settings.Planned, mark: settings.Marks()[0], byProcess: map[string]*holder{}, bySession: map[string]*holding{}}
	if d.link, err = transport.Connect(settings, config.Access{}, "qlock holders"); err != nil {
		return nil, err
	}
	voters := len(settings.Names())
	for i := 0; i < h.processes; i++ {
		nonce, err := config.Nonce()
		if err != nil {
			return nil, err
		}
		one := &holder{name: settings.SessionName(0, nonce), beats: make([]toVoter, voters)}
		for v := range one.beats {
			one.beats[v] = toVoter{shares: map[int]wire.Ask{}, waits: map[int]bool{}, refused: map[int]bool{}}
		}
		d.holders, d.byProcess[one.name] = append(d.holders, one), one
		for place := 0; place < h.each; place++ {
			if nonce, err = config.Nonce(); err != nil {
				return nil, err
			}
			lock := fmt.Sprintf("held-%d-%d", i, place)
			n := i*h.each + place
			l := &holding{lock: lock, session: settings.SessionName(settings.ShardOfLock(lock), nonce), process: one, place: place,
				quorum: d.plan.Quorums[n%len(d.plan.Quorums)], entries: make([]uint64, voters)}
			one.holdings, d.bySession[l.session] = append(one.holdings, l), l
		}
	}
	return d, nil
}

// all returns all locks, whose sessions have the numbers of their shards one after the other. It fails if a shard has too few.
func (d *driver) all() (all []*holding, err error) {
	used := map[int]int{}
	for _, one := range d.holders {
		for _, l := range one.holdings {
			shard := d.cluster.ShardOfLock(l.lock)
			if l.number = used[shard]; l.number == qlock.MaxClients {
				return nil, errShards
			}
			used[shard]++
			all = append(all, l)
		}
	}
	return all, nil
}

// take takes some locks: a number of each one's shard at all voters, and the votes of its quorum.
func (d *driver) take(chunk []*holding) error {
	voters := uint64(1)<<len(d.cluster.Names()) - 1
	if err := d.repeat(chunk, d.claim, func(l *holding) bool { return l.claimed == voters }); err != nil {
		return err
	}
	return d.repeat(chunk, d.ask, func(l *holding) bool { return l.locked&l.quorum == l.quorum && l.isOnAllRolls() })
}

// isOnAllRolls returns whether all voters made an entry for the session.
func (l *holding) isOnAllRolls() bool {
	for _, entry := range l.entries {
		if entry == 0 {
			return false
		}
	}
	return true
}

// repeat says something to voters for each lock of which it is not done, again each second, until all are done.
func (d *driver) repeat(chunk []*holding, say func(l *holding, voter int) []byte, isDone func(*holding) bool) error {
	for tries := 0; tries < 30; tries++ {
		out := make([]wire.Bundle, len(d.cluster.Names()))
		d.each(chunk, isDone, func(l *holding) {
			for v := range out {
				message := say(l, v)
				if message == nil {
					continue
				}
				if !out[v].HasRoom(message) {
					d.send(v, out[v].Take())
				}
				out[v].Add(message)
			}
		})
		for v := range out {
			if out[v].Count() > 0 {
				d.send(v, out[v].Take())
			}
		}
		for began := time.Now(); time.Since(began) < time.Second; time.Sleep(2 * time.Millisecond) {
			if d.each(chunk, isDone, func(*holding) {}) == 0 {
				return nil
			}
		}
	}
	return errHolders
}

// each calls a function with each lock of which it is not done, and returns how many these are.
func (d *driver) each(chunk []*holding, isDone func(*holding) bool, use func(*holding)) (left int) {
	d.mutex.Lock()
	defer d.mutex.Unlock()
	for _, l := range chunk {
		if !isDone(l) {
			left++
			use(l)
		}
	}
	return left
}

func (d *driver) send(voter int, message []byte) {
	_ = d.link.Send(wire.VoterBox(d.cluster.ID, voter, wire.NoUser), message) // what is lost is said again
}

// header returns the header of a session's message.
func (d *driver) header(l *holding) wire.Header {
	h := wire.Header{Cluster: d.cluster.ID, Coterie: d.mark, Kind: wire.FromClient, Name: l.session, Level: level.Newest, Seq: 1}
	h.Number, h.Epoch, h.Reserved = l.number, epoch, stamps
	return h
}

// claim returns what claims a number for a session.
func (d *driver) claim(l *holding, _ int) []byte {
	h := d.header(l)
	h.Number, h.Epoch, h.Reserved = 0, 0, 0
	return append(h.Append(nil), fmt.Sprintf(". claim %d %d %d\n", l.number, epoch, stamps)...)
}

// ask returns what asks a voter for its vote, if it is of the lock's quorum, and is a heartbeat that says the session's place.
func (d *driver) ask(l *holding, voter int) []byte {
	out := d.show(l, voter)
	if l.quorum>>voter&1 == 1 {
		out = append(out, fmt.Sprintf("%s request %d %d %d\n", l.lock, l.number, voter, 1)...)
	}
	return out
}

// show returns a heartbeat that says the session's place.
func (d *driver) show(l *holding, _ int) []byte {
	out := append(d.header(l).Append(nil), ". open 0\n"...)
	out = wire.Ask{Kind: wire.SaysProcess, Text: l.process.name}.Append(out)
	return wire.Ask{Kind: wire.SaysRoll, Text: l.process.name, Place: l.place}.Append(out)
}

// renewAll lets all sessions say to a voter that started what it forgot, and that they are inside, and prints how long that takes. Of votes
// that nobody renews in its quiet time it lets go: then the rest is not said any more.
func (d *driver) renewAll(cluster *local.Cluster, voter int) error {
	var all []*holding
	d.mutex.Lock()
	for _, one := range d.holders {
		one.beats[voter] = toVoter{shares: map[int]wire.Ask{}, waits: map[int]bool{}, refused: map[int]bool{}}
		for _, l := range one.holdings {
			l.locked, l.entries[voter] = l.locked&^(1<<voter), 0
			all = append(all, l)
		}
	}
	d.mutex.Unlock()
	began, rest := time.Now(), all
	for len(rest) > 0 {
		chunk := rest[:least(atOnce, len(rest))]
		if d.repeat(chunk, func(l *holding, to int) []byte { return d.renewal(l, to, voter) }, func(l *holding) bool {
			return l.entries[voter] > 0 && l.locked&l.quorum == l.quorum
		}) != nil {
			break
		}
		rest = rest[len(chunk):]
	}
	took := time.Since(began).Seconds()
	time.Sleep(d.cluster.TTL.Duration) // its quiet time
	counts, err := numbers(cluster.Listen[voter : voter+1])
	if err == nil {
		fmt.Printf("%d of %d sessions said what it had forgotten in %.1f s; %.0f votes are held after its quiet time\n", len(all)-len(rest), len(all),
			took, counts["locks_held"])
	}
	return err
}

// renewal returns what a session says to the voter that started, nil for others.
func (d *driver) renewal(l *holding, to, started int) []byte {
	if to != started {
		return nil
	}
	out := d.show(l, to)
	if l.quorum>>to&1 == 1 {
		out = append(out, fmt.Sprintf("%s request %d %d %d inside\n", l.lock, l.number, to, 1)...)
	}
	return out
}

// listen takes what voters say to any session.
func (d *driver) listen() {
	messages, err := d.link.Listen("qlock." + d.cluster.ID + ".c.>")
	if err != nil {
		fmt.Fprintln(os.Stderr, err)
		return
	}
	for m := range messages {
		words := strings.Split(m.Mailbox, ".")
		wire.Messages(m.Data, func(message []byte) {
			h, lines, err := wire.Read(message)
			session, lines := wire.Addressee(lines)
			if session == "" {
				session = words[4]
			}
			if err == nil {
				d.hear(h.Number, session, lines)
			}
		})
	}
}

// hear takes what a voter says to a session, or a process.
func (d *driver) hear(voter int, session string, lines []byte) {
	d.mutex.Lock()
	defer d.mutex.Unlock()
	l, process := d.bySession[session], d.byProcess[session]
	for {
		lock, line, rest, found := wire.Next(lines)
		if lines = rest; !found {
			return
		}
		switch told, is := wire.ReadTold(line); {
		case process != nil && is && told.Kind == wire.Beaten:
			d.beaten(&process.beats[voter], told)
		case process != nil && is && told.Kind == wire.Unbeaten:
			process.beats[voter].refused[told.Place] = true
		case l == nil:
		case string(lock) == l.lock:
			if string(wire.ReadLine(line).Word) == "locked" {
				l.locked |= 1 << voter
			}
		case is && told.Kind == wire.Rolled:
			l.enters(voter, told.Entry)
		default:
			if says, err := qlock.ReadVoterSays(line); err == nil && says.Kind == qlock.Claimed {
				l.claimed |= 1 << voter
			}
		}
	}
}

// enters notes the number of the session's entry at a voter.
func (l *holding) enters(voter int, entry uint64) {
	first := l.place - l.place%wire.RollShare
	share := l.process.beats[voter].shares[first]
	share.Kind, share.Place, share.Mask, share.Sum = wire.Beats, first, share.Mask|1<<(l.place-first), share.Sum+entry-l.entries[voter]
	l.entries[voter], l.process.beats[voter].shares[first] = entry, share
}

// beaten notes that a voter acknowledged a beat.
func (d *driver) beaten(to *toVoter, told wire.Told) {
	if told.ID != to.count || !to.waits[told.Place] {
		return
	}
	if delete(to.waits, told.Place); len(to.waits) == 0 {
		d.replies = append(d.replies, time.Since(to.left))
	}
}

// beat lets each process beat once in each quarter of a TTL, one after the other.
func (d *driver) beat(ended <-chan struct{}) {
	period := d.cluster.TTL.Duration / 4
	for next := time.Now(); ; next = next.Add(period) {
		for i, one := range d.holders {
			if due := next.Add(period * time.Duration(i) / time.Duration(len(d.holders))); time.Until(due) > time.Millisecond {
				time.Sleep(time.Until(due))
			}
			select {
			case <-ended:
				return
			default:
			}
			for voter := range one.beats {
				d.beatTo(one, voter)
			}
		}
	}
}

// beatTo sends the beat of a process to a voter. The sessions of shares that the voter refused say their places again.
func (d *driver) beatTo(one *holder, voter int) {
	d.mutex.Lock()
	defer d.mutex.Unlock()
	to := &one.beats[voter]
	if len(to.shares) == 0 {
		return
	}
	var again wire.Bundle
	d.unanswered += len(to.waits)
	to.waits = map[int]bool{}
	for first := range to.refused {
		for _, l := range one.holdings[first:least(first+wire.RollShare, len(one.holdings))] {
			if again.HasRoom(nil) && l.entries[voter] > 0 {
				again.Add(d.show(l, voter))
			}
		}
		delete(to.refused, first)
	}
	if again.Count() > 0 {
		d.send(voter, again.Take())
		return
	}
	to.count, to.left = to.count+1, time.Now()
	out := wire.Header{Cluster: d.cluster.ID, Coterie: d.mark, Kind: wire.FromClient, Name: one.name, Seq: to.count, Level: level.Newest}.Append(nil)
	for first := 0; first < len(one.holdings); first += wire.RollShare { // in the order of the places
		if share, is := to.shares[first]; is {
			out, to.waits[first] = share.Append(out), true
		}
	}
	d.send(voter, out)
}

// watch prints what the voters do for a time.
func (d *driver) watch(cluster *local.Cluster, length time.Duration) error {
	time.Sleep(d.cluster.TTL.Duration) // until what was to be saved is
	before, err := d.counts(cluster)
	if err != nil {
		return err
	}
	d.mutex.Lock()
	d.replies, d.unanswered = nil, 0
	d.mutex.Unlock()
	began := time.Now()
	time.Sleep(length)
	seconds := time.Since(began).Seconds()
	after, err := d.counts(cluster)
	if err != nil {
		return err
	}
	for v := range after {
		memory, err := cluster.Voters[v].Memory()
		if err != nil {
			return err
		}
		more := func(key string) float64 { return (after[v][key] - before[v][key]) / seconds }
		fmt.Printf("%-5s %.0f votes are held, %d sessions; %.0f MB of its own memory, %.0f MB of its file; %.0f messages a second, %.1f saves, %.0f %% of a processor, %.0f reminders\n",
			d.plan.Names[v], after[v]["locks_held"], len(d.bySession), float64(memory.Own)/1e6, after[v]["file_bytes"]/1e6,
			more("messages_received_total"), more("commit_seconds_count"), 100*more("cpu_seconds_total"), more("reminders_total"))
	}
	d.mutex.Lock()
	defer d.mutex.Unlock()
	sort.Slice(d.replies, func(i, j int) bool { return d.replies[i] < d.replies[j] })
	at := func(part float64) float64 {
		if len(d.replies) == 0 {
			return 0
		}
		return 1000 * d.replies[int(part*float64(len(d.replies)-1))].Seconds()
	}
	fmt.Printf("%.0f beats a second are acknowledged, after ms: p50 %.1f  p99 %.1f  max %.1f; %d were not\n", float64(len(d.replies))/seconds,
		at(0.5), at(0.99), at(1), d.unanswered)
	return nil
}

// counts returns what each voter counts.
func (d *driver) counts(cluster *local.Cluster) (all []map[string]float64, err error) {
	for v := range cluster.Listen {
		one, err := numbers(cluster.Listen[v : v+1])
		if err != nil {
			return nil, err
		}
		all = append(all, one)
	}
	return all, nil
}

// startOf kills a voter, and prints how long it is until the next start serves.
func startOf(cluster *local.Cluster, voter int) error {
	one := cluster.Voters[voter]
	one.Kill()
	began := time.Now()
	if err := one.Start(); err != nil {
		return err
	}
	if !one.Says("event=serve", 2*time.Minute) {
		return errStart
	}
	took := time.Since(began).Seconds()
	time.Sleep(time.Second) // then it has counted them
	counts, err := numbers(cluster.Listen[voter : voter+1])
	if err != nil {
		return err
	}
	memory, err := one.Memory()
	if err == nil {
		fmt.Printf("%s was killed, and serves again after %.1f s, with %.0f locks, in %.0f MB of its own memory\n", one.Name, took, counts["locks"],
			float64(memory.Own)/1e6)
	}
	return err
}
