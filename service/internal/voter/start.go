package voter

import (
	"bytes"
	"encoding/json"
	"errors"
	"fmt"
	"strconv"
	"time"

	"calvundek.example/service/internal/event"
	"calvundek.example/service/internal/wire"
	"calvundek.example/service/qlock"
	"calvundek.example/service/transport"
)

// word is what voters say to one another.
type word struct {
	Word    string `json:"word"`              // start, known, ceiling, kept or ended
	Voter   string `json:"voter"`             // who says so, by its name
	TTL     string `json:"ttl"`               // of its cluster's file
	Process string `json:"process"`           // of the voter that starts, also in a reply to it
	Start   uint64 `json:"start,omitempty"`   // in a reply: of the voter that starts
	Ceiling uint64 `json:"ceiling,omitempty"` // that it asks for, and that is kept
	Saves   uint64 `json:"saves,omitempty"`   // with which it ended
	Known   *Peer  `json:"known,omitempty"`   // what was known of it
	Why     string `json:"why,omitempty"`     // why it is refused
	From    int    `json:"from,omitempty"`    // of start: from which key on it wants to know of sessions
	Sums    []byte `json:"sums,omitempty"`    // of start: of what it has, by shards from that of this key on (sums.go)
	Knows   *Knows `json:"knows,omitempty"`   // what the one who answers knows
	Heard   uint64 `json:"heard,omitempty"`   // the voters that it heard lately, by their bits
	Missed  uint64 `json:"missed,omitempty"`  // those that it did not hear for longer (patience.go)
}

// own is what a state has of its own starts.
type own struct {
	Start   uint64 `json:"start"`
	Ceiling uint64 `json:"ceiling"`           // that was asked for last, 0 before it served for the first time
	Level   uint64 `json:"level,omitempty"`   // the cluster's
	Raised  uint64 `json:"raised,omitempty"`  // the start in which the level was raised last, from raisedFormat on
	Refused string `json:"refused,omitempty"` // why another voter refused it, and it never starts again
	IsPlace bool   `json:"place,omitempty"`   // since another voter has its place
	Left    int64  `json:"left,omitempty"`    // when its last run ended by itself, in milliseconds since 1970; 0 while one runs
	Lost    bool   `json:"lost,omitempty"`    // it was made again, with the ceiling of the one that was lost, and never served
}

// refusal returns the error of a state that was refused, nil if it was not.
func (o own) refusal() error {
	switch {
	case o.Refused == "":
		return nil
	case o.IsPlace:
		return fmt.Errorf("%w: %s", ErrPlace, o.Refused)
	}
	return fmt.Errorf("%w: %s", ErrOlder, o.Refused)
}

// joining is how far a start is, and later which voters keep the ceiling.
type joining struct {
	process string
	start   qlock.Start // who answered, what is known, and which ceiling was asked for and is kept
	began   time.Time
	left    time.Time     // when the run before ended by itself, zero if that is not known
	heard   uint64        // the voters that some one which answered heard lately
	missed  uint64        // those that some one did not
	next    time.Time     // when those that did not answer are asked again
	pause   time.Duration // before that; it doubles
	saves   uint64        // how often the state was saved before this run
	told    uint64        // the voters that said in the last TTL that they keep the ceiling
	toldAt  time.Time     // when all were told
	from    [places]int   // from which key on each of the others is asked for sessions
	done    bool          // this voter serves
	refused error
}

// others returns the numbers of the other voters of the plans in use.
func (d *Daemon) others() uint64 {
	return (uint64(1)<<d.inUse.voters() - 1) &^ d.bit()
}

// bit returns this voter's bit in a set of voters.
func (d *Daemon) bit() uint64 { return 1 << d.store.meta.Voter }

// begins asks for the first ceiling, if so many answered that this voter may go on.
func (d *Daemon) begins(now time.Time) {
	j, shown := &d.join, d.join.start.Shows()
	if shown.Asked > 0 {
		return
	}
	isShort := d.inUse.haveAny(^shown.Answered) || d.isLost() && !d.inUse.haveQuorums(shown.Answered)
	j.start.Begins(qlock.Answers{Others: d.others(), HaveSilentQuorum: isShort,
		HaveQuorums: d.inUse.haveQuorums(shown.Answered | d.bit()), IsPatient: now.Sub(j.began) > d.patience(now)})
	if j.start.Shows().Asked > 0 {
		d.asksOthers(now)
	}
}

// start asks the others until this voter may take lines, and tells each until it answers.
func (d *Daemon) start(now time.Time) {
	d.begins(now)
	j, shown := &d.join, d.join.start.Shows()
	if j.done && now.Sub(j.toldAt) > d.cluster.TTL.Duration {
		j.told, j.toldAt = 0, now // so a process hears if a later one took its place
	}
	if now.Before(j.next) {
		return
	}
	if j.pause = 2*j.pause + time.Millisecond; j.pause > askAgain {
		j.pause = askAgain
	}
	if j.next = now.Add(j.pause); j.done && !shown.IsWaiting() {
		j.next = now.Add(tellAgain)
	}
	for voter := 0; voter < places; voter++ {
		bit := d.others() & (1 << voter)
		if bit&^shown.Answered != 0 {
			d.asks(voter)
		}
		if shown.Asked > 0 && bit&^j.told != 0 {
			d.write(voter, word{Word: "ceiling", Process: j.process, Ceiling: shown.Asked})
		}
	}
}

// asks asks another voter what it knows, from where its last answer ended.
func (d *Daemon) asks(voter int) {
	j := &d.join
	d.write(voter, word{Word: "start", Process: j.process, Ceiling: d.store.own.Ceiling, From: j.from[voter], Sums: d.sums(j.from[voter])})
}

// asksOthers asks the others to keep the ceiling that was asked for now.
func (d *Daemon) asksOthers(now time.Time) {
	d.join.told, d.join.next = 0, now
	if !d.join.done {
		d.floor = d.join.start.Shows().Floor
	}
	d.isKept(now)
}

// isKept raises the ceiling once voters keep it that with this one contain a quorum.
func (d *Daemon) isKept(now time.Time) {
	j := &d.join
	turn := j.start.Turns(d.inUse.haveQuorums(j.start.Shows().Kept | d.bit()))
	switch turn {
	case qlock.Waits:
		return
	case qlock.AsksAgain: // somebody knew of a higher one
		d.asksOthers(now)
		return
	}
	shown := j.start.Shows()
	d.store.own.Ceiling, d.store.own.Lost, d.newOwn = shown.Ceiling, false, true
	d.ceiling, d.isSpent = shown.Ceiling, false
	d.m.left.Set(float64(d.ceiling) - float64(greatest(d.floor, d.m.most)))
	if turn == qlock.Raises {
		d.skipWaiters(now)
		return
	}
	j.done = true
	d.raiseAll()
	d.leases.hearAll(now)
	for _, v := range d.busy.all {
		client := int(v.client)
		v.shard.endedByWord(client, v.shard.rare(client).byWord || v.isHeld && !v.shard.bare(client).Open)
		if v.isHeld && v.shard.isEarlier(client, v.stamp) {
			v.shard.passes(client, now) // this run may not know how the number was passed on
		}
	}
	if turn == qlock.ServesQuietly {
		d.beQuiet(now)
	}
	d.log.Write(event.Info, "serve", "start", d.store.own.Start, "ceiling", d.ceiling, "clean", shown.IsClean,
		"answered", d.inUse.names(shown.Answered))
}

// raised is above which number, and up to which one, the votes go on that a voter had as it was noted.
type raised struct{ floor, ceiling uint64 }

// raiseAll lets all votes go on above the floor: they keep their grants. One that is packed goes on as it is unpacked,
// as there may be many. None is saved before its next step.
func (d *Daemon) raiseAll() {
	d.raised = raised{d.floor, d.ceiling}
	for _, v := range d.votes {
		if voter := v.extra().voter; voter != nil {
			d.raised.raise(voter)
		}
		v.isRaised = true
	}
}

// raise lets a proved voter go on. The second time it changes nothing.
func (r raised) raise(voter *qlock.Voter) {
	_ = voter.Extend(r.ceiling) // it fails if the limit is a later ceiling
	_ = voter.Raise(r.floor)    // it fails if more grants were given, or skipped
}

// needsCeiling asks for the next ceiling if half of the last block is used.
func (d *Daemon) needsCeiling(number uint64, now time.Time) {
	before := d.join.start.Shows().Asked
	if d.join.start.Needs(number); d.join.start.Shows().Asked > before {
		d.asksOthers(now)
	}
}

// tellAll lets all others keep the ceiling, once the plans in use changed.
func (d *Daemon) tellAll() {
	d.join.start.Renews()
	d.join.told, d.join.next = 0, time.Time{}
}

// write puts a word to another voter with what leaves after the next save.
func (d *Daemon) write(voter int, w word) {
	w.Voter, w.TTL = d.own.Voter, d.cluster.TTL.String()
	d.letters = append(d.letters, posted{voter, w})
}

// posted is a word to another voter.
type posted struct {
	voter int
	word  word
}

// deliverLetters makes messages of the words to other voters.
func (d *Daemon) deliverLetters() {
	header := d.header()
	for _, one := range d.letters {
		text, err := json.Marshal(one.word)
		if err != nil {
			continue // no word has what can't be written
		}
		d.post(wire.PeerBox(d.cluster.ID, one.voter, d.store.meta.Voter), append(append(header.Append(nil), text...), '\n'))
	}
	d.letters = nil
}

// hearPeer takes what another voter says.
func (d *Daemon) hearPeer(m transport.Message, now time.Time) {
	h, lines, err := wire.Read(m.Data)
	var w word
	if err != nil || h.Cluster != d.cluster.ID || h.Kind != wire.FromVoter || h.Number == d.store.meta.Voter ||
		m.Sender() != strconv.Itoa(h.Number) || len(m.Data) > mostMessage ||
		json.Unmarshal(bytes.TrimSpace(lines), &w) != nil || !d.isOfPlan(h.Number, w) {
		d.m.foreign.Inc()
		return
	}
	d.spoke[h.Number] = now
	switch w.Word {
	case "start", "ceiling":
		d.meet(h, w)
	case "ended":
		if p := d.peers[h.Number].endedWith(h.Name, h.Start, w.Saves); p != d.peers[h.Number] {
			d.putPeer(h.Number, p)
		}
	case "known", "kept":
		d.hearAnswer(h, w, now)
	}
}

// isOfPlan returns whether a word is of a voter with this cluster's TTL, and with the name that its place has in the plans
// in use. Voters of later plans may have other places.
func (d *Daemon) isOfPlan(place int, w word) bool {
	for _, plan := range d.inUse {
		if place < len(plan.Names) && plan.Names[place] != w.Voter {
			return false
		}
	}
	return w.TTL == d.cluster.TTL.String()
}

// hearAnswer takes what another voter says of this one.
func (d *Daemon) hearAnswer(h wire.Header, w word, now time.Time) {
	p, j := d.peers[h.Number], &d.join
	isKnown := p.Identity == "" || p.Identity == h.Name || h.Run > p.Run
	switch {
	case w.Known == nil || !isKnown:
		d.m.foreign.Inc() // it is not the voter that is known there
	case w.Process != j.process && w.Why == "" && w.Start > d.store.own.Start && p.Identity == h.Name &&
		w.Known.Identity == d.store.meta.Identity: // else it is a late word to the one whose state was lost
		d.beRefused(ErrOlder, fmt.Sprintf("voter %s says that a later process of this voter started", w.Voter))
	case w.Process != j.process:
		// it is of an earlier process of this voter
	case w.Why != "":
		d.beRefused(refusalOf(*w.Known, d.self()), fmt.Sprintf("voter %s says: %s", w.Voter, w.Why))
	case w.Word == "known" && w.Knows != nil:
		d.learnOfItself(h, w, now)
	case w.Word == "kept" && w.Ceiling == j.start.Shows().Asked && p.Identity == h.Name && p.Start == h.Start:
		j.told |= 1 << h.Number
		isFirst := w.Known.Identity != d.store.meta.Identity || w.Known.Process != j.process // it did not hear of this start before
		if j.start.IsKeptBy(h.Number, w.Ceiling, isFirst, w.Known.Ceiling) == nil {
			d.isKept(now)
		}
	}
}

// beRefused notes that another voter refuses this one.
func (d *Daemon) beRefused(why error, says string) {
	if d.join.refused != nil {
		return
	}
	d.join.refused = fmt.Errorf("%s: %w: %s", file(d.own.Data), why, says)
	d.store.own.Refused, d.store.own.IsPlace = says, errors.Is(why, ErrPlace)
}

// learnOfItself takes what another voter knew of this one, of others and of sessions. Also what comes late is taken, but for
// ceilings, which are not raised any more.
func (d *Daemon) learnOfItself(h wire.Header, w word, now time.Time) {
	j := &d.join
	who, err := d.peers[h.Number].meets(w.Knows.Peers[h.Number])
	if err != nil || who.Identity != h.Name {
		d.m.foreign.Inc()
		return
	}
	if who != d.peers[h.Number] {
		d.putPeer(h.Number, who)
	}
	err = d.learnsLevel(w.Knows.Level)
	if d.isLost() && w.Knows.Oldest > d.plans.oldest() { // it may have retired a plan that it would take again
		err = ErrBefore
	}
	if err != nil {
		j.refused = fmt.Errorf("%s: %w", file(d.own.Data), err)
		return
	}
	if w.Knows.Next > w.Knows.From { // it has answered once it told all sessions
		if d.learnAll(*w.Knows, now); w.Knows.From == j.from[h.Number] && d.cluster.IsKey(w.Knows.Next) {
			j.from[h.Number] = w.Knows.Next
			d.asks(h.Number)
		}
		return
	}
	if w.Knows.From != j.from[h.Number] || j.start.Hears(h.Number, w.Known.Ceiling, w.Known.isClean(d.store.meta.Identity, j.saves)) != nil {
		return
	}
	j.heard, j.missed = j.heard|w.Heard, j.missed|w.Missed
	d.learnAll(*w.Knows, now)
}

// learnAll takes what another voter knows of sessions and of other voters.
func (d *Daemon) learnAll(known Knows, now time.Time) {
	for key, row := range known.Sessions {
		if !d.cluster.IsKey(key) {
			continue
		}
		s, number := d.shardOfKey(key)
		if row.Lapses = 0; d.learnRow(s, number, row, now) {
			d.recount(s, number)
		}
	}
	for shard, floor := range known.Floors {
		if d.cluster.IsKey(shard * qlock.MaxClients) {
			d.learnFloor(shard, floor, now)
		}
	}
	for place, p := range known.Peers {
		if place < 0 || place >= places || place == d.store.meta.Voter {
			continue
		}
		if later := laterPeer(d.peers[place], p); later != d.peers[place] {
			d.putPeer(place, later)
		}
	}
}

// learnRow takes what another voter knows of a number of a shard, and returns whether it has another session now.
func (d *Daemon) learnRow(s *shard, number int, row Session, now time.Time) bool {
	if d.isLost() {
		return s.relearn(number, row, now)
	}
	return s.learn(number, row, now)
}

// refusalOf returns why a voter is refused of which another one knows this.
func refusalOf(known, self Peer) error {
	if _, err := known.meets(self); err != nil {
		return err
	}
	return ErrOlder
}

// self returns what this voter is to the others.
func (d *Daemon) self() Peer {
	return Peer{Identity: d.store.meta.Identity, Run: d.store.meta.Run, Start: d.store.own.Start, Process: d.join.process}
}

// isLost returns whether this voter lost its state, and did not serve since it was made again. Then it knows only what others told it.
func (d *Daemon) isLost() bool { return d.store.own.Lost }

// runs returns the lines by which a session hears which of the other voters were made again, and how often: what they told it before that
// counts no more. What is said there was saved before.
func (d *Daemon) runs() (lines []byte) {
	for place := 0; place < places; place++ {
		if p := d.peers[place]; p.Run > 0 && place != d.store.meta.Voter {
			lines = mustAppend(qlock.VoterSays{Kind: qlock.RunIs, Number: place, First: p.Run}, lines)
		}
	}
	return lines
}

// header begins a message of this voter.
func (d *Daemon) header() wire.Header {
	meta := d.store.meta
	return wire.Header{Cluster: meta.Cluster, Coterie: d.mark, Kind: wire.FromVoter, Number: meta.Voter, Run: meta.Run,
		Start: d.store.own.Start, Name: meta.Identity, Level: d.store.own.level()}
}
