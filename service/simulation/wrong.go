package simulation

import (
	"bytes"
	"encoding/json"
	"strconv"
	"strings"
	"time"

	"calvundek.example/service/internal/operator"
	"calvundek.example/service/internal/voter"
	"calvundek.example/service/internal/wire"
	"calvundek.example/service/transport"
)

// Wrong says which duties of a host are broken. The zero value is right.
type Wrong struct {
	SendsFirst     bool // messages leave before the save
	StaleTime      bool // the time is read before the message is taken
	FailedSave     bool // a failed save is taken for a good one
	OlderCopy      bool // a state that is an older copy is started, and the others do not notice
	TwoProcesses   bool // two processes have one state, and the others do not notice
	GoesOn         bool // a client's program does not stop when its lease has ended
	LeaseFromReply bool // a lease counts from when the reply came, and not from when the heartbeat left
	Clocks         bool // clocks go at rates beyond the stated ones
	ForgetsClaims  bool // a session that is opened again under its name does not keep what it claimed before
	EvictsAtOnce   bool // an operator that ends a session lets go at once what it has
	StartsEmpty    bool // a voter that lost its state starts with an empty one, as if nobody knew of it, and is not quiet
}

// Duties has the duties of a host by names, with how to break each.
var Duties = []struct {
	Name   string
	Breaks func(*Wrong)
}{
	{"sends-first", func(w *Wrong) { w.SendsFirst = true }},
	{"stale-time", func(w *Wrong) { w.StaleTime = true }},
	{"failed-save", func(w *Wrong) { w.FailedSave = true }},
	{"older-copy", func(w *Wrong) { w.OlderCopy = true }},
	{"two-processes", func(w *Wrong) { w.TwoProcesses = true }},
	{"goes-on", func(w *Wrong) { w.GoesOn = true }},
	{"lease-from-reply", func(w *Wrong) { w.LeaseFromReply = true }},
	{"clocks", func(w *Wrong) { w.Clocks = true }},
	{"forgets-claims", func(w *Wrong) { w.ForgetsClaims = true }},
	{"evicts-at-once", func(w *Wrong) { w.EvictsAtOnce = true }},
	{"starts-empty", func(w *Wrong) { w.StartsEmpty = true }},
}

// forged returns what another voter says to this process as if it knew nothing against it: it ended cleanly with just this state.
func (r *process) forged(m transport.Message) transport.Message {
	h, lines, err := wire.Read(m.Data)
	var said map[string]interface{}
	if err != nil || json.Unmarshal(lines, &said) != nil || said["word"] != "known" && said["word"] != "kept" {
		return m
	}
	meta, err := r.disk.saved().Meta()
	if err != nil {
		return m
	}
	known := voter.Peer{Identity: meta.Identity, Run: meta.Run, Ended: r.saves}
	_, known.Ceiling, _ = r.disk.starts()
	known.Process, _ = said["process"].(string)
	said["start"] = 0 // of the process that asked, which may be the other one
	said["known"] = known
	delete(said, "why")
	var text bytes.Buffer
	encoder := json.NewEncoder(&text)
	if encoder.Encode(said) != nil {
		return m
	}
	m.Data = append(h.Append(nil), text.Bytes()...)
	return m
}

// startsTwins starts a second process of some voter from time to time.
func (w *world) startsTwins() {
	if w.healed > 0 {
		return
	}
	if p := w.someVoter(); p != nil && p.twin == nil && p.run.daemon.Serves() {
		w.log("a second process of voter %d is started", p.number)
		p.run.unnoticed = true
		p.twin = p.open(true)
		w.Incidents["second processes"]++
	}
	w.in(w.upTo(4*w.ttl), w.startsTwins)
}

// startsEmpty makes a state in place of one that was lost as if nobody knew anything, and starts it.
func (w *world) startsEmpty(p *place, before voter.Meta) {
	if !p.isLost || p.isMade {
		return // the faults stopped, and it is made again as it should be
	}
	p.isMade = true
	var replies []operator.Reply
	for v, name := range w.cluster.Names() {
		body := `{"sessions":{},"peers":{"` + strconv.Itoa(p.number) + `":{"identity":"` + strings.Repeat("1", 32) + `","process":"` +
			strings.Repeat("1", 16) + `","run":` + strconv.FormatUint(before.Run, 10) + `}}}`
		replies = append(replies, operator.Reply{Voter: v, Name: name, Body: []byte(body)})
	}
	if _, err := voter.MakeAgain(p.around(nil), p.own, w.cluster, replies); err != nil {
		w.violated("state", "voter %d is not made again: %v", p.number, err)
		return
	}
	p.isLost = false
	p.run = p.open(true)
	w.in(100*time.Millisecond, func() { w.awaits(p) })
}
