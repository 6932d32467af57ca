package voter

import (
	"crypto/sha256"
	"encoding/json"
	"fmt"
	"math"
	"sort"
	"strconv"
	"strings"
	"time"

	"calvundek.example/service/internal/event"
	"calvundek.example/service/internal/wire"
	"calvundek.example/service/transport"
)

// mostDone is how many replies are kept to what operators let go.
const mostDone = 64

// Status is what an operator sees of a voter.
type Status struct {
	Meta
	Locks   int     `json:"locks"`
	Busy    int     `json:"busy"`                    // votes that somebody has or waits for
	Open    int     `json:"open"`                    // sessions
	Granted uint64  `json:"granted"`                 // grants given since the start
	Saves   uint64  `json:"saves"`                   // how often the state was saved
	Start   uint64  `json:"start"`                   // how often the voter started
	Ceiling uint64  `json:"ceiling"`                 // no grant has a greater number
	Level   uint64  `json:"level"`                   // the cluster's
	Serves  bool    `json:"serves"`                  // the others answered its start
	Awaits  *Awaits `json:"awaits,omitempty"`        // if it does not serve
	Quiet   float64 `json:"quiet_seconds,omitempty"` // for which only those inside get a vote
	Runs    float64 `json:"runs_seconds"`
	Planned
}

// Lists are what the pages of `sessions` and `votes` have.
type Lists struct {
	Sessions []SessionView `json:"sessions"`
	Votes    []VoteView    `json:"votes"`
}

// SessionView is what an operator sees of an open session. Its name is a secret, so its user and a hash of it are shown.
type SessionView struct {
	Session  string  `json:"session"` // its number as evict takes it, with the shard in front where there are several
	Shard    int     `json:"shard"`
	Number   int     `json:"number"`
	Epoch    uint64  `json:"epoch"`
	Reserved uint64  `json:"reserved"`
	Hash     string  `json:"hash"`
	Silent   float64 `json:"silent_seconds"`
	Requests int     `json:"requests"`
	Note     string  `json:"note,omitempty"` // host, process, user and text, as the session says
}

// VoteView is what an operator sees of a vote.
type VoteView struct {
	Lock    string       `json:"lock"`
	Client  int          `json:"client"`            // who has it, -1 for nobody
	Session string       `json:"session,omitempty"` // the same as evict takes it
	Stamp   uint64       `json:"stamp,omitempty"`
	Grant   uint64       `json:"grant,omitempty"`
	Held    float64      `json:"held_seconds,omitempty"`
	Note    string       `json:"note,omitempty"` // of who has it, as it says
	Waiting []WaiterView `json:"waiting,omitempty"`
}

// WaiterView is what an operator sees of a request that waits.
type WaiterView struct {
	Client  int     `json:"client"`
	Session string  `json:"session"`
	Stamp   uint64  `json:"stamp"`
	Waits   float64 `json:"waits_seconds"`
}

// LetGo is the reply to `evict` and `unlock`: how many grants were let go.
type LetGo struct {
	LetGo  int  `json:"let_go"`
	Later  int  `json:"later,omitempty"`  // grants of a session that was ended, which go once it is silent for a TTL
	Nobody bool `json:"nobody,omitempty"` // no session had the number that was to be evicted, nor was it to become free
}

// Refused is the reply to what an operator may not do, or what is not known.
type Refused struct {
	Error string `json:"error"`
}

// answer is a reply to an operator, and the mark of the plan by which he asked.
type answer struct {
	mark string
	body []byte
}

// operate does what an operator asks, and replies after the save. Unless he may write, he only reads.
func (d *Daemon) operate(m transport.Message, mayWrite bool, now time.Time) {
	h, lines, err := wire.Read(m.Data)
	by := m.Sender()
	if err != nil || !d.isOurs(h) || h.Kind != wire.FromOperator || !wire.IsQuestion(by, h.Name) {
		d.m.foreign.Inc()
		return
	}
	name, words := wire.SessionName(by, h.Name), strings.Fields(string(lines))
	reply := written(Refused{"only who may write may ask this"})
	switch {
	case mayWrite && len(words) > 0 && (words[0] == "evict" || words[0] == "unlock"):
		reply = d.done.reply(name+" "+string(lines), func() []byte { return written(d.obey(words, by, now)) })
	case mayWrite || wire.IsRead(by, strings.Join(words, " ")):
		reply = written(d.obey(words, by, now))
	}
	d.replies[wire.ReplyBox(d.cluster.ID, name, d.store.meta.Voter)] = answer{h.Coterie, reply}
}

// done are the replies to what operators let go last, the oldest first.
type done []struct {
	question [sha256.Size]byte
	reply    []byte
}

// reply returns the reply to a question, which has a name of its own. One that comes again lets nothing else go.
func (d *done) reply(question string, obey func() []byte) []byte {
	asked := sha256.Sum256([]byte(question))
	for _, one := range *d {
		if one.question == asked {
			return one.reply
		}
	}
	if len(*d) >= mostDone {
		*d = append(done{}, (*d)[1:]...)
	}
	*d = append(*d, struct {
		question [sha256.Size]byte
		reply    []byte
	}{asked, obey()})
	return (*d)[len(*d)-1].reply
}

// written returns a reply as JSON. A page is that already.
func written(reply interface{}) []byte {
	if text, isPage := reply.(page); isPage {
		return text
	}
	text, err := json.Marshal(reply)
	if err != nil {
		return []byte(`{"error":"no reply can be written"}`)
	}
	return text
}

// obey does what these words say: `status`, `sessions FROM`, `votes FROM`, `lock LOCK`, `knows`, `evict NUMBER`, `evict NUMBER now`,
// `unlock LOCK GRANT`, or what exchange obeys.
func (d *Daemon) obey(words []string, by string, now time.Time) interface{} {
	switch {
	case len(words) == 1 && words[0] == "status":
		return d.status(now)
	case len(words) == 2 && words[0] == "sessions":
		return d.pageOfSessions(wire.Number([]byte(words[1])))
	case len(words) == 2 && words[0] == "votes":
		return d.pageOfVotes(wire.Number([]byte(words[1])), now)
	case len(words) > 0 && words[0] == "knows" && d.isLost():
		return Refused{"the voter lost its state, and waits for what other voters know"}
	case len(words) == 1 && words[0] == "knows":
		return d.knows(0, nil)
	case len(words) == 2 && words[0] == "knows":
		if from, err := strconv.Atoi(words[1]); err == nil && d.cluster.IsKey(from) {
			return d.knows(from, nil)
		}
	case len(words) == 2 && (words[0] == "level" || words[0] == "would-level"):
		return d.raiseLevel(words[1], words[0] == "level")
	case !d.join.done:
		return Refused{"the voter waits for what other voters know of it"}
	case len(words) == 2 && words[0] == "lock":
		if v := d.votes[words[1]]; v != nil {
			return d.view(v, now)
		}
		return VoteView{Lock: words[1], Client: -1}
	case len(words) == 2 && words[0] == "evict", len(words) == 3 && words[0] == "evict" && words[2] == "now":
		if key, ok := d.cluster.KeyOf(words[1]); ok {
			return d.evict(key, len(words) == 3, by, now)
		}
		return Refused{"client numbers are " + d.cluster.NumberOf(0) + " to " + d.cluster.NumberOf(d.cluster.Numbers()-1)}
	case len(words) == 3 && words[0] == "unlock":
		var grant uint64
		if _, err := fmt.Sscan(words[2], &grant); err == nil && grant > 0 {
			return d.unlock(words[1], grant, by, now)
		}
	}
	if len(words) > 1 {
		return d.exchange(words, now)
	}
	return Refused{"unknown command"}
}

// evict ends a client's session: no message of it counts any more. What it has goes once it is silent for a TTL, as it may work until
// it hears that it is over, and so does its number; both at once if that is wanted. What it waits for goes as soon once it gets it. The log
// says so, unless there was nothing to end.
func (d *Daemon) evict(key int, atOnce bool, by string, now time.Time) LetGo {
	s, number := d.shardOfKey(key)
	gone := LetGo{Nobody: !s.row(number).Open && !(atOnce && s.rare(number).byWord)}
	s.expel(number, atOnce)
	s.busy.each(func(v *vote) {
		switch {
		case !v.isHolder(number):
		case !atOnce:
			gone.Later++
		case d.letGo(v, now):
			gone.LetGo++
		}
	})
	d.recount(s, number)
	if !gone.Nobody || gone.LetGo > 0 {
		d.log.Write(event.Warning, "evicted", "client", d.cluster.NumberOf(key), "grants", gone.LetGo, "later", gone.Later, "by", by)
	}
	return gone
}

// unlock lets one grant of a lock go.
func (d *Daemon) unlock(lock string, grant uint64, by string, now time.Time) LetGo {
	v := d.votes[lock]
	if v == nil || v.held().Number != grant || !d.letGo(v, now) {
		return LetGo{}
	}
	d.log.Write(event.Warning, "unlocked", "lock", lock, "grant", grant, "by", by)
	return LetGo{LetGo: 1}
}

func (d *Daemon) status(now time.Time) Status {
	s := Status{Meta: d.store.meta, Locks: len(d.votes), Busy: len(d.busy.all), Granted: d.granted, Saves: d.store.saves,
		Start: d.store.own.Start, Ceiling: d.ceiling, Level: d.store.own.level(), Serves: d.join.done,
		Awaits: d.awaitsVoters(now), Quiet: d.quietLeft(now).Seconds(), Runs: now.Sub(d.started).Seconds(),
		Planned: Planned{d.plans.Number, d.plans.oldest(), d.plans.Settled}}
	for _, one := range d.inTurn {
		for _, seat := range one.seats.all {
			if seat.marks.has(isOpen) {
				s.Open++
			}
		}
	}
	return s
}

// viewOf returns what an operator sees of the session that has a number. One that was heard after the last marker was silent for no time.
func (d *Daemon) viewOf(s *shard, number int) SessionView {
	seat := s.seat(number)
	return SessionView{d.cluster.NumberOf(s.key(number)), s.table.number, number, seat.epoch, seat.reserved, s.hash(number),
		math.Max(0, s.silent(number).Seconds()), int(seat.requests), s.noteOf(number)}
}

// view returns what an operator sees of a vote.
func (d *Daemon) view(v *vote, now time.Time) VoteView {
	shown := VoteView{Lock: v.name, Client: -1}
	if v.isHeld {
		shown.Client, shown.Stamp, shown.Grant = int(v.client), v.stamp, v.number
		shown.Session = d.cluster.NumberOf(v.shard.key(shown.Client))
		shown.Held, shown.Note = now.Sub(v.granted.Time()).Seconds(), v.noteOfAsk(shown.Client)
	}
	v.asks(func(one ask) {
		if !v.isHolder(one.client) {
			shown.Waiting = append(shown.Waiting, WaiterView{one.client, d.cluster.NumberOf(v.shard.key(one.client)), one.stamp,
				now.Sub(one.since.Time()).Seconds()})
		}
	})
	sort.Slice(shown.Waiting, func(i, j int) bool { return shown.Waiting[i].Stamp < shown.Waiting[j].Stamp })
	return shown
}
