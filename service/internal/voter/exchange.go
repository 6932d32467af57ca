package voter

import (
	"encoding/base64"
	"encoding/json"
	"errors"
	"fmt"
	"strconv"
	"strings"
	"time"

	"calvundek.example/service/internal/config"
	"calvundek.example/service/internal/event"
	"calvundek.example/service/internal/wire"
	"calvundek.example/service/qlock"
)

// The errors of an exchange of plans.
var (
	ErrUnderWay = errors.New("a plan is being exchanged already: retire the old one first")
	ErrSettle   = errors.New("the last retirement is not complete: call `qlockctl retire` again")
	ErrNumber   = errors.New("the plan is not the next one of this voter's")
	ErrLong     = errors.New("the plan is too long to be sent")
	ErrLag      = errors.New("clients may have requests of the old plan: call again, or a TTL after `qlockctl evict` of them")
	ErrKeepers  = errors.New("too few voters of both plans keep this one's ceiling yet")
	ErrNothing  = errors.New("the words say nothing of what other voters know")
	ErrBelow    = errors.New("the voter asks others for a higher ceiling first: call again")
	ErrAnother  = errors.New("the voter has another plan of this number: another exchange was begun")
)

// Texts are a coterie and a plan of it.
type Texts struct {
	Coterie string `json:"coterie"`
	Plan    string `json:"plan"`
}

// Generations are the plan that a voter has, and the one before it until that is retired. A voter takes one plan after
// another, each once.
type Generations struct {
	Number  uint64   `json:"number"` // of the plan: how often it was exchanged
	Now     Texts    `json:"now"`
	Old     *Texts   `json:"old,omitempty"`
	Settled bool     `json:"settled"`        // what was reserved by older plans is known here, so the next exchange may begin
	Past    []string `json:"past,omitempty"` // the marks of the plans that were retired
}

// NewGenerations returns the plans of a cluster's file.
func NewGenerations(c *config.Cluster) Generations {
	g := Generations{Number: c.Generation, Now: Texts{c.Coterie, c.Plan}, Settled: c.Generation == 0}
	if c.OldPlanned != nil {
		g.Old = &Texts{c.OldCoterie, c.OldPlan}
	}
	return g
}

// mark returns the mark of the plan, and oldMark that of the one before it, "" if it is retired.
func (g *Generations) mark() string { return config.Mark(g.Number, g.Now.Coterie) }

func (g *Generations) oldMark() string {
	if g.Old == nil {
		return ""
	}
	return config.Mark(g.Number-1, g.Old.Coterie)
}

// oldest returns the number of the oldest plan that is not retired.
func (g *Generations) oldest() uint64 {
	if g.Old == nil {
		return g.Number
	}
	return g.Number - 1
}

// knows returns whether a mark is that of a plan which this voter has or had.
func (g *Generations) knows(mark string) bool {
	for _, past := range g.Past {
		if past == mark {
			return true
		}
	}
	return mark == g.mark() || mark == g.oldMark()
}

// retire returns the plans without the old one.
func (g Generations) retire() Generations {
	if g.Old != nil {
		g.Past = append(g.Past[:len(g.Past):len(g.Past)], g.oldMark())
	}
	g.Old, g.Settled = nil, false
	return g
}

// follow returns the plans of a state that is opened with the plans of a file, and whether it changed. The file may be one
// of before an exchange, or of after those that this voter slept through.
func (g Generations) follow(file Generations) (_ Generations, changed bool, err error) {
	switch {
	case file.Number == g.Number && file.mark() == g.mark() && g.Old != nil && file.Old == nil:
		return g.retire(), true, nil // it slept through that
	case file.Number <= g.Number && g.knows(file.mark()):
		return g, false, nil
	case file.Number > g.Number:
		now := g.retire()
		file.Past = append(now.Past, g.mark())
		return file, true, nil
	}
	return g, false, ErrOther
}

// next returns the plans once a new one is taken beside the one in use. The proved library says whether they are bridged.
func (g Generations) next(number uint64, texts Texts) (Generations, error) {
	switch {
	case number == g.Number && texts == g.Now:
		return g, nil // it has it already
	case g.Old != nil:
		return g, ErrUnderWay
	case !g.Settled:
		return g, ErrSettle
	case number != g.Number+1:
		return g, ErrNumber
	case len(texts.Coterie)+len(texts.Plan) > config.MostPlan:
		return g, ErrLong
	}
	old, err := qlock.ReadPlan(g.Now.Coterie, g.Now.Plan)
	if err != nil {
		return g, err
	}
	now, err := qlock.ReadPlan(texts.Coterie, texts.Plan)
	if err != nil {
		return g, err
	}
	if err := config.CheckExchange(old, now); err != nil {
		return g, err
	}
	before := g.Now
	return Generations{Number: number, Now: texts, Old: &before, Past: g.Past}, nil
}

// setPlans notes which plans this voter has. They are saved before anything leaves.
func (d *Daemon) setPlans(g Generations) error {
	d.plans, d.newPlans = g, true
	d.tellAll()
	return d.markPlans()
}

// plansInUse are the plan that a voter has, and the one before it until that is retired.
type plansInUse []*qlock.Plan

// voters returns how many places they have.
func (p plansInUse) voters() int { return len(p.places()) }

// places returns the names of all places: the list of one plan begins with that of the other.
func (p plansInUse) places() (most []string) {
	for _, plan := range p {
		if len(plan.Names) > len(most) {
			most = plan.Names
		}
	}
	return most
}

// names returns the names of voters, with commas.
func (p plansInUse) names(voters uint64) string {
	var names []string
	for place, name := range p.places() {
		if voters>>place&1 == 1 {
			names = append(names, name)
		}
	}
	return strings.Join(names, ",")
}

// haveQuorums returns whether voters contain a quorum of each plan.
func (p plansInUse) haveQuorums(voters uint64) bool {
	for _, plan := range p {
		if !plan.HasQuorum(voters) {
			return false
		}
	}
	return true
}

// haveAny returns whether voters contain a quorum of some plan.
func (p plansInUse) haveAny(voters uint64) bool {
	for _, plan := range p {
		if plan.HasQuorum(voters) {
			return true
		}
	}
	return false
}

// read reads the plans in use, which were checked when they were taken.
func (g *Generations) read() (plans plansInUse, err error) {
	texts := []Texts{g.Now}
	if g.Old != nil {
		texts = append(texts, *g.Old)
	}
	for _, one := range texts {
		plan, err := qlock.ReadPlan(one.Coterie, one.Plan)
		if err != nil {
			return nil, err
		}
		plans = append(plans, plan)
	}
	return plans, nil
}

// markPlans takes the plans that a voter has into use.
func (d *Daemon) markPlans() (err error) {
	if d.inUse, err = d.plans.read(); err != nil {
		return err
	}
	d.mark, d.oldMark, d.marks = d.cluster.Mark(d.plans.mark()), d.cluster.Mark(d.plans.oldMark()), map[string]string{}
	d.laggards = map[int]laggard{}
	return nil
}

// hears notes by which plan a session speaks, while there are two.
func (d *Daemon) hears(h wire.Header) {
	if d.oldMark == "" {
		return
	}
	if len(d.marks) > 16*d.cluster.Numbers() { // most are of sessions that are gone
		d.marks = map[string]string{}
	}
	d.marks[h.Name] = h.Coterie
}

// speaks returns the mark in a message to a session: that of the plan by which it spoke last. One that was not heard yet
// may know the old plan only.
func (d *Daemon) speaks(name string) string {
	switch {
	case d.oldMark == "":
		return d.mark
	case d.marks[name] == d.mark:
		return d.mark
	}
	return d.oldMark
}

// announce tells a session which plans there are, if there was ever another one.
func (d *Daemon) announce(name string) {
	if d.plans.Number > 0 {
		d.tell(name, "generation %d %s %d", d.plans.Number, d.mark, d.plans.oldest())
	}
}

// tellPlan sends the plan to a session.
func (d *Daemon) tellPlan(name string) bool {
	encode := base64.StdEncoding.EncodeToString
	d.tell(name, "plan %d %s %s", d.plans.Number, encode([]byte(d.plans.Now.Coterie)), encode([]byte(d.plans.Now.Plan)))
	return true
}

// Planned is the reply to `exchange`, `retire` and `settle`: which plans a voter has.
type Planned struct {
	Generation uint64 `json:"generation"`
	Oldest     uint64 `json:"oldest"`
	Settled    bool   `json:"settled"`
}

func (d *Daemon) planned(err error) interface{} {
	if err != nil {
		return Refused{err.Error()}
	}
	return Planned{d.plans.Number, d.plans.oldest(), d.plans.Settled}
}

// exchange obeys `exchange NUMBER COTERIE PLAN`, answers `would` with the same words if it would,
// and obeys of the plan with a number and a mark `ready NUMBER MARK`, `retire NUMBER MARK` or
// `settle NUMBER MARK KNOWS`.
func (d *Daemon) exchange(words []string, now time.Time) interface{} {
	number, err := strconv.ParseUint(words[1], 10, 64)
	switch {
	case err == nil && (words[0] == "exchange" || words[0] == "would") && len(words) == 4:
		return d.planned(d.takePlan(number, words[2], words[3], words[0] == "exchange"))
	case err == nil && words[0] == "ready" && len(words) == 3:
		_, err := d.isReady(number, words[2])
		return d.planned(err)
	case err == nil && words[0] == "retire" && len(words) == 3:
		return d.planned(d.retire(number, words[2]))
	case err == nil && words[0] == "settle" && len(words) == 4:
		return d.planned(d.settle(number, words[2], words[3], now))
	case err == nil && words[0] == "inform" && len(words) == 4:
		return d.planned(d.inform(number, words[2], words[3], now))
	}
	return Refused{"unknown command"}
}

// takePlan takes a plan beside the one in use, or only says whether it would.
func (d *Daemon) takePlan(number uint64, coterie, plan string, takes bool) error {
	first, err := base64.StdEncoding.DecodeString(coterie)
	if err != nil {
		return err
	}
	second, err := base64.StdEncoding.DecodeString(plan)
	if err != nil {
		return err
	}
	g, err := d.plans.next(number, Texts{string(first), string(second)})
	if err == nil && takes && g.Number != d.plans.Number {
		if err = d.setPlans(g); err != nil {
			return err
		}
		d.log.Write(event.Info, "exchange", "generation", number)
	}
	return err
}

// longestLag is for how many TTLs a session is waited for that says that it has a request of the old plan, and has none
// here. It hears of the new plan with each heartbeat.
const longestLag = 4

// laggard is a session that `ready` or `retire` found so, and when.
type laggard struct {
	epoch uint64
	since time.Time
}

// lagsForLong returns whether a session without a request here was found to lag so long ago already. Who is inside by
// the old plan has a vote at some voter of each quorum of it, so no quorum of it is ready then. A voter that was made
// again forgot votes; but none of them counts any more once its client was heard here for a TTL.
func (d *Daemon) lagsForLong(s *shard, client int, now time.Time) bool {
	seat, before := s.seat(client), d.laggards[s.key(client)]
	switch {
	case seat.requests > 0 || !seat.marks.has(isOpen):
		delete(d.laggards, s.key(client))
		return false
	case before.epoch != seat.epoch:
		d.laggards[s.key(client)] = laggard{seat.epoch, now}
		return false
	}
	return now.Sub(before.since) > longestLag*d.leases.ttl
}

// mostNamed is how many sessions an error names before no other shard is looked at.
const mostNamed = qlock.MaxClients

// isReady returns an error unless the old plan may be retired: this voter has the plan with this number and mark, and
// no session that was heard within the TTL may have a request of the old one. Nor may one that was ended by a word:
// until it was silent for a TTL it may be inside, and not know. It returns the open sessions that are silent, and those
// that lag for long: each may have one. Of many that have one it names some.
func (d *Daemon) isReady(number uint64, mark string) (ends []int, err error) {
	if number != d.plans.Number {
		return nil, ErrNumber
	}
	if mark != d.plans.mark() {
		return nil, ErrAnother
	}
	if d.plans.Old != nil && d.join.done && !d.inUse.haveQuorums(d.join.start.Shows().Kept|d.bit()) {
		return nil, ErrKeepers
	}
	var lag []string
	for i := 0; d.plans.Old != nil && i < len(d.inTurn) && len(lag) < mostNamed; i++ {
		s := d.inTurn[i]
		for client, behind := 0, s.behindOf(number); behind != 0; client, behind = client+1, behind>>1 {
			switch {
			case behind&1 == 0:
			case !s.isDead(client) && !d.lagsForLong(s, client, d.now()):
				lag = append(lag, d.cluster.NumberOf(s.key(client)))
			case s.bare(client).Open:
				ends = append(ends, s.key(client))
			}
		}
	}
	if len(lag) > 0 {
		return nil, fmt.Errorf("%w: %v", ErrLag, lag)
	}
	return ends, nil
}

// retire refuses the old plan from now on. Sessions that are silent, or lag for long, are ended.
func (d *Daemon) retire(number uint64, mark string) error {
	ends, err := d.isReady(number, mark)
	if err != nil || d.plans.Old == nil {
		return err
	}
	for _, key := range ends {
		s, client := d.shardOfKey(key)
		s.expel(client, s.isDead(client)) // one that lags has no vote here
		d.recount(s, client)
	}
	if err := d.setPlans(d.plans.retire()); err != nil {
		return err
	}
	d.log.Write(event.Info, "retire", "generation", number, "ended", len(ends))
	return nil
}

// settle takes what a quorum of the old plan knew of sessions and of other voters, after it refused that plan: whoever
// asks voters of the new plan alone hears of each stamp, start and ceiling, and no grant of it has a number that the old plan may
// have used. Who takes the next plan already was settled.
func (d *Daemon) settle(number uint64, mark, text string, now time.Time) error {
	switch {
	case d.plans.Old != nil && number+1 == d.plans.Number && mark == d.plans.oldMark():
		return nil
	case number != d.plans.Number || d.plans.Old != nil:
		return ErrNumber
	case mark != d.plans.mark():
		return ErrAnother
	}
	known, err := d.learn(text, now)
	if err != nil {
		return err
	}
	if !d.plans.Settled {
		if err := d.goAbove(known.Peers, now); err != nil {
			return err
		}
		g := d.plans
		g.Settled = true
		if err := d.setPlans(g); err != nil {
			return err
		}
		d.log.Write(event.Info, "settled", "generation", number)
	}
	return nil
}

// goAbove raises the floor to the highest ceiling of these voters, above all that they gave by an older plan. So turns also grow
// where a later plan does not meet the older one: each quorum of that later plan has a voter which did so before it took that plan. It
// returns ErrBelow while this voter has no ceiling above that.
func (d *Daemon) goAbove(others map[int]Peer, now time.Time) error {
	most := d.floor
	for place, peer := range others {
		if place != d.store.meta.Voter {
			most = greatest(most, peer.Ceiling)
		}
	}
	switch {
	case !d.join.done:
		return ErrBelow
	case most >= d.ceiling:
		if d.join.start.Shows().Asked <= most { // else it was asked for one already
			d.needsCeiling(most, now)
		}
		return ErrBelow
	case most > d.floor:
		d.floor = most
		d.raiseAll()
	}
	return nil
}

// inform takes what other voters with this plan know, while the old one is there, too.
func (d *Daemon) inform(number uint64, mark, text string, now time.Time) error {
	switch {
	case number != d.plans.Number:
		return ErrNumber
	case mark != d.plans.mark():
		return ErrAnother
	}
	_, err := d.learn(text, now)
	return err
}

// learn takes what other voters know.
func (d *Daemon) learn(text string, now time.Time) (known Knows, err error) {
	if err := json.Unmarshal([]byte(text), &known); err != nil {
		return known, err
	} else if known.Sessions == nil {
		return known, ErrNothing
	}
	if err := d.learnsLevel(known.Level); err != nil {
		return known, err
	}
	d.learnAll(known, now)
	return known, nil
}
