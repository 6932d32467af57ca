// Package exchange leads a cluster from one plan to another while clients use it.
package exchange

import (
	"context"
	"encoding/base64"
	"errors"
	"fmt"
	"strings"
	"time"

	"calvundek.example/service/internal/config"
	"calvundek.example/service/internal/operator"
	"calvundek.example/service/internal/voter"
	"calvundek.example/service/qlock"
)

// The errors of an exchange.
var (
	ErrSame     = errors.New("this is the coterie of the plan in use")
	ErrUnderWay = errors.New("another plan is being exchanged: retire the old one first")
	ErrFew      = errors.New("those that did are not enough; do it again")
	ErrWould    = errors.New("would take the plan, and was not given it")
)

// Next returns the settings of a cluster with a plan of another coterie beside that in use. The coterie of an exchange that is
// under way gives the settings as they are.
func Next(c *config.Cluster, coterie string) (*config.Cluster, error) {
	switch {
	case c.OldPlanned != nil && coterie == c.Coterie:
		return c, nil
	case c.OldPlanned != nil:
		return nil, ErrUnderWay
	case coterie == c.Coterie:
		return nil, ErrSame
	}
	plan, err := qlock.BestPlan(coterie)
	if err != nil {
		return nil, err
	}
	if err := config.CheckExchange(c.Planned, plan); err != nil {
		return nil, err
	}
	next := *c
	next.Generation, next.Coterie, next.Plan, next.OldCoterie, next.OldPlan = c.Generation+1, coterie, plan.Text, c.Coterie, c.Plan
	return &next, next.Check()
}

// Begin begins an exchange from one plan to the next, and waits so long for voters each time. First
// it settles the plan in use: a voter that was made anew since the last exchange refuses the next
// one until then. Once a voter has the next plan the settings are written, so that new voters can
// be started, and it can be done again. If none has it, nothing is written.
func Begin(ctx context.Context, c, next *config.Cluster, console *operator.Console, patience time.Duration,
	write func(*config.Cluster) error) ([]operator.Reply, error) {
	if c.OldPlanned == nil && c.Generation > 0 {
		if replies, err := Settle(ctx, c, console, patience); err != nil {
			return replies, fmt.Errorf("the plan in use is not settled: %w", err)
		}
	}
	replies, err := Install(ctx, next, console, patience)
	if done(replies) != 0 {
		if written := write(next); written != nil {
			return replies, written
		}
	}
	return replies, err
}

// Install gives the voters the new plan, and waits so long for them. It is done once those that
// have it contain a quorum of each plan: clients then ask by it. Unless those that would take it
// contain a quorum of the old plan, it gives the plan to nobody: one voter that takes the plan of
// somebody else's exchange is lost to the cluster.
func Install(ctx context.Context, c *config.Cluster, console *operator.Console, patience time.Duration) ([]operator.Reply, error) {
	encode := base64.StdEncoding.EncodeToString
	words := fmt.Sprintf("%d %s %s", c.Generation, encode([]byte(c.Coterie)), encode([]byte(c.Plan)))
	would, err := ask(ctx, console, patience, "would "+words, console.All()...)
	if err != nil {
		return nil, err
	}
	if c.OldPlanned != nil && !c.OldPlanned.HasQuorum(done(would)) {
		err := fewer(would)
		for i := range would {
			if would[i].Err == nil {
				would[i].Err = ErrWould
			}
		}
		return would, err
	}
	replies, err := ask(ctx, console, patience, "exchange "+words, console.All()...)
	if err != nil {
		return nil, err
	}
	if err := inform(ctx, c, console, patience, members(done(replies))); err != nil {
		return replies, err
	}
	if !c.HasQuorums(done(replies)) {
		return replies, fewer(replies)
	}
	return replies, nil
}

// inform lets voters know what others of them know. A new voter knows no stamp, and takes great ones only bit by bit: so
// it lags behind nobody.
func inform(ctx context.Context, c *config.Cluster, console *operator.Console, patience time.Duration,
	voters []int) error {
	texts, _, err := known(ctx, console, patience, voters)
	if err != nil {
		return err
	}
	return informOf(ctx, c, console, patience, texts, voters)
}

// informOf lets voters know these texts.
func informOf(ctx context.Context, c *config.Cluster, console *operator.Console, patience time.Duration, texts []string, voters []int) error {
	for _, text := range texts {
		if _, err := ask(ctx, console, patience, fmt.Sprintf("inform %d %s %s", c.Generation, mark(c), text), voters...); err != nil {
			return err
		}
	}
	return nil
}

// known asks voters for all that they know, and returns it together, as texts, and what each replied.
func known(ctx context.Context, console *operator.Console, patience time.Duration, voters []int) (texts []string, replies []operator.Reply, err error) {
	short, cancel := context.WithTimeout(ctx, patience)
	defer cancel()
	if replies, err = voter.AskKnown(short, console, voters...); err != nil {
		return nil, nil, err
	}
	all, _, err := voter.Merge(replies)
	if err != nil {
		return nil, nil, err
	}
	texts, err = all.Texts()
	return texts, replies, err
}

// ask asks voters, and waits for so long.
func ask(ctx context.Context, console *operator.Console, patience time.Duration, words string, voters ...int) ([]operator.Reply, error) {
	ctx, cancel := context.WithTimeout(ctx, patience)
	defer cancel()
	return console.Ask(ctx, words, voters...)
}

// Retired returns the settings of a cluster without the old plan.
func Retired(c *config.Cluster) *config.Cluster {
	next := *c
	next.OldCoterie, next.OldPlan, next.OldPlanned = "", "", nil
	return &next
}

// Retire takes the old plan out of use. Voters that contain a quorum of each plan refuse it, and
// then a quorum of the new one takes what these know of sessions. Each quorum of the old plan meets
// those that refuse it. So what was reserved by the old plan alone is known to a quorum of the new
// one, before the next exchange. Unless quorums of both plans can, nothing changes.
func Retire(ctx context.Context, c *config.Cluster, console *operator.Console, patience time.Duration) ([]operator.Reply, error) {
	ready, err := each(ctx, c, console, patience, "ready", console.All())
	if err != nil {
		return ready, err
	}
	replies, err := each(ctx, c, console, patience, "retire", console.All())
	if err != nil {
		return replies, err
	}
	settled, err := settle(ctx, c, console, patience, members(done(replies)))
	return merged(replies, settled), err
}

// each asks voters to do something with a plan that has this number and mark, and returns an error
// unless quorums of both plans did.
func each(ctx context.Context, c *config.Cluster, console *operator.Console, patience time.Duration, word string,
	voters []int) ([]operator.Reply, error) {
	replies, err := ask(ctx, console, patience, fmt.Sprintf("%s %d %s", word, c.Generation, mark(c)), voters...)
	if err == nil && !c.HasQuorums(done(replies)) {
		err = fewer(replies)
	}
	return replies, err
}

// mark returns the mark of a cluster's plan.
func mark(c *config.Cluster) string { return config.Mark(c.Generation, c.Coterie) }

// Settle lets a quorum of the plan in use know what voters of the plans before it know: stamps that were reserved, and
// ceilings.
func Settle(ctx context.Context, c *config.Cluster, console *operator.Console,
	patience time.Duration) ([]operator.Reply, error) {
	var all []int
	for voter := range c.Names() {
		all = append(all, voter)
	}
	return settle(ctx, c, console, patience, all)
}

// settle reads what voters know, and lets them know all of it.
func settle(ctx context.Context, c *config.Cluster, console *operator.Console, patience time.Duration,
	voters []int) ([]operator.Reply, error) {
	texts, replies, err := known(ctx, console, patience, voters)
	if err != nil {
		return nil, err
	}
	if !c.HasQuorums(done(replies)) {
		return replies, fewer(replies)
	}
	last := len(texts) - 1
	if err := informOf(ctx, c, console, patience, texts[:last], voters); err != nil {
		return nil, err
	}
	text := texts[last]
	replies, err = ask(ctx, console, patience, fmt.Sprintf("settle %d %s %s", c.Generation, mark(c), text), voters...)
	for begun := time.Now(); err == nil && len(below(replies)) > 0 && time.Since(begun) < patience; {
		time.Sleep(nextCeiling)
		var later []operator.Reply
		later, err = ask(ctx, console, patience, fmt.Sprintf("settle %d %s %s", c.Generation, mark(c), text), below(replies)...)
		replies = merged(replies, later)
	}
	if err == nil && !c.Planned.HasQuorum(done(replies)) {
		err = fewer(replies)
	}
	return replies, err
}

// nextCeiling is how long a voter has, at first, to get the next ceiling from others.
const nextCeiling = 50 * time.Millisecond

// below returns the voters that ask others for a higher ceiling first.
func below(replies []operator.Reply) (voters []int) {
	for _, r := range replies {
		if errors.Is(r.Err, operator.ErrRefused) && strings.HasSuffix(r.Err.Error(), voter.ErrBelow.Error()) {
			voters = append(voters, r.Voter)
		}
	}
	return voters
}

// merged returns replies, with later ones in the place of those of the same voters.
func merged(replies, later []operator.Reply) []operator.Reply {
	all := append([]operator.Reply(nil), replies...)
	for _, reply := range later {
		for i := range all {
			if all[i].Voter == reply.Voter {
				all[i] = reply
			}
		}
	}
	return all
}

// done returns the voters that did what they were asked.
func done(replies []operator.Reply) (mask uint64) {
	for _, r := range replies {
		if r.Err == nil {
			mask |= 1 << r.Voter
		}
	}
	return mask
}

func members(mask uint64) (voters []int) {
	for voter := 0; voter < qlock.MaxVoters; voter++ {
		if mask>>voter&1 == 1 {
			voters = append(voters, voter)
		}
	}
	return voters
}

// fewer says who did not, and why.
func fewer(replies []operator.Reply) error {
	var why []string
	for _, r := range replies {
		if r.Err != nil {
			why = append(why, r.Name+": "+r.Err.Error())
		}
	}
	return fmt.Errorf("%w: %s", ErrFew, strings.Join(why, "; "))
}
