package qlock

/*
#include "qlock_plan.h"

// 1 for yes, 0 for no and for what is refused.
static int32_t has_quorum(const uint64_t *masks, size_t n, uint64_t voters) {
    int32_t yes = 0;
    return qlock_has_quorum(masks, n, voters, &yes) ? 0 : yes;
}

static int32_t bridge(const uint64_t *firsts, size_t n, const uint64_t *seconds, size_t m) {
    int32_t yes = 0;
    return qlock_bridge(firsts, n, seconds, m, &yes) ? 0 : yes;
}
*/
import "C"

import (
	"encoding/binary"
	"errors"
	"fmt"
	"math"
	"strings"
)

// Plan is how often to use each quorum of a coterie, so that the busiest voter is asked as seldom as possible, or nearly: no
// weights of the quorums have a load below the bound, and of an optimal plan it is the load. Its quorums are in the even order
// of their tickets.
type Plan struct {
	Coterie, Text string   // the two texts that it was read from
	Names         []string // the voters' names, by their numbers
	Quorums       []uint64 // the quorums of one cycle: ticket n has the one at n modulo their number
	LoadP, LoadQ  uint64   // the load is LoadP / LoadQ
	BoundP        uint64   // the bound is BoundP / BoundQ, in lowest terms as the load
	BoundQ        uint64
	distinct      []uint64 // each of the quorums once
}

// text returns what a call of libqlock_plan wrote.
func text(code C.int32_t, out []byte, written C.size_t) (string, error) {
	if code == C.QLOCK_REFUSED {
		return "", Fault(out[:written])
	}
	return string(out[:written]), refusal(code)
}

// FindPlan returns an optimal plan of a coterie. It returns a Fault if there is none.
func FindPlan(coterie string) (*Plan, error) {
	in, out, n := []byte(coterie), make([]byte, C.QLOCK_PLAN_OUT), C.size_t(0)
	plan, err := text(C.qlock_plan(at(in), C.size_t(len(in)), at(out), C.QLOCK_PLAN_OUT, &n), out, n)
	if err != nil {
		return nil, err
	}
	return ReadPlan(coterie, plan)
}

// FindWeights returns a plan of a coterie with a cycle of at most so many tickets: an optimal one if one with so short a cycle is
// found, else one whose load is near its bound.
func FindWeights(coterie string, most uint64) (*Plan, error) {
	in, out, n := []byte(coterie), make([]byte, C.QLOCK_PLAN_OUT), C.size_t(0)
	weights, err := text(C.qlock_weights(at(in), C.size_t(len(in)), C.uint64_t(most), at(out), C.QLOCK_PLAN_OUT, &n), out, n)
	if err != nil {
		return nil, err
	}
	return ReadPlan(coterie, weights)
}

// UsualCycle is how many tickets a cycle has at most where no optimal plan is found.
const UsualCycle = 1000

// BestPlan returns an optimal plan of a coterie if one is found, else one with a cycle of at most UsualCycle tickets whose load
// is near its bound.
func BestPlan(coterie string) (*Plan, error) {
	plan, err := FindPlan(coterie)
	var fault Fault
	if errors.As(err, &fault) && strings.HasPrefix(string(fault), "N1 ") {
		return FindWeights(coterie, UsualCycle)
	}
	return plan, err
}

// IsOptimal returns whether no plan of the coterie has a smaller load: the load is the bound.
func (p *Plan) IsOptimal() bool { return p.LoadP == p.BoundP && p.LoadQ == p.BoundQ }

// LoadText returns the load as a fraction, and how far above the best it is at most, if it is not the bound.
func (p *Plan) LoadText() string {
	load := fmt.Sprintf("%d/%d", p.LoadP, p.LoadQ)
	if p.IsOptimal() {
		return load
	}
	gap := float64(p.LoadP)*float64(p.BoundQ)/(float64(p.BoundP)*float64(p.LoadQ)) - 1
	return fmt.Sprintf("%s, at most %.2f %% above the best", load, math.Ceil(10000*gap)/100)
}

// ReadPlan checks a plan of a coterie, wherever it is from: the text of an optimal plan, or of weights. It returns a Fault if
// it is none.
func ReadPlan(coterie, plan string) (*Plan, error) {
	p := &Plan{Coterie: coterie, Text: plan}
	names, err := p.names()
	if err != nil {
		return nil, err
	}
	p.Names = strings.Fields(names)
	cycle, err := p.check()
	if err != nil {
		return nil, err
	}
	if p.Quorums, err = p.quorums(cycle); err != nil {
		return nil, err
	}
	p.distinct = distinct(p.Quorums)
	return p, nil
}

func distinct(masks []uint64) (found []uint64) {
	seen := map[uint64]bool{}
	for _, mask := range masks {
		if !seen[mask] {
			seen[mask] = true
			found = append(found, mask)
		}
	}
	return found
}

func (p *Plan) names() (string, error) {
	in, out, n := []byte(p.Coterie), make([]byte, C.QLOCK_NAMES_OUT), C.size_t(0)
	return text(C.qlock_names(at(in), C.size_t(len(in)), at(out), C.QLOCK_NAMES_OUT, &n), out, n)
}

func (p *Plan) check() (cycle uint64, err error) {
	coterie, plan, out := []byte(p.Coterie), []byte(p.Text), make([]byte, C.QLOCK_FAULT_OUT)
	var loadP, loadQ, boundP, boundQ, length C.uint64_t
	var n C.size_t
	_, err = text(C.qlock_check_weights(at(coterie), C.size_t(len(coterie)), at(plan), C.size_t(len(plan)),
		&loadP, &loadQ, &boundP, &boundQ, &length, at(out), C.QLOCK_FAULT_OUT, &n), out, n)
	p.LoadP, p.LoadQ = uint64(loadP), uint64(loadQ)
	p.BoundP, p.BoundQ = uint64(boundP), uint64(boundQ)
	return uint64(length), err
}

func (p *Plan) quorums(cycle uint64) ([]uint64, error) {
	coterie, plan, out := []byte(p.Coterie), []byte(p.Text), make([]byte, C.QLOCK_FAULT_OUT)
	masks := make([]byte, cycle*C.QLOCK_MASK_BYTES)
	var n C.size_t
	_, err := text(C.qlock_quorums(at(coterie), C.size_t(len(coterie)), at(plan), C.size_t(len(plan)), C.QLOCK_EVEN, 0,
		at(masks), C.size_t(len(masks)), at(out), C.QLOCK_FAULT_OUT, &n), out, n)
	found := make([]uint64, cycle)
	for i := range found {
		found[i] = binary.LittleEndian.Uint64(masks[8*i:])
	}
	return found, err
}

// Slack returns the stride of the even order, and its slack excess / unit: any n tickets in a row use no voter more
// often than n times the load plus the slack, times the voter's capacity.
func (p *Plan) Slack() (stride, excess, unit uint64, err error) {
	coterie, plan, out := []byte(p.Coterie), []byte(p.Text), make([]byte, C.QLOCK_FAULT_OUT)
	var a, b, c C.uint64_t
	var n C.size_t
	_, err = text(C.qlock_slack(at(coterie), C.size_t(len(coterie)), at(plan), C.size_t(len(plan)), &a, &b, &c,
		at(out), C.QLOCK_FAULT_OUT, &n), out, n)
	return uint64(a), uint64(b), uint64(c), err
}

// Number returns the number of a voter by its name, -1 if the coterie has none of this name.
func (p *Plan) Number(name string) int {
	for number, other := range p.Names {
		if other == name {
			return number
		}
	}
	return -1
}

// masks returns the address and the number of quorums.
func masks(quorums []uint64) (*C.uint64_t, C.size_t) {
	if len(quorums) == 0 {
		return (*C.uint64_t)(&make([]uint64, 1)[0]), 0
	}
	return (*C.uint64_t)(&quorums[0]), C.size_t(len(quorums))
}

// HasQuorum returns whether a set of voters contains a quorum that the plan uses: bit i of the set is 1 if voter i is in it.
func (p *Plan) HasQuorum(voters uint64) bool {
	quorums, n := masks(p.distinct)
	return C.has_quorum(quorums, n, C.uint64_t(voters)) == 1
}

// IsBridged returns whether each quorum of this plan meets each one of the other, by the numbers of the voters. Then both
// plans may be in use at once.
func (p *Plan) IsBridged(other *Plan) bool {
	firsts, n := masks(p.distinct)
	seconds, m := masks(other.distinct)
	return C.bridge(firsts, n, seconds, m) == 1
}

// Apart returns a quorum of this plan and one of the other that have no common voter, if there are two such.
func (p *Plan) Apart(other *Plan) (first, second uint64, found bool) {
	for _, first := range p.distinct {
		for _, second := range other.distinct {
			if first&second == 0 {
				return first, second, true
			}
		}
	}
	return 0, 0, false
}

// NamesOf returns the names of a set of voters, in the order of their numbers.
func (p *Plan) NamesOf(voters uint64) (names []string) {
	for number, name := range p.Names {
		if voters>>number&1 == 1 {
			names = append(names, name)
		}
	}
	return names
}
