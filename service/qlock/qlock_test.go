package qlock

import (
	"bytes"
	"errors"
	"os"
	"strings"
	"testing"
)

const majority = `voters = ["a", "b", "c"]
quorums = [["a", "b"], ["a", "c"], ["b", "c"]]
`

// A call that is refused returns the refusal by its name, and changes nothing.
func TestRefusals(t *testing.T) {
	voter, err := NewVoter(0, 1)
	if err != nil {
		t.Fatal(err)
	}
	client, err := NewClient(0, 1)
	if err != nil {
		t.Fatal(err)
	}
	fence, err := NewFence()
	if err != nil {
		t.Fatal(err)
	}
	take := func(line string) error { _, err := voter.Take([]byte(line), nil); return err }
	for _, one := range []struct {
		call string
		want Refusal
		got  error
	}{
		{"a voter above the last number", BadArgument, second(NewVoter(64, 1))},
		{"a limit of 0", BadArgument, second(NewVoter(0, 0))},
		{"reborn above its limit", BadArgument, second(RebornVoter(0, 2, 1))},
		{"a state that is too short", BadState, second(RestoreVoter(voter.State()[1:]))},
		{"bytes that are no voter", BadState, second(RestoreVoter(bytes.Repeat([]byte{255}, VoterBytes)))},
		{"bytes that are no client", BadState, second(RestoreClient(bytes.Repeat([]byte{255}, ClientBytes)))},
		{"an empty line", BadMessage, take("")},
		{"a line to another voter", BadMessage, take("request 0 1 1")},
		{"the first grant", 0, take("request 0 0 1")},
		{"its release", 0, take("release 0 0 1")},
		{"a grant above the limit", GrantsSpent, take("request 0 0 2")},
		{"a limit that falls", BadArgument, voter.Extend(0)},
		{"a limit that grows", 0, voter.Extend(3)},
		{"a number below the count", BadArgument, voter.Raise(0)},
		{"a number above the limit", BadArgument, voter.Raise(4)},
		{"a number that is skipped", 0, voter.Raise(2)},
		{"the second grant", 0, take("request 0 0 3")},
		{"a client that does not exist", BadArgument, second(voter.Knows(64))},
		{"no quorum", BadArgument, second(client.Ask(0, nil))},
		{"leaving outside", NotInside, second(client.Leave(nil))},
		{"a pass of an idle client", NotInside, second(client.Pass())},
		{"giving up nothing", NotAsking, second(client.GiveUp(nil))},
		{"asking", 0, second(client.Ask(1, nil))},
		{"asking twice", Busy, second(client.Ask(1, nil))},
		{"disclaiming while asking", Busy, second(client.Disclaim(1, nil))},
		{"giving up", 0, second(client.GiveUp(nil))},
		{"a stamp above the limit", StampsSpent, second(client.Ask(1, nil))},
		{"a pass that is too short", BadArgument, second(fence.Admit(nil))},
		{"a pass of zeros", NoPass, second(fence.Admit(make([]byte, PassBytes)))},
	} {
		if one.want == 0 && one.got != nil || one.want != 0 && !errors.Is(one.got, one.want) {
			t.Errorf("%s: %v, not %v", one.call, one.got, one.want)
		}
	}
}

func second(_ interface{}, err error) error { return err }

// A plan has the names, the load and the quorums of its coterie, and a text without one a fault.
func TestPlan(t *testing.T) {
	plan, err := FindPlan(majority)
	if err != nil {
		t.Fatal(err)
	}
	if len(plan.Names) != 3 || plan.Number("b") != 1 || plan.Number("d") != -1 {
		t.Error(plan.Names)
	}
	if len(plan.Quorums) != 3 || plan.LoadP != 2 || plan.LoadQ != 3 {
		t.Error(plan.Quorums, plan.LoadP, plan.LoadQ)
	}
	if plan.HasQuorum(0b100) || !plan.HasQuorum(0b101) {
		t.Error("the quorums are any two of three")
	}
	all, err := FindPlan("voters = [\"a\", \"b\", \"c\"]\nquorums = [[\"a\", \"b\", \"c\"]]\n")
	if err != nil {
		t.Fatal(err)
	}
	one, err := FindPlan("voters = [\"a\", \"b\", \"c\"]\nquorums = [[\"a\"]]\n")
	if err != nil {
		t.Fatal(err)
	}
	if !plan.IsBridged(all) || !all.IsBridged(plan) || plan.IsBridged(one) || (&Plan{}).IsBridged(plan) || (&Plan{}).HasQuorum(7) {
		t.Error("any two of three meet all three, and not the first alone")
	}
	if first, second, found := plan.Apart(one); !found || first != 0b110 || second != 0b001 ||
		strings.Join(plan.NamesOf(first), " ") != "b c" {
		t.Error("b and c do not meet a:", first, second, found)
	}
	if _, _, found := plan.Apart(all); found {
		t.Error("two quorums are apart, though all meet")
	}
	if _, _, unit, err := plan.Slack(); err != nil || unit == 0 {
		t.Error(unit, err)
	}
	for _, coterie := range []string{"", "voters = [\"a\", \"b\"]\nquorums = [[\"a\"], [\"b\"]]\n"} {
		var fault Fault
		if _, err := FindPlan(coterie); !errors.Is(err, Refused) || !errors.As(err, &fault) || fault == "" {
			t.Error(coterie, err)
		}
	}
	if _, err := ReadPlan(majority, "quorum-plan 1\n"); !errors.Is(err, Refused) {
		t.Error(err)
	}
}

// Weights with a short cycle have a load above their bound, and an optimal plan comes if its cycle is short enough.
func TestWeights(t *testing.T) {
	wheel := "voters = [\"a\", \"b\", \"c\", \"d\"]\nquorums = [[\"a\", \"b\"], [\"a\", \"c\"], [\"a\", \"d\"], [\"b\", \"c\", \"d\"]]\n"
	near, err := FindWeights(wheel, 4)
	if err != nil {
		t.Fatal(err)
	}
	if near.IsOptimal() || near.LoadP != 2 || near.LoadQ != 3 || near.BoundP != 3 || near.BoundQ != 5 || len(near.Quorums) > 4 {
		t.Error(near)
	}
	again, err := ReadPlan(wheel, near.Text)
	if err != nil || len(again.Quorums) != len(near.Quorums) {
		t.Error(again, err)
	}
	plan, err := FindWeights(wheel, 5)
	if err != nil || !plan.IsOptimal() || len(plan.Quorums) != 5 {
		t.Error(plan, err)
	}
	for _, most := range []uint64{0, 1000001} {
		if _, err := FindWeights(wheel, most); !errors.Is(err, BadArgument) {
			t.Error(most, err)
		}
	}
	if _, err := FindWeights("", 4); !errors.Is(err, Refused) {
		t.Error(err)
	}
}

// Where no optimal plan is found, the best one has a short cycle, and says how far its load is above the best.
func TestBestPlan(t *testing.T) {
	coterie, err := os.ReadFile("../../examples/twenty-eight.toml")
	if err != nil {
		t.Fatal(err)
	}
	if _, err := FindPlan(string(coterie)); !errors.Is(err, Refused) {
		t.Error("there is an optimal plan", err)
	}
	plan, err := BestPlan(string(coterie))
	if err != nil || plan.IsOptimal() || len(plan.Quorums) > UsualCycle {
		t.Fatal(plan, err)
	}
	if want := "467/910, at most 0.08 % above the best"; plan.LoadText() != want {
		t.Error(plan.LoadText(), "and not", want)
	}
	plan, err = BestPlan(majority)
	if err != nil || !plan.IsOptimal() || plan.LoadText() != "2/3" {
		t.Error(plan.LoadText(), err)
	}
	if _, err := BestPlan(""); !errors.Is(err, Refused) {
		t.Error(err)
	}
}

// A voter has to be saved if its grant or its number of grants changed, and not for a request that waits.
func TestMustSave(t *testing.T) {
	voter, err := NewVoter(0, MaxStamp)
	if err != nil {
		t.Fatal(err)
	}
	saved := *voter
	for _, one := range []struct {
		line string
		want bool
	}{{"request 0 0 1", true}, {"request 1 0 2", false}, {"request 2 0 3", false}, {"release 0 0 1", true}} {
		if _, err := voter.Take([]byte(one.line), nil); err != nil {
			t.Fatal(err)
		}
		if voter.MustSave(&saved) != one.want {
			t.Errorf("%s: has to be saved: %v", one.line, !one.want)
		}
		saved = *voter
	}
	if err := voter.Forget(); err != nil {
		t.Fatal(err)
	}
	if known, err := voter.Knows(2); err != nil || known.Stamp != 0 || voter.MustSave(&saved) {
		t.Error("it forgets who waits, and keeps the rest", known, err)
	}
}

func BenchmarkMustSave(b *testing.B) {
	voter, err := NewVoter(0, MaxStamp)
	if err != nil {
		b.Fatal(err)
	}
	saved := *voter
	for i := 0; i < b.N; i++ {
		voter.MustSave(&saved)
	}
}

func BenchmarkHasQuorum(b *testing.B) {
	plan, err := FindPlan(majority)
	if err != nil {
		b.Fatal(err)
	}
	for i := 0; i < b.N; i++ {
		plan.HasQuorum(0b101)
	}
}

func BenchmarkTake(b *testing.B) {
	voter, err := NewVoter(0, MaxStamp)
	if err != nil {
		b.Fatal(err)
	}
	request, room := []byte("request 0 0 1"), make([]byte, 0, 1024)
	for i := 0; i < b.N; i++ {
		if _, err := voter.Take(request, room); err != nil {
			b.Fatal(err)
		}
	}
}
