package qlock

import (
	"bytes"
	"math/bits"
	"testing"
)

const wheel = `voters = ["hub", "rim1", "rim2", "rim3", "rim4"]
quorums = [["hub", "rim1"], ["hub", "rim2"], ["hub", "rim3"], ["hub", "rim4"], ["rim1", "rim2", "rim3", "rim4"]]
capacity = [10, 1, 1, 1, 1]
`

// longestCycle is what the numbers of a plan's text let a cycle have: they have seven digits.
const longestCycle = 9999999

// A plan that is read is one of its coterie: each of its quorums is a set of the coterie's voters,
// and any two meet. It reads the same again.
func FuzzReadPlan(f *testing.F) {
	for _, coterie := range []string{majority, wheel} {
		plan, err := FindPlan(coterie)
		if err != nil {
			f.Fatal(err)
		}
		f.Add(coterie, plan.Text)
		f.Add(coterie, plan.Text[:len(plan.Text)-1])
	}
	f.Add("voters = [\"a\"]\nquorums = [[\"a\"]]\n",
		"quorum-plan 1\nload 1/1\ncycle 9999999\nquorum 9999999\nvoter 1\n")
	f.Fuzz(func(t *testing.T, coterie, text string) {
		plan, err := ReadPlan(coterie, text)
		if err != nil {
			return
		}
		n := len(plan.Names)
		if n == 0 || n > MaxVoters || len(plan.Quorums) == 0 || len(plan.Quorums) > longestCycle ||
			plan.Coterie != coterie || plan.Text != text {
			t.Fatalf("%d voters, a cycle of %d", n, len(plan.Quorums))
		}
		if plan.LoadP == 0 || plan.LoadQ == 0 || !plan.IsBridged(plan) || plan.HasQuorum(0) {
			t.Fatalf("load %d/%d, quorums %b", plan.LoadP, plan.LoadQ, plan.distinct)
		}
		for _, quorum := range plan.distinct {
			if quorum == 0 || bits.Len64(quorum) > n || !plan.HasQuorum(quorum) || plan.HasQuorum(^quorum) {
				t.Fatalf("quorum %b of %d voters", quorum, n)
			}
		}
		again, err := ReadPlan(coterie, text)
		if err != nil || again.LoadP != plan.LoadP || again.LoadQ != plan.LoadQ ||
			len(again.Quorums) != len(plan.Quorums) {
			t.Fatalf("another plan: %v", err)
		}
	})
}

// A vote that is restored from bytes is one that has these bytes. What it is told leaves a state
// that can be restored.
func FuzzRestoreVoter(f *testing.F) {
	voter, err := NewVoter(3, MaxStamp)
	if err != nil {
		f.Fatal(err)
	}
	f.Add(append([]byte(nil), voter.State()...), []byte("request 5 3 17"))
	for _, line := range []string{"request 5 3 17", "request 6 3 18", "release 5 3 17"} {
		if _, err := voter.Take([]byte(line), nil); err != nil {
			f.Fatal(err)
		}
		f.Add(append([]byte(nil), voter.State()...), []byte("request 7 3 9"))
	}
	f.Fuzz(func(t *testing.T, state, line []byte) {
		restored, err := RestoreVoter(state)
		if err != nil {
			return
		}
		if !bytes.Equal(restored.State(), state) {
			t.Fatal("another state")
		}
		before := *restored
		lines, err := restored.Take(line, nil)
		if err != nil && (len(lines) > 0 || *restored != before) {
			t.Fatalf("%q is refused, and changes the vote or is replied to: %v", line, err)
		}
		if err := restored.Forget(); err != nil {
			t.Fatal(err)
		}
		again, err := RestoreVoter(restored.State())
		if err != nil || *again != *restored {
			t.Fatalf("a state that can't be restored: %v", err)
		}
		held, err := again.Held()
		if err != nil || held.Number > 0 && held.Client >= MaxClients {
			t.Fatalf("%+v, %v", held, err)
		}
	})
}
