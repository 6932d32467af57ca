package locks

import (
	"testing"

	"calvundek.example/service/internal/wire"
)

// What a voter said of stamps counts no more once some voter says that it was made again after its state was lost. What comes late of before
// counts for nothing, and what it says in its next run does.
func TestStampsOfALostState(t *testing.T) {
	const opened = ". opened 3 5 0 4096 1 0\n"
	c := alone(t)
	owns := func(what string, want uint64) {
		t.Helper()
		if owners := c.stamps.Owners(9); owners != want {
			t.Errorf("%s: a stamp is its own at the voters %b, and not at %b", what, owners, want)
		}
	}
	for v := range c.peers {
		c.says(v, opened)
	}
	owns("each voter said so", 0b111)
	c.says(0, ". run 63 9\n")
	owns("a voter that there is not was made again", 0b111)
	c.says(0, ". run 2 0\n")
	owns("no voter was made again", 0b111)
	c.says(1, ". run 2 1\n"+opened)
	owns("one was made again", 0b011)
	c.says(2, opened)
	owns("it said so before", 0b011)
	again := wire.Header{Cluster: c.cluster.ID, Coterie: c.plan.mark, Kind: wire.FromVoter, Number: 2, Name: "identity-again", Run: 1}
	c.message(came(c.Client, 2, append(again.Append(nil), opened...)))
	owns("it says so in its next run", 0b111)
	c.says(0, ". run 2 1\n")
	owns("somebody says again that it has this run", 0b111)
}

// A voter that was made again may have accepted another claim: while a number is claimed, that claim is given up.
func TestClaimsOfALostState(t *testing.T) {
	for accepts, refused := range map[bool]bool{true: true, false: false} {
		c := alone(t)
		c.opening, c.peers[2].accepts = true, accepts
		if c.says(0, ". run 63 9\n. run 2 1\n"); c.refused != refused {
			t.Errorf("the voter accepted the claim %v: it is refused %v", accepts, c.refused)
		}
	}
}
