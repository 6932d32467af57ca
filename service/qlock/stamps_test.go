package qlock

import (
	"math/rand"
	"testing"
)

// toldStamps is what a voter told of a session's stamps, in its newest run that is known.
type toldStamps struct {
	run, base, reserved uint64
}

// hears is what is told after the voter told this in a run.
func (t toldStamps) hears(run, base, reserved uint64) toldStamps {
	if run < t.run {
		return t
	}
	if t = t.renewed(run); base > t.base {
		t.base = base
	}
	if reserved > t.reserved {
		t.reserved = reserved
	}
	return t
}

// renewed is what is told once this run is known.
func (t toldStamps) renewed(run uint64) toldStamps {
	if run > t.run {
		return toldStamps{run: run}
	}
	return t
}

// A stamp is a session's own at the voters that told it so in the newest run that anybody told it, one by one: none that told nothing, none
// that was made again since, and none that is not there.
func TestOwners(t *testing.T) {
	random := rand.New(rand.NewSource(1))
	all, told := NewAllStamps(), [MaxVoters]toldStamps{}
	if owners := all.Owners(1); owners != 0 {
		t.Fatalf("voters %x told nothing, and own a stamp", owners)
	}
	for n := 0; n < 4000; n++ {
		if v := random.Intn(MaxVoters); v != 5 {
			run := told[v].run + uint64(random.Intn(3))
			if run > 0 && random.Intn(4) == 0 {
				run-- // it comes late
			}
			base, reserved := uint64(random.Intn(50)), uint64(random.Intn(100))
			switch random.Intn(20) {
			case 0:
				all[v].Forget()
				told[v] = toldStamps{run: told[v].run}
			case 1:
				all[v].Renew(run)
				told[v] = told[v].renewed(run)
			default:
				if random.Intn(8) > 0 {
					run = told[v].run
				}
				all[v].Hear(run, base, reserved)
				told[v] = told[v].hears(run, base, reserved)
			}
		}
		stamp, want := uint64(random.Intn(102)), uint64(0)
		for v := range told {
			if told[v].base < stamp && stamp <= told[v].reserved {
				want |= 1 << v
			}
		}
		if owners := all.Owners(stamp); owners != want {
			t.Fatalf("turn %d: stamp %d is owned at %x, want %x", n, stamp, owners, want)
		}
	}
}
