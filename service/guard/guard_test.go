package guard_test

import (
	"bytes"
	"encoding/binary"
	"errors"
	"math/rand"
	"testing"

	"calvundek.example/service/guard"
	"calvundek.example/service/qlock"
)

// same are the errors that mean the same.
var same = map[qlock.Refusal]error{qlock.OlderGrant: guard.ErrOlder, qlock.NoPass: guard.ErrNoPass,
	qlock.BadArgument: guard.ErrNoPass, qlock.TurnsSpent: guard.ErrTurnsSpent}

// randomPass returns grants of a few of the first voters, near those that were seen.
func randomPass(random *rand.Rand, voters int) []byte {
	pass := make([]byte, guard.PassBytes)
	for n := random.Intn(4); n > 0; n-- {
		grant := uint64(random.Intn(40))
		if random.Intn(50) == 0 {
			grant = random.Uint64()
		}
		binary.LittleEndian.PutUint64(pass[8*(63-random.Intn(voters)):], grant)
	}
	if random.Intn(100) == 0 {
		pass = pass[1:]
	}
	return pass
}

// The guard of this package does what the proved one does: it admits the same passes, with the same turns and bytes.
func TestLikeTheProvedGuard(t *testing.T) {
	random := rand.New(rand.NewSource(1))
	outcomes := map[error]int{}
	for run := 0; run < 2000; run++ {
		state := guard.New()
		if run%100 == 0 { // the last turn but one
			binary.LittleEndian.PutUint64(state, 1<<64-2)
		}
		proved, err := qlock.RestoreFence(state)
		if err != nil {
			t.Fatal(err)
		}
		for n := 0; n < 20; n++ {
			pass := randomPass(random, 5+59*(run%2))
			want, wanted := proved.Admit(pass)
			next, turn, err := guard.Admit(state, pass)
			var refusal qlock.Refusal
			if errors.As(wanted, &refusal) {
				wanted = same[refusal]
			}
			outcomes[err]++
			if err != wanted || turn != want {
				t.Fatalf("%x: %d and %v, not %d and %v", pass, turn, err, want, wanted)
			}
			if err == nil {
				state = next
			}
			if !bytes.Equal(state, proved.State()) {
				t.Fatalf("%x: the guards differ", pass)
			}
		}
	}
	if len(outcomes) != 4 {
		t.Errorf("only these outcomes occurred: %v", outcomes)
	}
}

// Each voter counts, from the first to the last.
func TestEachVoterCounts(t *testing.T) {
	for voter := 0; voter < 64; voter++ {
		newer, older := make([]byte, guard.PassBytes), make([]byte, guard.PassBytes)
		binary.LittleEndian.PutUint64(newer[8*voter:], 5)
		binary.LittleEndian.PutUint64(older[8*voter:], 4)
		state, turn, err := guard.Admit(guard.New(), newer)
		if err != nil || turn != 1 {
			t.Fatalf("voter %d: turn %d, %v", voter, turn, err)
		}
		if _, _, err := guard.Admit(state, older); !errors.Is(err, guard.ErrOlder) {
			t.Errorf("voter %d: a late write: %v", voter, err)
		}
	}
}

func TestNoGuard(t *testing.T) {
	if _, _, err := guard.Admit(nil, make([]byte, guard.PassBytes)); !errors.Is(err, guard.ErrState) {
		t.Error(err)
	}
	if _, err := guard.Turn(nil); !errors.Is(err, guard.ErrState) {
		t.Error(err)
	}
}
