package voter

import (
	"bytes"
	"math/rand"
	"testing"

	"calvundek.example/service/qlock"
)

// What was packed is unpacked, and what was cut off is refused.
func TestPack(t *testing.T) {
	random := rand.New(rand.NewSource(1))
	for n := 0; n < 2000; n++ {
		state := make([]byte, qlock.VoterBytes)
		for i := random.Intn(200); i > 0; i-- {
			state[random.Intn(len(state))] = byte(random.Intn(256))
		}
		packed := pack(state)
		if got, ok := unpack(packed); !ok || !bytes.Equal(got, state) {
			t.Fatalf("%x", state)
		}
		var voter, other qlock.Voter
		copy(voter.State(), state)
		copy(other.State(), bytes.Repeat([]byte{byte(n)}, qlock.VoterBytes))
		since := qlock.NewSinceStart(uint64(n) << (n % 64))
		if said := readVoter(&other, shortOf(&voter, since)); other != voter || *readSince(said) != *since {
			t.Fatalf("%x in place of another one, and %q was said", state, said)
		}
		if said := readVoter(&other, shortOf(&voter, nil)); other != voter || said != "" {
			t.Fatalf("%x in place of another one, and %q was said", state, said)
		}
		if _, ok := unpack(packed[:random.Intn(len(packed))]); ok {
			t.Fatal("bytes that are cut off")
		}
	}
	voter, err := qlock.NewVoter(3, qlock.MaxStamp)
	if err != nil {
		t.Fatal(err)
	}
	if _, err := voter.Take([]byte("request 5 3 17"), nil); err != nil {
		t.Fatal(err)
	}
	saved, kept := len(pack(voter.State())), len(shortOf(voter, nil))
	if t.Logf("a vote that is held takes %d and %d bytes", saved, kept); saved > 120 || kept > 32 {
		t.Errorf("a vote that is held takes %d bytes on disk, and %d in memory", saved, kept)
	}
}
