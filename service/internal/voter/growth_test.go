package voter

import (
	"math/rand"
	"testing"
	"time"

	"calvundek.example/service/qlock"
)

// The growth of a number lets it grow as the bucket does that it is in place of, or by one less, whatever is taken, and however long nothing
// is.
func TestGrowthIsABucket(t *testing.T) {
	random, seen := rand.New(rand.NewSource(1)), map[string]int{}
	for world := 0; world < 300; world++ {
		bucket, grown, now := qlock.NewBucket(epochRate, mostEpochs, 0), growth(0), time.Duration(0)
		for step := 0; step < 200; step++ {
			now += time.Duration(random.Int63n([]int64{1, int64(time.Millisecond), int64(time.Second), int64(10 * time.Hour)}[random.Intn(4)]))
			want, got := bucket.Left(now), grown.left(now)
			if got > want || got+1 < want {
				t.Fatalf("after %v it may grow by %d, and not by %d", now, got, want)
			}
			switch got {
			case 0:
				seen["empty"]++
			case mostEpochs:
				seen["full"]++
			}
			n := []uint64{1, uint64(random.Intn(1000)), uint64(random.Intn(mostEpochs)), got, want + 1}[random.Intn(5)]
			after, err := grown.spend(now, n)
			if (err == nil) != (n <= got) {
				t.Fatalf("after %v it grows by %d of %d: %v", now, n, got, err)
			}
			if err != nil {
				seen["refused"]++
				continue
			}
			if grown = after; bucket.Spend(now, n) != nil {
				t.Fatalf("after %v it grows by %d, and the bucket refuses that", now, n)
			}
		}
	}
	for _, what := range []string{"empty", "full", "refused"} {
		if seen[what] < 1000 {
			t.Errorf("%s %d times: these runs show little", what, seen[what])
		}
	}
}
