package qlock

import (
	"errors"
	"math"
	"math/big"
	"math/rand"
	"testing"
	"time"
)

// slowBucket is a token bucket by the rules, in numbers of any size.
type slowBucket struct {
	rate, most, level *big.Int // the level in billionths of a token
	at                time.Duration
}

var billion = big.NewInt(int64(time.Second))

func number(n uint64) *big.Int { return new(big.Int).SetUint64(n) }

func (b *slowBucket) full() *big.Int { return new(big.Int).Mul(b.most, billion) }

// refill returns what there is now, and when that is.
func (b *slowBucket) refill(now time.Duration) (*big.Int, time.Duration) {
	if now < b.at {
		now = b.at
	}
	level := new(big.Int).Mul(b.rate, big.NewInt(int64(now-b.at)))
	if level.Add(level, b.level).Cmp(b.full()) > 0 {
		level = b.full()
	}
	return level, now
}

func (b *slowBucket) left(now time.Duration) uint64 {
	level, _ := b.refill(now)
	return level.Div(level, billion).Uint64()
}

func (b *slowBucket) spend(now time.Duration, tokens uint64) bool {
	level, at := b.refill(now)
	if level.Sub(level, new(big.Int).Mul(number(tokens), billion)).Sign() < 0 {
		return false
	}
	b.level, b.at = level, at
	return true
}

// A bucket does what the rules say, on random calls, with small and with the greatest numbers, and times in any order.
func TestBucket(t *testing.T) {
	random := rand.New(rand.NewSource(1986))
	spent, refused, full := 0, 0, 0
	for run := 0; run < 300; run++ {
		rate, most := uint64(random.Intn(1000)), uint64(random.Intn(1000))
		if run%3 == 0 {
			rate, most = random.Uint64(), random.Uint64()
		}
		now := time.Duration(random.Intn(1000))
		bucket, model := NewBucket(rate, most, now), slowBucket{rate: number(rate), most: number(most), at: now}
		model.level = model.full()
		model.level.Rsh(model.level, 1)
		for step := 0; step < 100; step++ {
			switch random.Intn(20) {
			case 0:
				now = time.Duration(random.Int63())
			case 1:
				now = 0
			default:
				now += time.Duration(random.Int63n(int64(time.Second)))
				if now < 0 {
					now = math.MaxInt64
				}
			}
			want := model.left(now)
			if left := bucket.Left(now); left != want {
				t.Fatalf("run %d, step %d: %d tokens are left, and by the rules %d", run, step, left, want)
			}
			if want == most {
				full++
			}
			tokens := want
			if more := uint64(random.Intn(3)); want+more > want {
				tokens += more
			}
			if random.Intn(2) == 0 && want > 0 {
				tokens = random.Uint64() % want
			}
			done, err := model.spend(now, tokens), bucket.Spend(now, tokens)
			if done != (err == nil) || !done && !errors.Is(err, TokensSpent) {
				t.Fatalf("run %d, step %d: %d of %d tokens are taken: %v", run, step, tokens, want, err)
			}
			if done {
				spent++
			} else {
				refused++
			}
		}
	}
	if spent == 0 || refused == 0 || full == 0 {
		t.Errorf("%d times tokens were taken, %d times there were too few, and %d times all", spent, refused, full)
	}
}

// A bucket begins with half, and has all after most / rate seconds. The zero bucket has none.
func TestBucketFills(t *testing.T) {
	b := NewBucket(4, 100, time.Minute)
	if b.Left(time.Minute) != 50 || b.Spend(time.Minute, 51) != TokensSpent || b.Spend(time.Minute, 50) != nil || b.Left(time.Minute) != 0 {
		t.Error("a bucket does not begin with half")
	}
	if b.Left(time.Minute+24*time.Second) != 96 || b.Left(time.Minute+25*time.Second) != 100 || b.Left(time.Hour) != 100 {
		t.Error("a bucket does not fill")
	}
	if none := new(Bucket); none.Left(time.Hour) != 0 || none.Spend(time.Hour, 1) != TokensSpent || none.Spend(time.Hour, 0) != nil {
		t.Error("the zero bucket has a token")
	}
}
