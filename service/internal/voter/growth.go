package voter

import (
	"time"

	"calvundek.example/service/qlock"
)

// growth is how far the epochs of a number grew in this run: the bucket that bounds this, in four bytes.
//
// Buckets of one rate and one size differ by one number alone: when they are full again if nobody takes anything. One that begins with the
// run, and of which nothing was taken, is full once half of it has come. Growth says how much later the bucket of a number is full, in the
// time that a token takes to come. It is rounded up, so a number may grow by one less than by the bucket, and never by more.
type growth uint32

const (
	ofToken   = time.Second / epochRate  // how long it takes until a token has come
	halfFills = mostEpochs / 2 * ofToken // and until half of the bucket has
)

// bucket returns the bucket at a time since the run began.
func (g growth) bucket(now time.Duration) *qlock.Bucket {
	began := time.Duration(g) * ofToken // then it has half, as one that begins
	missing := tokens(began - now)      // now it has so many less than that
	began -= time.Duration(missing) * ofToken
	bucket := qlock.NewBucket(epochRate, mostEpochs, began)
	_ = bucket.Spend(began, smallest(missing, mostEpochs/2)) // it never fails: it has half
	return bucket
}

// left returns how far the epochs may grow now.
func (g growth) left(now time.Duration) uint64 { return g.bucket(now).Left(now) }

// spend returns the growth after the epochs grew. It fails if they may not grow so far.
func (g growth) spend(now time.Duration, epochs uint64) (growth, error) {
	if err := g.bucket(now).Spend(now, epochs); err != nil {
		return g, err
	}
	full := later(time.Duration(g)*ofToken, now-halfFills) // one that has been full for long is as one that is full just now
	return growth(short(tokens(full) + epochs)), nil
}

// tokens returns in how many tokens' time some time has passed. Of a time below 0 it is 0.
func tokens(of time.Duration) uint64 {
	if of <= 0 {
		return 0
	}
	return uint64((of + ofToken - 1) / ofToken)
}
