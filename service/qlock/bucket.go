package qlock

// #include "qlock.h"
import "C"

import "time"

// Bucket is a token bucket: it says how fast something may grow that others name. It gains so many tokens a second, up to a bound,
// and begins with half of that. So one that was not used for long has enough left to follow one that was. Times are those of one
// clock of the caller, since it began. It is not saved. The zero bucket never has a token.
type Bucket struct{ state [BucketBytes]byte }

// NewBucket makes a bucket that begins now, gains rate tokens a second, and has at most most.
func NewBucket(rate, most uint64, now time.Duration) *Bucket {
	b := new(Bucket)
	mustBeDone(C.qlock_bucket_new(C.uint64_t(rate), C.uint64_t(most), nanoseconds(now), at(b.state[:]), BucketBytes))
	return b
}

// Left returns how many whole tokens there are now.
func (b *Bucket) Left(now time.Duration) uint64 {
	var tokens C.uint64_t
	mustBeDone(C.qlock_bucket_left(at(b.state[:]), BucketBytes, nanoseconds(now), &tokens))
	return uint64(tokens)
}

// Spend takes tokens. It returns TokensSpent if there are fewer now.
func (b *Bucket) Spend(now time.Duration, tokens uint64) error {
	return refusal(C.qlock_bucket_spend(at(b.state[:]), BucketBytes, nanoseconds(now), C.uint64_t(tokens)))
}
