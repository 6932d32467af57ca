// Package measure measures passes through locks: how many a second, and how long a call of Lock takes.
package measure

import (
	"context"
	"fmt"
	"sort"
	"sync"
	"time"
)

// Locker is one client of some lock service, with one lock.
type Locker interface {
	Lock(ctx context.Context) error
	Unlock(ctx context.Context) error
}

// Figures are what was measured.
type Figures struct {
	Passes        float64       // a second
	P50, P99, Max time.Duration // of Lock
}

// String returns the figures as one line.
func (f Figures) String() string {
	ms := func(d time.Duration) float64 { return d.Seconds() * 1000 }
	return fmt.Sprintf("%8.1f passes/s   lock ms: p50 %7.2f  p99 %7.2f  max %7.2f", f.Passes, ms(f.P50), ms(f.P99), ms(f.Max))
}

// Run lets all lockers pass for a time, after a tenth of it to warm up.
func Run(ctx context.Context, lockers []Locker, length time.Duration) (Figures, error) {
	warm := time.Now().Add(length / 10)
	end := warm.Add(length)
	waits, failures := make([][]time.Duration, len(lockers)), make([]error, len(lockers))
	var group sync.WaitGroup
	for i := range lockers {
		group.Add(1)
		go func(i int) {
			defer group.Done()
			waits[i], failures[i] = pass(ctx, lockers[i], warm, end)
		}(i)
	}
	group.Wait()
	var all []time.Duration
	for i := range waits {
		if failures[i] != nil {
			return Figures{}, failures[i]
		}
		all = append(all, waits[i]...)
	}
	if len(all) == 0 {
		return Figures{}, nil
	}
	sort.Slice(all, func(i, j int) bool { return all[i] < all[j] })
	at := func(p float64) time.Duration { return all[int(p*float64(len(all)-1))] }
	return Figures{float64(len(all)) / length.Seconds(), at(0.5), at(0.99), at(1)}, nil
}

// pass passes until the end, and returns how long each call of Lock took that began after the warm-up.
func pass(ctx context.Context, l Locker, warm, end time.Time) (waits []time.Duration, err error) {
	for {
		began := time.Now()
		if began.After(end) {
			return waits, nil
		}
		if err := l.Lock(ctx); err != nil {
			return nil, err
		}
		waited := time.Since(began)
		if err := l.Unlock(ctx); err != nil {
			return nil, err
		}
		if began.After(warm) {
			waits = append(waits, waited)
		}
	}
}
