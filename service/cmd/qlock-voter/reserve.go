package main

import (
	"context"
	"os"
	"runtime/debug"
	"runtime/metrics"
	"time"
)

// Go's collector runs once as much was allocated as was in use, so a process takes twice what it uses. Most of a large state lies still, and
// little comes and goes. So the more is in use, the smaller a part of that is the reserve.
//
// Where much comes and goes, as very many sessions begin, the collector would run again and again, and look at all that lies still each time:
// half a million of them took half of the voter's processor time for that. So the reserve is what was allocated in the last period, too, up to
// what is in use.

const (
	mostReserve    = 128 << 20 // bytes, unless a quarter of what is in use is more, or as much was allocated
	leastPercent   = 25
	usualPercent   = 100
	openingPercent = 400 // while a state is read: nearly all that is allocated then stays
	reservePeriod  = 10 * time.Second
)

// reserve returns how many percent of what is in use may be allocated until the collector runs, where so much was allocated in a period.
func reserve(inUse, allocated uint64) int {
	bytes := allocated
	if bytes < mostReserve {
		bytes = mostReserve
	}
	switch {
	case inUse <= bytes:
		return usualPercent
	case inUse >= bytes*usualPercent/leastPercent:
		return leastPercent
	}
	return int(usualPercent * bytes / inUse)
}

// isReserveOurs returns whether the environment leaves the reserve to this program.
func isReserveOurs() bool { return os.Getenv("GOGC") == "" }

// openReserve sets the reserve for reading a state.
func openReserve() {
	if isReserveOurs() {
		debug.SetGCPercent(openingPercent)
	}
}

// keepReserve sets the reserve again and again, until the context ends.
func keepReserve(ctx context.Context) {
	if !isReserveOurs() {
		return
	}
	_, before := heap()
	ticker := time.NewTicker(reservePeriod)
	defer ticker.Stop()
	for {
		inUse, allocated := heap()
		debug.SetGCPercent(reserve(inUse, allocated-before))
		before = allocated
		select {
		case <-ticker.C:
		case <-ctx.Done():
			return
		}
	}
}

// heap returns how many bytes are in use, and how many were allocated since this process began: 0 if Go does not say so.
func heap() (inUse, allocated uint64) {
	sample := []metrics.Sample{{Name: "/memory/classes/heap/objects:bytes"}, {Name: "/gc/heap/allocs:bytes"}}
	metrics.Read(sample)
	for i, into := range []*uint64{&inUse, &allocated} {
		if sample[i].Value.Kind() == metrics.KindUint64 {
			*into = sample[i].Value.Uint64()
		}
	}
	return inUse, allocated
}
