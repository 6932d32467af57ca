package voter

import (
	"bytes"
	"fmt"
	"testing"
	"time"

	"calvundek.example/service/internal/config"
	"calvundek.example/service/internal/wire"
	"calvundek.example/service/qlock"
)

// cutInGo cuts the first line off a text as the service did before the proved call, and looks at the lock's name.
func cutInGo(text []byte) (lock, line, rest []byte, found bool) {
	line, rest, found = bytes.Cut(text, []byte("\n"))
	if !found {
		return nil, nil, nil, false
	}
	lock, line, _ = bytes.Cut(line, []byte(" "))
	for _, b := range lock {
		if (b < 'a' || b > 'z') && (b < 'A' || b > 'Z') && (b < '0' || b > '9') && bytes.IndexByte([]byte("_-.:"), b) < 0 {
			return nil, nil, nil, false
		}
	}
	return lock, line, rest, len(lock) > 0 && len(lock) <= 64 && lock[0] != '.'
}

// A line of a lock at a voter, a REQUEST and its RELEASE in turn: cut off its message by the proved call, and in Go.
func BenchmarkLine(b *testing.B) {
	for _, way := range []struct {
		name string
		next func([]byte) (lock, line, rest []byte, found bool)
	}{{"call", wire.Next}, {"Go", cutInGo}} {
		b.Run(way.name, func(b *testing.B) {
			now := time.Unix(1000, 0)
			d := &Daemon{cluster: &config.Cluster{}, own: &config.Voter{MaxLocks: 10}, store: &store{}, ceiling: qlock.MaxStamp, m: newMetrics(), votes: map[string]*vote{},
				users: map[string]*usage{}, out: map[string][]byte{},
				leases: leasesAt(now)}
			voter, err := qlock.NewVoter(0, qlock.MaxStamp)
			if err != nil {
				b.Fatal(err)
			}
			d.add("an-ordinary-lock", voter)
			name := "jobs.session-1"
			d.shard(0).set(1, of(name, 1, 0, qlock.MaxStamp))
			d.shard(0).named(1, name)
			l := &letter{Header: wire.Header{Kind: wire.FromClient, Number: 1, Epoch: 1, Name: name}, shard: d.shard(0)}
			room := make([]byte, 0, 128)
			for i := 0; i < b.N; i++ {
				word := "request"
				if i%2 == 1 {
					word = "release"
				}
				text := fmt.Appendf(room, "an-ordinary-lock %s 1 0 %d\nan-ordinary-lock request 1 0 1\n", word, i/2+1)
				lock, line, _, found := way.next(text)
				if !found || !d.line(l, qlock.SessionKnown, lock, line, now) {
					b.Fatalf("%q is refused", text)
				}
				d.out[name], d.outBytes = d.out[name][:0], 0
			}
		})
	}
}
