package main

import (
	"time"

	"calvundek.example/service/internal/boot"
	"calvundek.example/service/internal/config"
)

// between is how long it is between two questions to the voters.
const between = 300 * time.Millisecond

// streak is since when all voters of some quorum of each plan do something, and which voters have done it all that time.
type streak struct {
	since  time.Duration // 0 if no quorum does it
	voters uint64
}

// next takes which voters do it now.
func (s *streak) next(cluster *config.Cluster, voters uint64, now time.Duration) {
	if s.voters &= voters; s.since > 0 && cluster.HasQuorums(s.voters) {
		return
	}
	if s.since, s.voters = 0, voters; cluster.HasQuorums(voters) {
		s.since = now
	}
}

// observe asks the voters how they are until the trial is over, so that the witness knows since when a quorum serves. A
// voter that is quiet gives its vote to nobody who enters.
func (p *player) observe(over <-chan struct{}) {
	var serving, replying streak
	served := boot.Uptime() // when a quorum served last, or it was said that none does
	for {
		select {
		case <-over:
			return
		case <-time.After(between):
		}
		cluster, statuses := p.cluster.Ask()
		now, serve, reply := boot.Uptime(), uint64(0), uint64(0)
		for voter, status := range statuses {
			reply |= 1 << voter
			if status.Serves && status.Quiet == 0 {
				serve |= 1 << voter
			}
		}
		serving.next(cluster, serve, now)
		replying.next(cluster, reply, now)
		p.witness.note("serve", serving.since.Microseconds())
		if serving.since > 0 {
			served = now
		} else if replying.since > 0 && now-latest(replying.since, served) > 3*p.ttl {
			served = now
			p.witness.note("fault", "nobody-serves", "a quorum has replied for", now-replying.since)
		}
	}
}
