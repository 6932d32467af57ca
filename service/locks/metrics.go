package locks

import (
	"time"

	"github.com/prometheus/client_golang/prometheus"
)

// counts are the numbers of a client that only grow.
var counts = []struct {
	desc  *prometheus.Desc
	value func(s Stats) uint64
}{
	{desc("passes_total", "Locks that were given back."), func(s Stats) uint64 { return s.Passes }},
	{desc("fail_overs_total", "Requests that were given up since a voter of their quorum was silent."), func(s Stats) uint64 { return s.FailOvers }},
	{desc("given_up_total", "Requests that were given up since nobody wanted the lock any more."), func(s Stats) uint64 { return s.GivenUp }},
	{desc("requests_total", "Requests for locks."), func(s Stats) uint64 { return s.Requests }},
	{desc("let_go_total", "Requests that a voter let go."), func(s Stats) uint64 { return s.LetGo }},
	{desc("refused_total", "Messages and lines of voters that were dropped."),
		func(s Stats) uint64 { return s.Refused }},
	{desc("reminders_total", "Reminders sent."), func(s Stats) uint64 { return s.Reminders }},
	{desc("reservations_total", "Blocks of stamps that were reserved after the first one."), func(s Stats) uint64 { return s.Reservations }},
	{desc("lost_total", "Locks that may have been lost while they were held."), func(s Stats) uint64 { return s.Lost }},
}

var silentVoter = desc("voter_silent", "1 if nothing came from a voter for the fail-over time, 0 if something did.", "voter")

func desc(name, help string, labels ...string) *prometheus.Desc {
	return prometheus.NewDesc("qlock_client_"+name, help, labels, nil)
}

// newWaits returns the histogram of how long calls of Lock waited.
func newWaits() prometheus.Histogram {
	return prometheus.NewHistogram(prometheus.HistogramOpts{Name: "qlock_client_wait_seconds",
		Help: "How long a call of Lock waited that got the lock.", Buckets: prometheus.ExponentialBuckets(0.0005, 2, 17)})
}

// collector has the numbers of one client.
type collector struct{ *Client }

// Collector returns the client's numbers for Prometheus. A program registers it. One with several clients tells them apart by
// a label of its own, with prometheus.WrapRegistererWith.
func (c *Client) Collector() prometheus.Collector { return collector{c} }

// Describe says which numbers there are.
func (c collector) Describe(out chan<- *prometheus.Desc) {
	for _, one := range counts {
		out <- one.desc
	}
	out <- silentVoter
	c.waits.Describe(out)
}

// Collect collects the numbers.
func (c collector) Collect(out chan<- prometheus.Metric) {
	stats := c.Stats()
	for _, one := range counts {
		out <- prometheus.MustNewConstMetric(one.desc, prometheus.CounterValue, float64(one.value(stats)))
	}
	for name, silent := range c.silentVoters() {
		value := 0.0
		if silent {
			value = 1
		}
		out <- prometheus.MustNewConstMetric(silentVoter, prometheus.GaugeValue, value, name)
	}
	c.waits.Collect(out)
}

// silentVoters returns which voters are silent, by their names, and none once the client is closed.
func (c *Client) silentVoters() map[string]bool {
	if c.shards != nil {
		return c.silentInAll()
	}
	voters := map[string]bool{}
	_ = c.call(func() error {
		silent := c.silent(time.Now())
		for v, name := range c.names() {
			voters[name] = silent>>v&1 == 1
		}
		return nil
	})
	return voters
}
