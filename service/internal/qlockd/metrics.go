package qlockd

import (
	"runtime"
	"sync"

	"calvundek.example/service/qlock"
	"github.com/prometheus/client_golang/prometheus"
	"github.com/prometheus/client_golang/prometheus/collectors"
)

// counts counts the replies to requests for locks and to other calls that were refused, by their words.
type counts struct {
	mutex sync.Mutex
	by    map[string]uint64
}

func (c *counts) add(word string) {
	c.mutex.Lock()
	defer c.mutex.Unlock()
	if c.by == nil {
		c.by = map[string]uint64{}
	}
	c.by[word]++
}

func (c *counts) all() map[string]uint64 {
	c.mutex.Lock()
	defer c.mutex.Unlock()
	all := map[string]uint64{}
	for word, count := range c.by {
		all[word] = count
	}
	return all
}

var (
	descLocks    = desc("locks", "Locks that clients have (held, lost once they have to stop) or wait for.", "state")
	descConns    = desc("connections", "Connections of clients.")
	descSession  = desc("session", "1 if there is a session, 0 if there is none.")
	descSessions = desc("sessions_total", "Sessions that were opened.")
	descLost     = desc("lost_total", "Locks that may have been lost while a client had them.")
	descReplies  = desc("replies_total", "Requests by the fault that they were refused for; none for a lock that was given.", "fault")
)

func desc(name, help string, labels ...string) *prometheus.Desc {
	return prometheus.NewDesc("qlock_agent_"+name, help, labels, nil)
}

// collector has the numbers of an agent, and of its session.
type collector struct{ *Agent }

// newRegistry returns the agent's numbers.
func (a *Agent) newRegistry() *prometheus.Registry {
	registry := prometheus.NewRegistry()
	info := prometheus.NewGauge(prometheus.GaugeOpts{Name: "qlock_agent_build_info", Help: "The version, as a label of 1.",
		ConstLabels: prometheus.Labels{"version": qlock.Version(), "go": runtime.Version()}})
	info.Set(1)
	registry.MustRegister(collector{a}, info, collectors.NewGoCollector(),
		collectors.NewProcessCollector(collectors.ProcessCollectorOpts{}))
	return registry
}

// Describe says nothing: the numbers of the session come and go with it.
func (c collector) Describe(chan<- *prometheus.Desc) {}

// Collect collects the numbers.
func (c collector) Collect(out chan<- prometheus.Metric) {
	gauge := func(desc *prometheus.Desc, value float64, labels ...string) {
		out <- prometheus.MustNewConstMetric(desc, prometheus.GaugeValue, value, labels...)
	}
	count := func(desc *prometheus.Desc, value uint64, labels ...string) {
		out <- prometheus.MustNewConstMetric(desc, prometheus.CounterValue, float64(value), labels...)
	}
	for state, size := range c.sizes() {
		gauge(descLocks, float64(size), string(state))
	}
	gauge(descConns, float64(c.connections.Load()))
	count(descSessions, c.begun.Load())
	count(descLost, c.lost.Load())
	for word, n := range c.counts.all() {
		count(descReplies, n, word)
	}
	s, _, _ := c.current()
	if s == nil {
		gauge(descSession, 0)
		return
	}
	gauge(descSession, 1)
	s.Collector().Collect(out)
}
