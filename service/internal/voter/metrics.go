package voter

import (
	"encoding/json"
	"net/http"
	"os"
	"runtime"
	"sync/atomic"
	"time"

	"calvundek.example/service/internal/moment"
	"calvundek.example/service/qlock"
	"calvundek.example/service/transport"
	"github.com/prometheus/client_golang/prometheus"
	"github.com/prometheus/client_golang/prometheus/collectors"
	"github.com/prometheus/client_golang/prometheus/promhttp"
)

// metrics are a voter's numbers for Prometheus.
type metrics struct {
	registry                                                                          *prometheus.Registry
	received, foreign, refused, reminders, expired, grants, spent, forgotten, dropped prometheus.Counter
	full, fullUser                                                                    prometheus.Counter
	commit, batch                                                                     prometheus.Histogram
	locks, busy, held, userLocks, sessions, numbers, shards, plan, left               prometheus.Gauge

	lasting, waiting oldest // of the grants that last, and of the requests that wait
	most             uint64 // the highest number of a grant that was given, or skipped for a turn

	unsent atomic.Uint64 // messages that the transport did not take
}

// highest notes the number of a grant, and returns the highest one that was noted.
func (m *metrics) highest(number uint64) uint64 {
	if number > m.most {
		m.most = number
	}
	return m.most
}

// oldest is when the oldest of some began, as a moment.Moment, and 0 if there is none. How old it is is read when somebody asks for it. No
// change of the clock on the wall moves it.
type oldest struct{ atomic.Int64 }

// note notes when the oldest began; there is none if that is now, or no time.
func (o *oldest) note(began, now time.Time) {
	if began.IsZero() || !began.Before(now) {
		o.Store(0)
		return
	}
	if of := moment.Of(began); of != 0 {
		o.Store(int64(of))
	} else {
		o.Store(1)
	}
}

// age returns for how many seconds there is one.
func (o *oldest) age(now time.Time) float64 {
	began := o.Load()
	if began == 0 {
		return 0
	}
	return now.Sub(moment.Moment(began).Time()).Seconds()
}

func newMetrics() *metrics {
	m := &metrics{registry: prometheus.NewRegistry()}
	m.registry.MustRegister(collectors.NewGoCollector(),
		collectors.NewProcessCollector(collectors.ProcessCollectorOpts{}))
	m.received = m.counter("messages_received_total", "Messages received.")
	m.foreign = m.counter("messages_foreign_total", "Messages of another cluster or coterie, or of no sender of this protocol.")
	m.refused = m.counter("lines_refused_total", "Lines that were dropped.")
	m.reminders = m.counter("reminders_total", "Reminders sent.")
	m.expired = m.counter("leases_expired_total", "Grants that were let go, since their client was silent for the TTL.")
	m.grants = m.counter("grants_total", "Grants given.")
	m.spent = m.counter("grants_spent_total", "Messages that needed a grant of a lock which has none left.")
	m.full = m.counter("requests_full_total", "Requests for locks for which there was no room (max_locks).")
	m.fullUser = m.counter("requests_full_user_total", "Requests for locks beyond what their user may have (max_locks_user).")
	m.forgotten = m.counter("locks_forgotten_total", "Locks that were forgotten, as nobody used them.")
	m.dropped = m.counter("shards_dropped_total", "Shards whose numbers were forgotten, as nobody used them.")
	m.commit = m.histogram("commit_seconds", "Time of one save.", prometheus.ExponentialBuckets(0.0002, 2, 14))
	m.batch = m.histogram("commit_votes", "Votes of one save.", prometheus.ExponentialBuckets(1, 2, 12))
	m.locks = m.gauge("locks", "Locks that this voter knows.")
	m.busy = m.gauge("locks_busy", "Locks that somebody has or waits for.")
	m.held = m.gauge("locks_held", "Locks whose vote somebody has.")
	m.userLocks = m.gauge("user_locks", "Locks that one user has or waits for: those of the user who has most.")
	m.sessions = m.gauge("sessions", "Sessions that are open.")
	m.numbers = m.gauge("numbers_free", "Client numbers that are free, or whose session was silent for the TTL.")
	m.shards = m.gauge("shards", "Shards whose numbers are in memory.")
	m.plan = m.gauge("plan", "How often the plan was exchanged.")
	m.left = m.gauge("grants_left", "How many grants may follow the highest one that this run saw.")
	return m
}

// watch adds the numbers of messages that wait and of those that found no room, and those of a
// link. They are read when somebody asks for them, also while the loop has much to do.
func (d *Daemon) watch() {
	link := d.link
	if link == nil {
		link = noLink{}
	}
	counter := func(name, help string, read func() float64) {
		d.m.registry.MustRegister(prometheus.NewCounterFunc(prometheus.CounterOpts{Name: "qlock_voter_" + name,
			Help: help}, read))
	}
	counter("broker_reconnects_total", "How often the connection to the broker came back.",
		func() float64 { return float64(link.Returns()) })
	d.m.read("held_oldest_seconds", "How long the grant lasts that has lasted longest.",
		func() float64 { return d.m.lasting.age(d.now()) })
	d.m.read("waiting_oldest_seconds", "How long the request waits that has waited longest.",
		func() float64 { return d.m.waiting.age(d.now()) })
	d.m.read("file_bytes", "How long the file of the state is.", func() float64 { return length(file(d.own.Data)) })
	info := prometheus.NewGauge(prometheus.GaugeOpts{Name: "qlock_voter_build_info",
		Help:        "The version, as a label of 1.",
		ConstLabels: prometheus.Labels{"version": qlock.Version(), "go": runtime.Version()}})
	info.Set(1)
	d.m.registry.MustRegister(info)
	most := float64(d.own.MaxLocks)
	d.m.read("locks_most", "Locks that this voter may know (max_locks).", func() float64 { return most })
	ofUser := float64(d.own.LocksOfUser())
	d.m.read("user_locks_most", "Locks that one user may have or wait for (max_locks_user).", func() float64 { return ofUser })
	if own, is := link.(interface{ CertificateEnd() time.Time }); is && !own.CertificateEnd().IsZero() {
		d.m.read("certificate_end_timestamp_seconds",
			"When the certificate in this voter's files ends, in seconds since 1970.",
			func() float64 { return float64(own.CertificateEnd().Unix()) })
	}
	counter("messages_dropped_total", "Messages for which there was no room.", func() float64 {
		return float64(d.noRoom.Load() + link.Dropped())
	})
	counter("messages_unsent_total", "Messages that could not be sent.", func() float64 {
		count := d.m.unsent.Load()
		if by, is := link.(interface{ Unsent() uint64 }); is {
			count += by.Unsent() // what it took, and could not send later
		}
		return float64(count)
	})
	byUser := dropsByUser{&d.noRoom}
	if counts, is := link.(interface{ Drops() *transport.Drops }); is {
		byUser = append(byUser, counts.Drops())
	}
	d.m.registry.MustRegister(byUser)
	d.m.read("queue_messages", "Messages that wait.",
		func() float64 { return float64(int(d.waits.Load()) + link.Waiting()) })
}

// dropsByUser are the messages that found no room, by whose they were.
type dropsByUser []*transport.Drops

var droppedOfUser = desc("user_messages_dropped_total", "Messages of a user for which there was no room.", "user")

func desc(name, help string, labels ...string) *prometheus.Desc {
	return prometheus.NewDesc("qlock_voter_"+name, help, labels, nil)
}

// Describe says what Collect shows.
func (dropsByUser) Describe(into chan<- *prometheus.Desc) { into <- droppedOfUser }

// Collect shows the users of which messages were dropped.
func (d dropsByUser) Collect(into chan<- prometheus.Metric) {
	counts := map[string]uint64{}
	for _, one := range d {
		one.AddTo(counts)
	}
	for user, count := range counts {
		into <- prometheus.MustNewConstMetric(droppedOfUser, prometheus.CounterValue, float64(count), user)
	}
}

// length returns how many bytes a file has, 0 if it can't be told.
func length(path string) float64 {
	info, err := os.Stat(path)
	if err != nil {
		return 0
	}
	return float64(info.Size())
}

// noLink stands for the link of a transport that has none.
type noLink struct{}

func (noLink) Connected() bool { return true }
func (noLink) Returns() uint64 { return 0 }
func (noLink) Waiting() int    { return 0 }
func (noLink) Dropped() uint64 { return 0 }

func (m *metrics) counter(name, help string) prometheus.Counter {
	c := prometheus.NewCounter(prometheus.CounterOpts{Name: "qlock_voter_" + name, Help: help})
	m.registry.MustRegister(c)
	return c
}

func (m *metrics) gauge(name, help string) prometheus.Gauge {
	g := prometheus.NewGauge(prometheus.GaugeOpts{Name: "qlock_voter_" + name, Help: help})
	m.registry.MustRegister(g)
	return g
}

// read adds a gauge that is read when somebody asks for it.
func (m *metrics) read(name, help string, value func() float64) {
	m.registry.MustRegister(prometheus.NewGaugeFunc(prometheus.GaugeOpts{Name: "qlock_voter_" + name, Help: help}, value))
}

func (m *metrics) histogram(name, help string, buckets []float64) prometheus.Histogram {
	h := prometheus.NewHistogram(prometheus.HistogramOpts{Name: "qlock_voter_" + name, Help: help, Buckets: buckets})
	m.registry.MustRegister(h)
	return h
}

// measure sets the numbers that are looked at from time to time.
func (d *Daemon) measure(now time.Time) {
	waiting := now
	for _, v := range d.soon.all {
		v.asks(func(one ask) {
			if !v.isHolder(one.client) {
				waiting = earlier(waiting, one.since.Time())
			}
		})
	}
	if len(d.inTurn) > 0 { // one shard each time: a row costs a call
		d.nextShard = (d.nextShard + 1) % len(d.inTurn)
		d.census.count(d.inTurn[d.nextShard])
		d.inTurn[d.nextShard].tidy(now)
	}
	ofUser := 0
	for _, u := range d.users {
		if u.votes > ofUser {
			ofUser = u.votes
		}
	}
	if d.waitsSince = waiting; waiting == now {
		d.waitsSince = time.Time{}
	}
	d.m.userLocks.Set(float64(ofUser))
	d.m.waiting.note(waiting, now)
	d.m.busy.Set(float64(len(d.busy.all)))
	d.m.held.Set(float64(d.held))
	d.m.sessions.Set(float64(d.census.open))
	d.m.numbers.Set(float64(d.census.leastFree()))
	d.m.shards.Set(float64(len(d.inTurn)))
	d.m.plan.Set(float64(d.plans.Number))
	d.m.locks.Set(float64(len(d.votes)))
}

// census has the sessions of all shards, and how many shards have so many numbers that may be claimed, as each was counted last.
type census struct {
	open int
	free [qlock.MaxClients + 1]int
}

// add adds what was counted of a shard, or takes it out.
func (c *census) add(s *shard, by int) {
	c.open += by * int(s.open)
	c.free[s.free] += by
}

// count counts a shard anew.
func (c *census) count(s *shard) {
	c.add(s, -1)
	s.census()
	c.add(s, 1)
}

// leastFree returns how many numbers may be claimed in the shard that has fewest.
func (c *census) leastFree() int {
	for free, shards := range c.free {
		if shards > 0 {
			return free
		}
	}
	return qlock.MaxClients
}

// census counts the sessions of a shard, and the numbers that may be claimed.
func (s *shard) census() {
	s.open, s.free = 0, 0
	for number := 0; number < qlock.MaxClients; number++ {
		if s.bare(number).Open {
			s.open++
		}
		if s.state(number) != 0 {
			s.free++
		}
	}
}

func earlier(a, b time.Time) time.Time {
	if b.Before(a) {
		return b
	}
	return a
}

// Health is what /healthz shows.
type Health struct {
	Healthy    bool    `json:"healthy"`
	LoopSilent float64 `json:"loop_silent_seconds"` // how long ago the loop last went round
	Marker     float64 `json:"marker_seconds"`      // how long ago the last marker left that came back
	Broker     bool    `json:"broker"`
	Voter      int     `json:"voter"`
	Identity   string  `json:"identity"`
}

// health looks at the loop and the broker.
func (d *Daemon) health() Health {
	now := d.now()
	silent := d.silentFor(now)
	broker := d.link == nil || d.link.Connected()
	marker := now.Sub(d.started) - time.Duration(d.marked.Load())
	healthy := silent < 2*time.Second && marker < mostMarker && broker
	return Health{Healthy: healthy, LoopSilent: silent.Seconds(), Marker: marker.Seconds(), Broker: broker,
		Voter: d.store.meta.Voter, Identity: d.store.meta.Identity}
}

// mostMarker is how long ago the last marker may have left that came back. Else leases don't end,
// say since this voter's user may not publish to the voter's mailbox.
const mostMarker = 5 * time.Second

// Handler serves /metrics and /healthz. /healthz has status 503 if the loop stands still, there is
// no broker, or no marker comes back.
func (d *Daemon) Handler() http.Handler {
	mux := http.NewServeMux()
	mux.Handle("/metrics", promhttp.HandlerFor(d.m.registry, promhttp.HandlerOpts{}))
	mux.HandleFunc("/healthz", func(w http.ResponseWriter, _ *http.Request) {
		health := d.health()
		w.Header().Set("Content-Type", "application/json")
		if !health.Healthy {
			w.WriteHeader(http.StatusServiceUnavailable)
		}
		_ = json.NewEncoder(w).Encode(health)
	})
	return mux
}
