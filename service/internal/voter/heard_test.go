package voter

import (
	"math"
	"math/rand"
	"testing"
	"time"

	"calvundek.example/service/internal/config"
	"calvundek.example/service/qlock"
)

// eager is when the sessions of a table were heard, where what a marker says is taken into account as it comes back.
type eager struct {
	heard  [qlock.MaxClients]time.Duration
	passed [qlock.MaxClients]passed
}

// returned takes into account that a marker came back at a reading. It returns whether that says something.
func (e *eager) returned(at time.Duration) (says bool) {
	for number := range e.heard {
		says = says || e.heard[number] > at || e.passed[number].at > at
		e.heard[number], e.passed[number].at = sooner(e.heard[number], at), sooner(e.passed[number].at, at)
	}
	return says
}

// isOver is the same question as that of a table.
func (e *eager) isOver(t *table, number int, stamp uint64) bool {
	heard, byWord := e.heard[number], t.rare(number).byWord
	if e.passed[number].is && stamp <= t.row(number).Base {
		if !byWord {
			heard = e.passed[number].at
		}
		byWord = true
	}
	letsGo, err := t.one(number).LetsGo(stamp, t.clock.IsSilent(heard, t.ttl), byWord)
	return err == nil && letsGo
}

// listener is a voter whose markers a test sends and returns, and when its sessions were heard.
type listener struct {
	*Daemon
	now    time.Time
	away   []uint64 // the markers that are under way
	models []*eager // by shard
	says   int      // how many markers said something
}

func newListener() *listener {
	l := &listener{now: time.Unix(1000, 0)}
	l.Daemon = &Daemon{cluster: &config.Cluster{Shards: 32}, leases: leasesAt(l.now), around: Surroundings{Now: func() time.Time { return l.now }}}
	return l
}

// add adds a shard of which number 1 has a session, number 2 another one than another voter says, and number 3 one that was ended.
func (l *listener) add() {
	e := &eager{}
	l.models = append(l.models, e)
	s := l.shard(len(l.models) - 1)
	for number := 1; number < 4; number++ {
		s.put(number, Session{Epoch: 3, Base: 10, Reserved: 20, Open: true, Used: true, Hash: "jobs.x"})
	}
	s.learn(2, Session{Epoch: 4, Base: 50, Reserved: 60, Open: true, Used: true, Hash: "jobs.y"}, l.now)
	e.heard[2], e.passed[2] = l.leases.at(l.now), passed{true, l.leases.at(l.now)}
	s.expel(3, false)
}

// drops lets a shard go, and comes back to it as to one that was never used.
func (l *listener) drops(place int) {
	s := l.inTurn[place]
	l.inTurn = append(l.inTurn[:place], l.inTurn[place+1:]...)
	delete(l.shards, s.table.number)
	*l.models[s.table.number] = eager{}
}

// hears lets something happen that a shard hears.
func (l *listener) hears(shard, number, what int) {
	at, s, e := l.leases.at(l.now), l.shard(shard), l.models[shard]
	switch {
	case what == 0:
		s.passes(number, l.now)
		s.asks(number, 0, 0) // it gets a seat
		e.passed[number] = passed{true, at}
	case what == 1:
		l.leases.hearAll(l.now)
		for shard, e := range l.models {
			for number := 0; l.shards[shard] != nil && number < qlock.MaxClients; number++ {
				e.heard[number] = at
			}
		}
	default:
		s.hear(number, l.now)
		e.heard[number] = at
	}
}

// sends sends a marker, if it is time for one.
func (l *listener) sends() {
	if number := l.leases.clock.Send(l.now.Sub(l.leases.began)); number > 0 {
		l.away = append(l.away, number)
	}
}

// returns lets a marker come back, which may be an old one, and may come again.
func (l *listener) returns(t *testing.T, place int) {
	if !l.isMarker(l.markerLine(l.away[place])) {
		t.Fatal("a marker is none")
	}
	says := false
	for _, e := range l.models {
		says = e.returned(l.leases.at(l.now)) || says
	}
	if says {
		l.says++
	}
}

// looks fails unless a number of a shard is as it is where each marker is taken into account at once.
func (l *listener) looks(t *testing.T, shard, number int) {
	t.Helper()
	s, e := l.shard(shard), l.models[shard]
	reading, _ := s.clock.Shows()
	if got, want := s.silent(number), reading-e.heard[number]; got != want {
		t.Fatalf("number %d was silent for %v, and not for %v", number, got, want)
	}
	for _, stamp := range []uint64{5, 30, math.MaxUint64} {
		if got, want := s.isOver(number, stamp), e.isOver(&s.table, number, stamp); got != want {
			t.Fatalf("number %d, stamp %d: over is %v", number, stamp, got)
		}
	}
	if got, want := s.isDead(number), e.isOver(&s.table, number, math.MaxUint64); got != want {
		t.Fatalf("number %d: dead is %v", number, got)
	}
}

// Whatever is heard, whichever markers come back, late or never, however long the voter stands still, and whenever a table is looked at: who
// is silent, and for how long, is as if each marker were taken into account in all tables as it comes back.
func TestHearings(t *testing.T) {
	random, says, isDead := rand.New(rand.NewSource(1)), 0, [2]int{}
	for world := 0; world < 400; world++ {
		l := newListener()
		for i := 0; i < 4; i++ {
			l.add()
		}
		for step := 0; step < 300; step++ {
			shard, number := random.Intn(len(l.models)), random.Intn(5)
			switch what := random.Intn(20); {
			case what < 6:
				l.now = l.now.Add(time.Duration(random.Intn(200)) * time.Millisecond)
				l.sends()
			case what < 7:
				l.now = l.now.Add(time.Duration(random.Intn(20)) * time.Second)
			case what < 12 && len(l.away) > 0:
				l.returns(t, len(l.away)-1-random.Intn(len(l.away))*random.Intn(2))
			case what < 17:
				l.hears(shard, number, random.Intn(12))
			case what < 18 && len(l.models) < 16 && random.Intn(10) == 0:
				l.add()
			case what < 18 && random.Intn(10) == 0:
				l.drops(random.Intn(len(l.inTurn)))
			default:
				l.looks(t, shard, number)
				if isDead[0]++; l.shard(shard).isDead(number) {
					isDead[1]++
				}
			}
		}
		for shard := range l.models {
			for number := 0; number < qlock.MaxClients; number++ {
				l.looks(t, shard, number)
			}
		}
		says += l.says
	}
	if says < 1000 || isDead[1] < 1000 || isDead[0]-isDead[1] < 1000 {
		t.Errorf("%d markers say something, %d of %d are dead: these runs show little", says, isDead[1], isDead[0])
	}
}

// However often a voter stands still, it takes little memory to know what its markers said.
func TestManyStandstills(t *testing.T) {
	l, most := newListener(), 0
	for i := 0; i < 30; i++ {
		l.add()
	}
	for i := 0; i < 1000; i++ {
		l.sends()
		l.now = l.now.Add(10 * time.Second)
		l.hears(i%7, 1, 2)
		l.returns(t, len(l.away)-1)
		if cuts := len(l.leases.heard.cuts); cuts > most {
			most = cuts
		}
	}
	if l.says < 900 || most < 30 || most > 2*31 {
		t.Errorf("%d markers said something, and %d are noted", l.says, most)
	}
	for shard := range l.models {
		for number := 0; number < 5; number++ {
			l.looks(t, shard, number)
		}
	}
}

// While markers come back nothing is noted: each costs the same, however many tables there are.
func TestMarkersOfAQuietDay(t *testing.T) {
	l := newListener()
	l.add()
	for i := 0; i < 10000; i++ {
		l.hears(0, i%5, 2)
		l.sends()
		l.now = l.now.Add(130 * time.Millisecond)
		l.returns(t, len(l.away)-1)
	}
	if l.says > 0 || len(l.leases.heard.cuts) > 0 {
		t.Errorf("%d of %d markers said something", l.says, len(l.away))
	}
}
