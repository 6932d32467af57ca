package locks

import (
	"sync"
	"testing"
	"time"

	"calvundek.example/service/internal/bus"
	"calvundek.example/service/internal/wire"
	"calvundek.example/service/internal/worlds"
)

// moving is a transport that notes how old the server may be that is left.
type moving struct {
	*bus.Port
	mutex sync.Mutex
	ages  []time.Duration
}

func (m *moving) Move(age time.Duration) {
	m.mutex.Lock()
	defer m.mutex.Unlock()
	m.ages = append(m.ages, age)
}

// all returns these ages.
func (m *moving) all() []time.Duration {
	m.mutex.Lock()
	defer m.mutex.Unlock()
	return append([]time.Duration(nil), m.ages...)
}

// A client leaves the server that lets it hear no quorum of voters for two TTLs, and not before.
func TestDeafClientMoves(t *testing.T) {
	w := worlds.New(t, worlds.Majority, 2*time.Second)
	port := &moving{Port: w.Bus.Port()}
	c, err := open(within(t, 20*time.Second), w.Cluster, Config{Transport: port})
	if err != nil {
		t.Fatal(err)
	}
	most := 2 * w.Cluster.TTL.Duration
	for _, one := range []struct {
		deaf    int
		silence time.Duration
		moves   int
	}{{1, most + time.Second, 0}, {2, most - 500*time.Millisecond, 0}, {2, most + time.Second, 1}} {
		_ = c.call(func() error {
			now := time.Now()
			for v := range c.peers {
				if c.peers[v].heard = now; v < one.deaf {
					c.peers[v].heard = now.Add(-one.silence)
				}
			}
			port.ages = nil
			if c.round(now); len(port.ages) != one.moves || one.moves > 0 && port.ages[0] != most {
				t.Errorf("%d voters were not heard for %v: it moves %v", one.deaf, one.silence, port.ages)
			}
			return nil
		})
	}
	_ = c.Close(within(t, 20*time.Second))
}

// Who opens a session leaves such a server after half a TTL.
func TestWhoOpensMoves(t *testing.T) {
	for _, shards := range []int{1, 2} {
		cluster := worlds.NewCluster(t, worlds.Majority, time.Second)
		if cluster.Shards = shards; cluster.Check() != nil {
			t.Fatal(cluster.Check())
		}
		port := &moving{Port: bus.New(1).Port()}
		if _, err := open(within(t, 900*time.Millisecond), cluster, Config{Transport: port}); err == nil {
			t.Fatal("it opened without voters")
		}
		if ages := port.all(); len(ages) == 0 || ages[0] != cluster.TTL.Duration/2 {
			t.Errorf("%d shards: %v", shards, ages)
		}
	}
}

// Many short calls are as deaf as a long one.
func TestShortCallsMove(t *testing.T) {
	w := newShards(t, 2, time.Second)
	port := &moving{Port: w.Bus.Port()}
	c, err := open(within(t, 20*time.Second), w.Cluster, Config{Transport: port})
	if err != nil {
		t.Fatal(err)
	}
	port.Cut(true)
	for end := time.Now().Add(20 * time.Second); len(port.all()) == 0 && time.Now().Before(end); {
		if _, err := c.Lock(within(t, 150*time.Millisecond), "x"); err == nil {
			t.Fatal("it has a lock")
		}
	}
	if ages := port.all(); len(ages) == 0 || ages[0] != w.Cluster.TTL.Duration/2 {
		t.Error(ages)
	}
	_ = c.Close(within(t, time.Second))
}

// Who only looks leaves such a server if it asks and no quorum replies, and not while it asks nothing.
func TestWhoLooksMoves(t *testing.T) {
	cluster := worlds.NewCluster(t, worlds.Majority, time.Second)
	port := &moving{Port: bus.New(1).Port()}
	c, err := newLook(cluster, Config{Transport: port})
	if err != nil {
		t.Fatal(err)
	}
	c.followed = time.Now()
	q := newQuestion(wire.AskWho, "x")
	c.round(q.began.Add(time.Hour))
	c.questions[1] = q
	const most = time.Second / 2
	if c.round(q.began.Add(most)); len(port.ages) > 0 {
		t.Error("it moves early")
	}
	if c.round(q.began.Add(most + 1)); len(port.ages) != 1 || port.ages[0] != most {
		t.Error(port.ages)
	}
}
