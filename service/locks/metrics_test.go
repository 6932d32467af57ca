package locks

import (
	"testing"
	"time"

	"calvundek.example/service/internal/worlds"
	"github.com/prometheus/client_golang/prometheus"
	dto "github.com/prometheus/client_model/go"
)

// gathered returns the value of a number: of a histogram how often something was observed, and the sum of those with labels.
func gathered(t *testing.T, registry *prometheus.Registry, name string) (value float64) {
	t.Helper()
	families, err := registry.Gather()
	if err != nil {
		t.Fatal(err)
	}
	for _, family := range families {
		if family.GetName() != "qlock_client_"+name {
			continue
		}
		for _, one := range family.Metric {
			value += valueOf(one)
		}
		return value
	}
	t.Fatal("there is no", name)
	return 0
}

func valueOf(one *dto.Metric) float64 {
	switch {
	case one.Counter != nil:
		return one.Counter.GetValue()
	case one.Gauge != nil:
		return one.Gauge.GetValue()
	}
	return float64(one.Histogram.GetSampleCount())
}

// The numbers of a client follow what it does.
func TestClientNumbers(t *testing.T) {
	w := worlds.New(t, worlds.Majority, 2*time.Second)
	c, _ := start(t, w)
	registry := prometheus.NewPedanticRegistry()
	registry.MustRegister(c.Collector())
	for i := 0; i < 3; i++ {
		if err := take(t, c, "x").Unlock(); err != nil {
			t.Fatal(err)
		}
	}
	for name, want := range map[string]float64{"passes_total": 3, "wait_seconds": 3, "let_go_total": 0,
		"refused_total": 0, "lost_total": 0, "voter_silent": 0} {
		if got := gathered(t, registry, name); got != want {
			t.Errorf("%s: %v, not %v", name, got, want)
		}
	}
	other, _ := start(t, w)
	held := take(t, other, "x")
	if _, err := c.Lock(within(t, 100*time.Millisecond), "x"); err == nil {
		t.Error("two have a lock")
	}
	_ = held.Unlock()
	w.Stop(0)
	for _, name := range []string{"given_up_total", "voter_silent"} {
		soon(t, name, func() bool { return gathered(t, registry, name) == 1 })
	}
}

// The numbers of a client with shards are those of all its sessions.
func TestNumbersOfShards(t *testing.T) {
	w := newShards(t, 2, 2*time.Second)
	c := startWith(t, w, Config{})
	registry := prometheus.NewPedanticRegistry()
	registry.MustRegister(c.Collector())
	for shard := 0; shard < 2; shard++ {
		if err := take(t, c, nameIn(w, shard)).Unlock(); err != nil {
			t.Fatal(err)
		}
	}
	for name, want := range map[string]float64{"passes_total": 2, "wait_seconds": 2, "refused_total": 0, "voter_silent": 0} {
		if got := gathered(t, registry, name); got != want {
			t.Errorf("%s: %v, not %v", name, got, want)
		}
	}
}
