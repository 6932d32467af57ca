package locks

import (
	"context"
	"fmt"
	"net"
	"os/exec"
	"sync"
	"syscall"
	"testing"
	"time"

	"calvundek.example/service/internal/config"
	"calvundek.example/service/internal/local"
	"calvundek.example/service/internal/worlds"
	"calvundek.example/service/transport"
)

// silent returns a server that takes connections and says nothing: the system accepts for it.
func silent(t *testing.T) string {
	t.Helper()
	listener, err := net.Listen("tcp", "127.0.0.1:0")
	if err != nil {
		t.Fatal(err)
	}
	t.Cleanup(func() { listener.Close() })
	return "nats://" + listener.Addr().String()
}

// freezing returns the settings of a cluster with so many shards, whose voters run, and a server of NATS that can be frozen.
func freezing(t *testing.T, shards int) (cluster *config.Cluster, freeze func()) {
	t.Helper()
	path, err := local.NATSServer()
	if err != nil {
		t.Skip("apt-get install nats-server")
	}
	ports, err := local.FreePorts(1)
	if err != nil {
		t.Fatal(err)
	}
	run := exec.Command(path, "-a", "127.0.0.1", "-p", fmt.Sprint(ports[0]))
	if err := run.Start(); err != nil {
		t.Fatal(err)
	}
	t.Cleanup(func() { _ = run.Process.Kill(); _ = run.Wait() })
	cluster = worlds.NewCluster(t, worlds.Majority, 4*time.Second)
	cluster.Servers = []string{fmt.Sprintf("nats://127.0.0.1:%d", ports[0]), silent(t), silent(t)}
	if cluster.Shards = shards; cluster.Check() != nil {
		t.Fatal(cluster.Check())
	}
	serveBy(t, cluster, t.TempDir(), func(int) *transport.NATS { return connect(t, cluster, config.Access{}) })
	return cluster, func() {
		_ = run.Process.Signal(syscall.SIGSTOP)
		if _, err := syscall.Wait4(run.Process.Pid, nil, syscall.WUNTRACED, nil); err != nil { // it stands still then
			t.Error(err)
		}
	}
}

// Each call ends with its context while all servers take connections and say nothing, and those that have none end at once.
func TestCallsEndWithTheirContexts(t *testing.T) {
	for _, shards := range []int{1, 4} {
		shards := shards
		t.Run(fmt.Sprint(shards), func(t *testing.T) {
			t.Parallel()
			endsInTime(t, shards)
		})
	}
}

func endsInTime(t *testing.T, shards int) {
	const limit, most = 300 * time.Millisecond, 400 * time.Millisecond // 100 ms, on a machine with much else to do
	cluster, freeze := freezing(t, shards)
	c, err := open(within(t, 20*time.Second), cluster, Config{})
	if err != nil {
		t.Fatal(err)
	}
	var held []*Held
	for i := 0; i < 8; i++ {
		held = append(held, take(t, c, fmt.Sprint("held-", i)))
	}
	freeze()
	timed := func(what string, limit time.Duration, call func(ctx context.Context)) {
		ctx, cancel := context.WithTimeout(context.Background(), limit)
		over := make(chan time.Time, 1) // when the context ended, as another goroutine saw it
		go func() { <-ctx.Done(); over <- time.Now() }()
		call(ctx)
		ended := time.Now()
		cancel()
		if late := ended.Sub(<-over); late > most {
			t.Errorf("%s ended %v after its context", what, late)
		}
	}
	var group sync.WaitGroup
	for what, call := range map[string]func(ctx context.Context){
		"Lock":    func(ctx context.Context) { _, _ = c.Lock(ctx, "a") },
		"TryLock": func(ctx context.Context) { _, _ = c.TryLock(ctx, "b") },
		"Turn":    func(ctx context.Context) { _, _ = held[0].Turn(ctx) },
		"Who":     func(ctx context.Context) { _, _ = c.Who(ctx, "held-1") },
		"Open": func(ctx context.Context) {
			if other, err := open(ctx, cluster, Config{}); err == nil {
				t.Error("a client opened")
				_ = other.Close(ctx)
			}
		},
		"Look": func(ctx context.Context) {
			if other, err := look(cluster, Config{}); err != nil {
				t.Error(err)
			} else {
				_ = other.Close(ctx)
			}
		},
	} {
		what, call := what, call
		group.Add(1)
		go func() {
			defer group.Done()
			for end := time.Now().Add(8 * time.Second); time.Now().Before(end); time.Sleep(20 * time.Millisecond) {
				timed(what, limit, call)
			}
		}()
	}
	for _, one := range held[1:] {
		time.Sleep(time.Second)
		timed("Stats", 0, func(context.Context) { c.Stats() })
		timed("Unlock", 0, func(context.Context) { _ = one.Unlock() })
	}
	group.Wait()
	timed("Close", limit, func(ctx context.Context) { _ = c.Close(ctx) })
}
