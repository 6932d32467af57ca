package main

import (
	"fmt"
	"os"
	"os/exec"
	"path/filepath"
	"sort"
	"time"

	"calvundek.example/service/internal/local"
)

// way is how a program is run under a lock.
type way struct {
	name  string
	words []string
}

// measureRuns prints how long it takes to run `true` under a lock that nobody else wants, without and with an agent, and by etcdctl if
// there are servers of etcd. The ways take turns.
func measureRuns(cluster *local.Cluster, bin string, count int, etcd string) error {
	socket, control := filepath.Join(cluster.Folder, "qlockd.sock"), filepath.Join(bin, "qlockctl")
	settings := filepath.Join(cluster.Folder, "qlockd.toml")
	if err := os.WriteFile(settings, []byte(fmt.Sprintf("cluster = %q\nsocket = %q\n", cluster.File, socket)), 0o600); err != nil {
		return err
	}
	if _, err := cluster.Process("qlockd", filepath.Join(bin, "qlockd"), "start", "-c", settings); err != nil {
		return err
	}
	for end := time.Now().Add(10 * time.Second); time.Now().Before(end); time.Sleep(10 * time.Millisecond) {
		if _, err := os.Stat(socket); err == nil {
			break
		}
	}
	ways := []way{
		{"qlockctl run true", []string{control, "run", "-c", cluster.File, "--agent", "none", "bench", "true"}},
		{"the same by the agent", []string{control, "run", "--agent", socket, "bench", "true"}},
	}
	if etcd != "" {
		ways = append(ways, way{"etcdctl lock bench true", []string{"etcdctl", "--endpoints", etcd, "lock", "bench", "true"}})
	}
	took := make([][]time.Duration, len(ways))
	for i := 0; i < count+3; i++ {
		for j, one := range ways {
			began := time.Now()
			if text, err := exec.Command(one.words[0], one.words[1:]...).CombinedOutput(); err != nil {
				return fmt.Errorf("%s: %v: %s", one.name, err, text)
			}
			if i >= 3 { // the first ones warm up
				took[j] = append(took[j], time.Since(began))
			}
		}
	}
	for j, one := range ways {
		sort.Slice(took[j], func(a, b int) bool { return took[j][a] < took[j][b] })
		at := func(part float64) float64 { return 1000 * took[j][int(part*float64(count-1))].Seconds() }
		fmt.Printf("%-26s ms: p50 %6.1f  p90 %6.1f  max %6.1f, of %d\n", one.name, at(0.5), at(0.9), at(1), count)
	}
	return nil
}
