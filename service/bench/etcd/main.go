// Command etcd measures the lock of etcd, as bench measures this service's. It needs Debian's golang-etcd-server-dev, and
// is built without modules: as modules etcd's packages have other names.
package main

import (
	"context"
	"flag"
	"fmt"
	"os"
	"strings"
	"time"

	"calvundek.example/service/internal/measure"
	"go.etcd.io/etcd/clientv3"
	"go.etcd.io/etcd/clientv3/concurrency"
)

// loads are those of bench.
var loads = []struct {
	name                 string
	clients, locks, each int
}{
	{"1 client, 1 lock", 1, 1, 1},
	{"6 clients, 1 lock", 6, 1, 1},
	{"6 clients, 6 locks", 6, 6, 1},
	{"6 clients, 384 locks", 6, 384, 64},
}

func main() {
	servers := flag.String("servers", "http://127.0.0.1:2379", "the servers of etcd")
	length := flag.Duration("for", 10*time.Second, "how long each load takes")
	flag.Parse()
	for _, load := range loads {
		if err := measureLoad(strings.Split(*servers, ","), load.name, load.clients, load.locks, load.each, *length); err != nil {
			fmt.Fprintln(os.Stderr, "etcd:", load.name, err)
			os.Exit(1)
		}
	}
}

func measureLoad(servers []string, name string, clients, names, each int, length time.Duration) error {
	var lockers []measure.Locker
	for i := 0; i < clients; i++ {
		c, err := clientv3.New(clientv3.Config{Endpoints: servers, DialTimeout: 5 * time.Second})
		if err != nil {
			return err
		}
		defer c.Close()
		for j := 0; j < each; j++ {
			session, err := concurrency.NewSession(c, concurrency.WithTTL(10))
			if err != nil {
				return err
			}
			defer session.Close()
			lockers = append(lockers, concurrency.NewMutex(session, fmt.Sprintf("/bench-%d", (i*each+j)%names)))
		}
	}
	figures, err := measure.Run(context.Background(), lockers, length)
	if err != nil {
		return err
	}
	fmt.Printf("etcd   %-22s %v\n", name, figures)
	return nil
}
