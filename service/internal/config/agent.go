package config

import (
	"errors"
	"fmt"
	"os"

	"calvundek.example/service/internal/event"
)

// Agent is the configuration of a host's agent.
type Agent struct {
	Cluster string      `toml:"cluster"` // the cluster's file
	Socket  string      `toml:"socket"`  // where it listens
	Group   string      `toml:"group"`   // who may connect besides its own user, nobody if it is empty
	Listen  string      `toml:"listen"`  // the address of /metrics and /healthz, none if it is empty
	Log     event.Level `toml:"log"`     // the least level of what is logged
	Access
}

// The agent's file if nobody names another one, which need not be there, and its socket.
const (
	AgentFile   = "/etc/qlock/qlockd.toml"
	AgentSocket = "/run/qlock/qlockd.sock"
)

// ReadAgent reads an agent's file, the environment, which goes before it, and the cluster's file.
// Without a path it is AgentFile, if that is there.
func ReadAgent(path string) (*Agent, *Cluster, error) {
	a, place := &Agent{Socket: AgentSocket}, path
	if path == "" {
		place = AgentFile
	}
	if _, err := os.Stat(place); path == "" && errors.Is(err, os.ErrNotExist) {
		place = "there is no " + AgentFile + ", and in the environment"
	} else if err := decode(place, a); err != nil {
		return nil, nil, err
	}
	if err := CheckEnvironment(); err != nil {
		return nil, nil, err
	}
	if err := Environ(a); err != nil {
		return nil, nil, err
	}
	if a.Cluster == "" || a.Socket == "" {
		return nil, nil, fmt.Errorf("%w: %s: cluster and socket have to be set", ErrConfig, place)
	}
	cluster, err := ReadCluster(a.Cluster)
	return a, cluster, err
}
