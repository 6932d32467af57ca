// Command qlockd is the agent of a host: many processes share its session of the lock service over a Unix socket.
package main

import (
	"context"
	"errors"
	"fmt"
	"os"
	"os/signal"
	"syscall"
	"time"

	"calvundek.example/service/internal/config"
	"calvundek.example/service/internal/event"
	"calvundek.example/service/internal/qlockd"
	"calvundek.example/service/internal/unit"
	"calvundek.example/service/locks"
	"calvundek.example/service/qlock"
	"github.com/spf13/cobra"
)

func main() {
	ctx, stop := signal.NotifyContext(context.Background(), syscall.SIGINT, syscall.SIGTERM)
	defer stop()
	if err := command(ctx).Execute(); err != nil {
		fmt.Fprintf(os.Stderr, "%sqlockd: %v\n", event.Stderr.Priority(event.Error), err)
		os.Exit(exitStatus(err))
	}
}

// exitHopeless is the exit status if no restart helps: the unit does not start the agent again.
const exitHopeless = 78

// exitStatus returns the exit status of a command that failed.
func exitStatus(err error) int {
	if errors.Is(err, config.ErrConfig) {
		return exitHopeless
	}
	return 1
}

func command(ctx context.Context) *cobra.Command {
	var path string
	root := &cobra.Command{Use: "qlockd", Short: "The agent of a host in a lock service",
		Long: "The agent of a host: many processes share its session over a Unix socket, and a lock lasts as long as its " +
			"connection. Each setting of its file is also a variable of the environment, which goes before the file: group " +
			"is QLOCK_GROUP.", Version: qlock.Version(), SilenceUsage: true, SilenceErrors: true}
	root.PersistentFlags().StringVarP(&path, "config", "c", "", "the agent's file; "+config.AgentFile+" if there is one")
	root.AddCommand(&cobra.Command{Use: "start", Args: cobra.NoArgs, Short: "Run the agent until a signal comes",
		RunE: func(*cobra.Command, []string) error { return start(ctx, path) }})
	return root
}

// ownFiles is how many files the agent may need besides the connections of its clients: for its session above all.
const ownFiles = 64

// connections returns how many connections there may be, so that the agent's own files can be opened.
func connections() int64 {
	var most syscall.Rlimit
	if err := syscall.Getrlimit(syscall.RLIMIT_NOFILE, &most); err != nil || most.Cur <= 2*ownFiles {
		return ownFiles
	}
	return int64(most.Cur) - ownFiles
}

// start runs the agent until a signal comes.
func start(ctx context.Context, path string) error {
	own, _, err := config.ReadAgent(path)
	if err != nil {
		return err
	}
	if _, err := own.Speaker(); err != nil {
		return err
	}
	event.Stderr.SetLeast(own.Log)
	agent := qlockd.New(qlockd.Config{Log: event.Stderr, Connections: connections(), Locks: locks.Config{Cluster: own.Cluster, User: own.User,
		Secret: own.Secret, Seed: own.Seed, Creds: own.Creds, Cert: own.Cert, Key: own.Key}})
	if own.Listen != "" {
		if err := agent.Show(ctx, own.Listen); err != nil {
			return err
		}
	}
	listener, err := qlockd.Listen(own.Socket, own.Group)
	if err != nil {
		return err
	}
	ended := make(chan struct{})
	defer close(ended)
	if err := unit.Notify(func(time.Duration) bool { return true }, ended); err != nil {
		return err
	}
	event.Stderr.Write(event.Info, "start", "socket", own.Socket, "group", own.Group)
	err = agent.Serve(ctx, listener)
	event.Stderr.Write(event.Info, "end")
	return err
}
