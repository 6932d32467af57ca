// Command qlock-voter is a voter of the lock service.
package main

import (
	"context"
	"errors"
	"fmt"
	"net"
	"net/http"
	"os"
	"os/signal"
	"strconv"
	"syscall"
	"time"

	"calvundek.example/service/internal/bounded"
	"calvundek.example/service/internal/config"
	"calvundek.example/service/internal/event"
	"calvundek.example/service/internal/operator"
	"calvundek.example/service/internal/unit"
	"calvundek.example/service/internal/voter"
	"calvundek.example/service/qlock"
	"calvundek.example/service/transport"
	"github.com/spf13/cobra"
)

// patience is how long `init` waits for the other voters, if this voter lost its state.
const patience = 30 * time.Second

func main() {
	ctx, stop := signal.NotifyContext(context.Background(), syscall.SIGINT, syscall.SIGTERM)
	defer stop()
	if err := command(ctx).Execute(); err != nil {
		fmt.Fprintf(os.Stderr, "%s%s%v\n", event.Stderr.Priority(event.Error), prefix, err)
		os.Exit(exitStatus(err))
	}
}

// prefix begins the line that says why the program ended.
const prefix = "qlock-voter: "

// exitHopeless is the exit status if no restart helps: the unit does not start the voter again.
const exitHopeless = 78

// hopeless are the errors that no restart mends.
var hopeless = []error{config.ErrConfig, voter.ErrMissing, voter.ErrOther, voter.ErrOlder, voter.ErrPlace, voter.ErrLevel,
	voter.ErrBefore, voter.ErrDamaged, voter.ErrFormat, voter.ErrNewer}

// exitStatus returns the exit status of a command that failed.
func exitStatus(err error) int {
	var said hopelessly
	if errors.As(err, &said) {
		return exitHopeless
	}
	for _, one := range hopeless {
		if errors.Is(err, one) {
			return exitHopeless
		}
	}
	return 1
}

func command(ctx context.Context) *cobra.Command {
	var path string
	root := &cobra.Command{Use: "qlock-voter", Short: "A voter of the lock service",
		Long: "A voter of the lock service. Each setting of its file is also a variable of the environment, which goes " +
			"before the file: max_locks is QLOCK_MAX_LOCKS. If all that is needed is there, there need be no file.", Version: qlock.Version(), SilenceUsage: true, SilenceErrors: true}
	root.PersistentFlags().StringVarP(&path, "config", "c", "",
		"the voter's file; "+config.VoterFile+" if there is one")
	root.AddCommand(
		makeCommand(ctx, &path),
		&cobra.Command{Use: "upgrade", Args: cobra.NoArgs,
			Short: "Take the state of an earlier version of this program over",
			Long: "Makes a state for this version of one of format 1, which stays beside it. All voters and clients of the " +
				"cluster have to be stopped, and each voter is upgraded before one starts. Guards go on.",
			RunE: func(*cobra.Command, []string) error { return upgrade(path) }},
		&cobra.Command{Use: "start", Args: cobra.NoArgs, Short: "Run this voter; its state has to be there",
			RunE: func(*cobra.Command, []string) error { return start(ctx, path) }},
		&cobra.Command{Use: "check", Args: cobra.NoArgs,
			Short: "Read the whole state of this voter, which does not run",
			RunE:  func(*cobra.Command, []string) error { return check(path) }})
	return root
}

// makeCommand returns the command that makes a voter's state.
func makeCommand(ctx context.Context, path *string) *cobra.Command {
	var isLost bool
	c := &cobra.Command{Use: "init", Args: cobra.NoArgs, Short: "Make the state of this voter, once",
		Long: "Makes the state of this voter. The first start asks the other voters, and is refused if there was a voter of " +
			"this place before. With --lost the state takes the place of one that was lost: the other voters, which have to " +
			"run, say what it forgot. The lost one may never come back.",
		RunE: func(*cobra.Command, []string) error { return initialise(ctx, *path, isLost) }}
	c.Flags().BoolVar(&isLost, "lost", false, "the state of this voter was lost")
	return c
}

// upgrade takes the state of an earlier version over.
func upgrade(path string) error {
	own, cluster, err := config.ReadVoter(path)
	if err != nil {
		return err
	}
	meta, err := voter.Upgrade(own, cluster)
	if err == nil {
		fmt.Printf("voter=%s number=%d cluster=%s identity=%s\n", own.Voter, meta.Voter, meta.Cluster, meta.Identity)
	}
	return err
}

// initialise makes the state. If one was lost it asks the other voters what this one forgot.
func initialise(ctx context.Context, path string, isLost bool) error {
	own, cluster, err := config.ReadVoter(path)
	if err != nil {
		return err
	}
	var meta voter.Meta
	if isLost {
		meta, err = initialiseLost(ctx, own, cluster)
	} else {
		meta, err = voter.Init(own, cluster)
	}
	if err != nil {
		return err
	}
	fmt.Printf("voter=%s number=%d cluster=%s run=%d identity=%s\n", own.Voter, meta.Voter, meta.Cluster, meta.Run, meta.Identity)
	return nil
}

func initialiseLost(ctx context.Context, own *config.Voter, cluster *config.Cluster) (voter.Meta, error) {
	link, err := transport.Connect(cluster, own.Access, "qlock-voter init "+own.Voter)
	if err != nil {
		return voter.Meta{}, err
	}
	defer link.Close()
	ctx, cancel := context.WithTimeout(ctx, patience)
	defer cancel()
	return voter.InitLost(ctx, own, cluster, operator.New(cluster, link, strconv.Itoa(cluster.Number(own.Voter))))
}

// start runs the voter until a signal comes, or a save fails.
func start(ctx context.Context, path string) error {
	own, cluster, err := config.ReadVoter(path)
	if err != nil {
		return err
	}
	event.Stderr.SetLeast(own.Log)
	if err := checkApart(ctx, path, own.Data); ctx.Err() != nil {
		return nil
	} else if err != nil {
		return err
	}
	link, err := transport.Connect(cluster, own.Access, "qlock-voter "+own.Voter)
	if err != nil {
		return err
	}
	defer link.Close()
	openReserve()
	daemon, err := voter.Open(own, cluster, link, event.Stderr)
	if err != nil {
		return err
	}
	go keepReserve(ctx)
	if own.Listen != "" {
		listener, err := net.Listen("tcp", own.Listen)
		if err != nil {
			return err
		}
		defer show(listener, daemon.Handler()).Close()
	}
	ended := make(chan struct{})
	defer close(ended)
	if err := unit.Notify(daemon.IsLively, ended); err != nil {
		return err
	}
	return daemon.Run(ctx)
}

// show answers /metrics and /healthz until the server that it returns is closed. Whoever reaches them takes few of the voter's files.
func show(listener net.Listener, handler http.Handler) *http.Server {
	server := bounded.Shows(handler)
	go func() {
		err := server.Serve(bounded.Listener{Listener: listener, Most: bounded.MostShown, Now: new(bounded.Connections)})
		if !errors.Is(err, http.ErrServerClosed) {
			event.Stderr.Write(event.Error, "metrics-failed", "why", err)
		}
	}()
	return server
}
