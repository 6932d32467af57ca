// Command qlockctl is for operators of a lock service, and for scripts that need a lock.
package main

import (
	"context"
	"errors"
	"fmt"
	"os"
	"os/signal"
	"syscall"
	"time"

	"calvundek.example/service/internal/config"
	"calvundek.example/service/internal/operator"
	"calvundek.example/service/locks"
	"calvundek.example/service/qlock"
	"calvundek.example/service/transport"
	"github.com/spf13/cobra"
	"github.com/spf13/pflag"
)

// settings are the flags of all commands.
type settings struct {
	cluster string
	access  config.Access
	timeout time.Duration
	json    bool
}

// status is an exit status that a command wants, and why. If the reason is nil nothing is printed.
type status struct {
	code int
	why  error
}

func (s status) Error() string { return fmt.Sprint(s.why) }
func (s status) Unwrap() error { return s.why }

func main() {
	ctx, stop := signal.NotifyContext(context.Background(), syscall.SIGINT, syscall.SIGTERM)
	defer stop()
	err := command(ctx).Execute()
	if err == nil {
		return
	}
	end := status{code: 1, why: err}
	if errors.As(err, &end); end.why != nil {
		fmt.Fprintln(os.Stderr, "qlockctl:", end.why)
	}
	os.Exit(end.code)
}

func command(ctx context.Context) *cobra.Command {
	s := &settings{}
	root := &cobra.Command{Use: "qlockctl", Short: "Operate a lock service", Version: qlock.Version(), SilenceUsage: true, SilenceErrors: true,
		PersistentPreRunE: func(command *cobra.Command, _ []string) error { return readEnvironment(command) }}
	flags := root.PersistentFlags()
	flags.StringVarP(&s.cluster, "cluster", "c", "/etc/qlock/cluster.toml", "the cluster's file")
	flags.StringVar(&s.access.User, "user", "", "the user of NATS")
	flags.StringVar(&s.access.Secret, "secret", "", "the file of the user's password")
	flags.StringVar(&s.access.Seed, "seed", "", "the file of the seed of an nkey, in place of a password")
	flags.StringVar(&s.access.Creds, "creds", "", "the file of credentials, in place of a password")
	flags.StringVar(&s.access.Cert, "cert", "", "the file of a certificate")
	flags.StringVar(&s.access.Key, "key", "", "the file of the certificate's key")
	flags.DurationVar(&s.timeout, "timeout", 3*time.Second, "how long to wait for replies of voters")
	flags.BoolVar(&s.json, "json", false, "print JSON")
	root.AddCommand(initCommand(s), usersCommand(s), statusCommand(ctx, s), reportCommand(ctx, s), whoCommand(ctx, s), listCommand(ctx, s),
		watchCommand(ctx, s), evictCommand(ctx, s), unlockCommand(ctx, s),
		exchangeCommand(ctx, s), retireCommand(ctx, s), levelCommand(ctx, s), runCommand(ctx, s))
	return root
}

// fromEnvironment are the flags that the environment has, too: --cluster is QLOCK_CLUSTER.
var fromEnvironment = []string{"cluster", "user", "secret", "seed", "creds", "cert", "key", "timeout", "agent"}

// readEnvironment sets the flags that are not given, and are in the environment.
func readEnvironment(command *cobra.Command) (err error) {
	if err = config.CheckEnvironment(); err == nil {
		for _, name := range fromEnvironment {
			if err = setFlag(command.Flags().Lookup(name)); err != nil {
				err = fmt.Errorf("%w: the environment's --%s: %v", config.ErrConfig, name, err)
				break
			}
		}
	}
	if err != nil && command.Name() == "run" {
		return status{exitSettings, err}
	}
	return err
}

// setFlag sets a flag that is not given by the environment, if the command has it. A list of users is
// not who this process is.
func setFlag(flag *pflag.Flag) error {
	if flag == nil || flag.Changed || flag.Value.Type() == "stringSlice" {
		return nil
	}
	if text := config.FromEnvironment(flag.Name); text != "" {
		return flag.Value.Set(text)
	}
	return nil
}

// ask asks voters, and hands their replies to a function.
func (s *settings) ask(ctx context.Context, use func(ctx context.Context, cluster *config.Cluster, console *operator.Console) error) error {
	cluster, err := config.ReadCluster(s.cluster)
	if err != nil {
		return err
	}
	console, link, err := s.console(cluster)
	if err != nil {
		return err
	}
	defer link.Close()
	ctx, cancel := context.WithTimeout(ctx, s.timeout)
	defer cancel()
	return link.Explain(use(ctx, cluster, console))
}

// console connects, and returns a console and its connection.
func (s *settings) console(cluster *config.Cluster) (*operator.Console, *transport.NATS, error) {
	name, err := s.access.Speaker()
	if err != nil {
		return nil, nil, err
	}
	link, err := transport.Connect(cluster, s.access, "qlockctl")
	if err != nil {
		return nil, nil, err
	}
	return operator.New(cluster, link, name), link, nil
}

// client returns the configuration of a client.
func (s *settings) client() locks.Config {
	return locks.Config{Cluster: s.cluster, User: s.access.User, Secret: s.access.Secret,
		Seed: s.access.Seed, Creds: s.access.Creds, Cert: s.access.Cert, Key: s.access.Key}
}

// connected connects, and returns the configuration of a client by this connection, which is to be closed.
func (s *settings) connected(cluster *config.Cluster) (locks.Config, *transport.NATS, error) {
	client := s.client()
	if _, err := s.access.Speaker(); err != nil {
		return client, nil, err
	}
	link, err := transport.Connect(cluster, s.access, "qlock client")
	client.Transport = link
	return client, link, err
}

// How long awaitRefusal waits from one look to the next: at first, as a refusal comes soon if one does, and at most.
const (
	firstLook = 10 * time.Millisecond
	mostLook  = time.Second
)

// awaitRefusal waits until the user is refused, or the context ends. It looks less and less often.
func awaitRefusal(ctx context.Context, refusal func() error) {
	timer := time.NewTimer(firstLook)
	defer timer.Stop()
	for wait := firstLook; refusal() == nil; {
		select {
		case <-timer.C:
		case <-ctx.Done():
			return
		}
		if wait *= 2; wait > mostLook {
			wait = mostLook
		}
		timer.Reset(wait)
	}
}

// unlessRefused calls a function that connects by a transport. If the server of NATS refuses the user, it ends the function's context,
// and returns why.
func unlessRefused(ctx context.Context, by transport.Transport, connect func(ctx context.Context) error) error {
	link, isNATS := by.(*transport.NATS)
	if !isNATS {
		return connect(ctx)
	}
	ctx, cancel := context.WithCancel(ctx)
	defer cancel()
	go func() {
		awaitRefusal(ctx, link.Refusal)
		cancel()
	}()
	err := connect(ctx)
	if refusal := link.Refusal(); err != nil && refusal != nil {
		return fmt.Errorf("%w; run, who, list and watch need a user that takes locks (qlockctl users --user NAME), and operators have qlockctl report",
			refusal)
	}
	return err
}
