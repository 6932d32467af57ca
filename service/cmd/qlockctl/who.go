package main

import (
	"context"
	"encoding/json"
	"fmt"
	"io"
	"os"
	"time"

	"calvundek.example/service/agent"
	"calvundek.example/service/internal/config"
	"calvundek.example/service/internal/view"
	"calvundek.example/service/internal/wire"
	"calvundek.example/service/locks"
	"github.com/spf13/cobra"
)

func whoCommand(ctx context.Context, s *settings) *cobra.Command {
	var by func() string
	command := &cobra.Command{Use: "who LOCK", Args: cobra.ExactArgs(1), Short: "Show who has a lock",
		Long: "Shows who has a lock, by what the voters of a quorum say: the client's number, its user of NATS, what it says of itself " +
			"(host, process, its user of the system, note), since when, and how many others wait. With asked=true no quorum says that it " +
			"has the votes of all its members: it asks for the lock, or voters that have it did not reply. It needs a user that " +
			"takes locks, and no number. Without the name of a cluster's file or of a user, it asks by the agent of the host, qlockd, if that is there.",
		RunE: func(_ *cobra.Command, args []string) error {
			if !wire.IsName([]byte(args[0])) {
				return fmt.Errorf("%w: %q", locks.ErrName, args[0])
			}
			return s.look(ctx, by(), func(ctx context.Context, client looks) error {
				holder, err := client.Who(ctx, args[0])
				if err != nil {
					return err
				}
				if s.json {
					return json.NewEncoder(os.Stdout).Encode(view.Of(args[0], holder))
				}
				_, err = fmt.Println(holder)
				return err
			})
		}}
	by = agentFlag(command)
	return command
}

func listCommand(ctx context.Context, s *settings) *cobra.Command {
	var by func() string
	command := &cobra.Command{Use: "list [PREFIX]", Args: cobra.MaximumNArgs(1), Short: "List the locks that somebody has or waits for",
		Long: "Lists the locks that somebody has or waits for, by their names, with what `who` says of each. With PREFIX only " +
			"those of which the name begins with it. Without the name of a cluster's file or of a user, it asks by the agent of the host, qlockd, " +
			"if that is there.",
		RunE: func(_ *cobra.Command, args []string) error {
			prefix := append(args, "")[0]
			return s.look(ctx, by(), func(ctx context.Context, client looks) error {
				return listLocks(ctx, client, prefix, s.json, os.Stdout)
			})
		}}
	by = agentFlag(command)
	return command
}

func watchCommand(ctx context.Context, s *settings) *cobra.Command {
	var by func() string
	command := &cobra.Command{Use: "watch LOCK", Args: cobra.ExactArgs(1), Short: "Show who has a lock, and each change",
		Long: "Shows who has a lock, as `who` does, and again after each change, until a signal comes. Voters say each change at once. " +
			"Who has the lock for a moment may be missed. While no quorum of voters replies it shows nothing, and it fails if none does at first. " +
			"Without the name of a cluster's file or of a user, it asks by the agent of the host, qlockd, if that is there.",
		RunE: func(_ *cobra.Command, args []string) error {
			if !wire.IsName([]byte(args[0])) {
				return fmt.Errorf("%w: %q", locks.ErrName, args[0])
			}
			err := s.lookUntil(ctx, by(), func(ctx context.Context, client looks) error {
				return watchLock(ctx, client, args[0], s.timeout, s.json, os.Stdout)
			})
			if ctx.Err() != nil { // it watched until a signal came
				return nil
			}
			return err
		}}
	by = agentFlag(command)
	return command
}

// watchLock writes who has a lock, and each change, until the context ends. It fails if no quorum of voters replies within a limit at first.
func watchLock(ctx context.Context, client looks, lock string, limit time.Duration, inJSON bool, out io.Writer) error {
	first, cancel := context.WithTimeout(ctx, limit)
	defer cancel()
	if _, err := client.Who(first, lock); err != nil {
		return err
	}
	holders, err := client.Watch(ctx, lock)
	if err != nil {
		return err
	}
	for holder := range holders {
		if inJSON {
			err = json.NewEncoder(out).Encode(view.Of(lock, holder))
		} else {
			_, err = fmt.Fprintln(out, holder)
		}
		if err != nil {
			return err
		}
	}
	if err := client.Err(); err != nil {
		return err
	}
	return ctx.Err()
}

// listLocks writes the locks of which the name begins with a prefix.
func listLocks(ctx context.Context, client looks, prefix string, inJSON bool, out io.Writer) error {
	views := []view.Holder{}
	err := client.List(ctx, prefix, func(lock string, holder locks.Holder) error {
		if inJSON {
			views = append(views, view.Of(lock, holder))
			return nil
		}
		_, err := fmt.Fprintf(out, "%-20s %v\n", lock, holder)
		return err
	})
	if err != nil || !inJSON {
		return err
	}
	return json.NewEncoder(out).Encode(views)
}

// look lets a function ask voters, for as long as they may take to reply.
func (s *settings) look(ctx context.Context, socket string, use func(ctx context.Context, client looks) error) error {
	return s.lookUntil(ctx, socket, func(ctx context.Context, client looks) error {
		ctx, cancel := context.WithTimeout(ctx, s.timeout)
		defer cancel()
		return use(ctx, client)
	})
}

// lookUntil lets a function ask voters for as long as it likes: by the agent at a socket, or by a client that has no number.
func (s *settings) lookUntil(ctx context.Context, socket string, use func(ctx context.Context, client looks) error) error {
	if socket != "" {
		return use(ctx, byAgent{agent.New(socket)})
	}
	cluster, err := config.ReadCluster(s.cluster)
	if err != nil {
		return err
	}
	settings, link, err := s.connected(cluster)
	if err != nil {
		return err
	}
	defer link.Close()
	client, err := locks.Look(settings)
	if err != nil {
		return err
	}
	defer func() {
		brief, cancel := context.WithTimeout(context.Background(), s.timeout)
		defer cancel()
		_ = client.Close(brief)
	}()
	return unlessRefused(ctx, link, func(ctx context.Context) error { return use(ctx, client) })
}
