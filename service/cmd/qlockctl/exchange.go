package main

import (
	"context"
	"encoding/json"
	"fmt"
	"os"
	"path/filepath"

	"calvundek.example/service/internal/config"
	"calvundek.example/service/internal/exchange"
	"calvundek.example/service/internal/operator"
	"calvundek.example/service/internal/voter"
	"github.com/spf13/cobra"
)

func exchangeCommand(ctx context.Context, s *settings) *cobra.Command {
	return &cobra.Command{Use: "exchange COTERIE", Args: cobra.ExactArgs(1), Short: "Exchange the plan for one of another coterie",
		Long: "Plans a coterie, gives the plan to the voters, and writes it into the cluster's file beside that in use, " +
			"once a voter has it. Each quorum of one coterie has to meet each quorum of the other, and each voter keeps " +
			"its number. Clients use the new plan once the " +
			"voters that have it contain a quorum of each. If too few voters replied, start those that only the new coterie has, and " +
			"call it again. Copy the cluster's file to all machines before `qlockctl retire`.",
		RunE: func(_ *cobra.Command, args []string) error {
			coterie, err := os.ReadFile(args[0])
			if err != nil {
				return err
			}
			cluster, err := config.ReadCluster(s.cluster)
			if err != nil {
				return err
			}
			next, err := exchange.Next(cluster, string(coterie))
			if err != nil {
				return fmt.Errorf("%s: %w", args[0], err)
			}
			return s.lead(ctx, next, func(console *operator.Console) ([]operator.Reply, error) {
				return exchange.Begin(ctx, cluster, next, console, s.timeout,
					func(c *config.Cluster) error { return rewrite(s.cluster, c) })
			})
		}}
}

func retireCommand(ctx context.Context, s *settings) *cobra.Command {
	return &cobra.Command{Use: "retire", Args: cobra.NoArgs, Short: "Take the old plan of an exchange out of use",
		Long: "Lets voters refuse the plan that was exchanged, once no client has a request of it, and takes it out of the cluster's " +
			"file. Sessions of which a voter heard nothing for the TTL are ended. Clients that start with an older file are refused " +
			"then. Voters that only the old coterie has may go afterwards, and the next exchange may begin.",
		RunE: func(*cobra.Command, []string) error {
			cluster, err := config.ReadCluster(s.cluster)
			if err != nil {
				return err
			}
			return s.lead(ctx, cluster, func(console *operator.Console) ([]operator.Reply, error) {
				replies, err := exchange.Retire(ctx, cluster, console, s.timeout)
				if err == nil {
					err = rewrite(s.cluster, exchange.Retired(cluster))
				}
				return replies, err
			})
		}}
}

// lead makes one step of an exchange, and prints what the voters replied.
func (s *settings) lead(ctx context.Context, cluster *config.Cluster, step func(*operator.Console) ([]operator.Reply,
	error)) error {
	console, link, err := s.console(cluster)
	if err != nil {
		return err
	}
	defer link.Close()
	replies, err := step(console)
	if s.json && replies != nil {
		if printed := printJSON(replies); err == nil {
			err = printed
		}
	} else if printed := printLines(replies, planned); err == nil {
		err = printed
	}
	if err == nil {
		err = verdict(replies, cluster.HasQuorums)
	}
	return link.Explain(err)
}

// planned returns the line of a reply to a step of an exchange.
func planned(r operator.Reply) (string, error) {
	if len(r.Body) > 0 && r.Body[0] == '[' { // the sessions of a voter
		return "", nil
	}
	var one voter.Planned
	if err := json.Unmarshal(r.Body, &one); err != nil {
		return "", err
	}
	return plans(one)[1:], nil
}

// plans returns the words about the plans that a voter has.
func plans(one voter.Planned) string {
	text := fmt.Sprintf(" plan=%d", one.Generation)
	if one.Oldest != one.Generation {
		text += fmt.Sprintf(" old=%d", one.Oldest)
	}
	return text
}

// rewrite writes the cluster's file in the place of the one that is there.
func rewrite(path string, cluster *config.Cluster) error {
	text, err := cluster.Text()
	if err != nil {
		return err
	}
	file, err := os.CreateTemp(filepath.Dir(path), filepath.Base(path)+".*")
	if err != nil {
		return err
	}
	_, err = file.Write(text)
	if err == nil {
		err = file.Chmod(0o644)
	}
	if err == nil {
		err = file.Sync()
	}
	if closed := file.Close(); err == nil {
		err = closed
	}
	if err == nil {
		err = os.Rename(file.Name(), path)
	}
	if err != nil {
		_ = os.Remove(file.Name())
	}
	return err
}
