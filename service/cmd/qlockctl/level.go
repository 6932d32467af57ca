package main

import (
	"context"
	"encoding/json"
	"fmt"
	"strconv"

	"calvundek.example/service/internal/config"
	"calvundek.example/service/internal/operator"
	"calvundek.example/service/internal/voter"
	"github.com/spf13/cobra"
)

func levelCommand(ctx context.Context, s *settings) *cobra.Command {
	return &cobra.Command{Use: "level N", Args: cobra.ExactArgs(1), Short: "Raise the cluster's level, after an upgrade",
		Long: "Raises the level of the cluster by one, once all voters that are there and all sessions are of programs that know " +
			"the next one. From then on an older program is refused. It changes nothing unless all of them can.",
		RunE: func(_ *cobra.Command, args []string) error {
			wanted, err := strconv.ParseUint(args[0], 10, 64)
			if err != nil {
				return fmt.Errorf("%q is no level", args[0])
			}
			return s.ask(ctx, func(ctx context.Context, cluster *config.Cluster, console *operator.Console) error {
				return raiseLevel(ctx, s, cluster, console, wanted)
			})
		}}
}

// raiseLevel asks all voters whether they would, and then to do it.
func raiseLevel(ctx context.Context, s *settings, cluster *config.Cluster, console *operator.Console, wanted uint64) error {
	replies, err := console.Ask(ctx, fmt.Sprint("would-level ", wanted), console.All()...)
	if err != nil {
		return err
	}
	would := uint64(0)
	for _, r := range replies {
		switch {
		case r.Err == nil:
			would |= 1 << r.Voter
		case r.Body != nil: // one that is there refuses it
			return s.printLevels(replies, complete(replies))
		}
	}
	if !cluster.HasQuorums(would) {
		return s.printLevels(replies, complete(replies))
	}
	if replies, err = console.Ask(ctx, fmt.Sprint("level ", wanted), console.All()...); err != nil {
		return err
	}
	return s.printLevels(replies, verdict(replies, cluster.HasQuorums))
}

// printLevels prints what voters replied, and returns why it is not what was asked.
func (s *settings) printLevels(replies []operator.Reply, why error) error {
	var err error
	if s.json {
		err = printJSON(replies)
	} else {
		err = printLines(replies, func(r operator.Reply) (string, error) {
			var one voter.Levelled
			err := json.Unmarshal(r.Body, &one)
			return fmt.Sprintf("level=%d newest=%d", one.Level, one.Newest), err
		})
	}
	if err != nil {
		return err
	}
	return why
}
