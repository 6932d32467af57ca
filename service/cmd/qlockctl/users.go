package main

import (
	"fmt"

	"calvundek.example/service/internal/config"
	"calvundek.example/service/internal/users"
	"github.com/spf13/cobra"
)

func usersCommand(s *settings) *cobra.Command {
	var list users.List
	var folder string
	command := &cobra.Command{Use: "users", Args: cobra.NoArgs, Short: "Print the users of NATS, with what each may do",
		Long: "Prints the block `authorization` of a server's file: each voter of the cluster's file, and the users that are " +
			"named here, with what each may publish and subscribe. Put a password into each place `...`, or name a folder for " +
			"seeds: then no file of a server has a secret.",
		RunE: func(*cobra.Command, []string) error {
			cluster, err := config.ReadCluster(s.cluster)
			if err != nil {
				return err
			}
			text, err := block(cluster, list, folder)
			if err == nil {
				_, err = fmt.Print(text)
			}
			return err
		}}
	flags := command.Flags()
	flags.StringSliceVar(&list.Clients, "user", nil, "a user that takes locks; may be there again")
	flags.StringSliceVar(&list.Operators, "operator", nil, "an operator, who may do all; may be there again")
	flags.StringSliceVar(&list.Readers, "reader", nil, "an operator who may only look; may be there again")
	flags.StringVar(&folder, "nkeys", "", "the folder of seeds, NAME.nk for each; one that is not there is made")
	return command
}

// block returns the block of a server's file with all users of a cluster. With a folder each has a seed in it.
func block(cluster *config.Cluster, list users.List, folder string) (string, error) {
	all, err := users.Of(cluster, list)
	if err != nil {
		return "", err
	}
	if folder == "" {
		return users.Block(all, users.ByPassword)
	}
	return users.Block(all, users.Seeds{Folder: folder}.Show)
}
