package main

import (
	"context"
	"strconv"
	"strings"

	"calvundek.example/service/agent"
	"calvundek.example/service/locks"
	"github.com/spf13/cobra"
)

// looks asks voters who has locks: a client of the cluster, or the host's agent.
type looks interface {
	Who(ctx context.Context, lock string) (locks.Holder, error)
	List(ctx context.Context, prefix string, each func(lock string, holder locks.Holder) error) error
	Watch(ctx context.Context, lock string) (<-chan locks.Holder, error)
	Err() error // why a channel of Watch was closed, if not since its context ended
}

// byAgent looks by the host's agent.
type byAgent struct{ client *agent.Client }

func (b byAgent) Who(ctx context.Context, lock string) (locks.Holder, error) {
	holder, err := b.client.Who(ctx, lock)
	return ofAgent(holder), err
}

func (b byAgent) List(ctx context.Context, prefix string, each func(lock string, holder locks.Holder) error) error {
	return b.client.List(ctx, prefix, func(lock string, holder agent.Holder) error { return each(lock, ofAgent(holder)) })
}

func (b byAgent) Watch(ctx context.Context, lock string) (<-chan locks.Holder, error) {
	holders, err := b.client.Watch(ctx, lock)
	if err != nil {
		return nil, err
	}
	found := make(chan locks.Holder)
	go func() {
		defer close(found)
		for holder := range holders {
			select {
			case found <- ofAgent(holder):
			case <-ctx.Done():
				return
			}
		}
	}()
	return found, nil
}

// Err returns why a channel of Watch was closed: the agent ended.
func (b byAgent) Err() error { return agent.ErrUnreachable }

// ofAgent returns who has a lock, as the agent says it.
func ofAgent(h agent.Holder) locks.Holder {
	number, _ := strconv.Atoi(h.Session[strings.LastIndexByte(h.Session, '/')+1:])
	return locks.Holder{User: h.User, Host: h.Host, Pid: h.Pid, Login: h.Login, Note: h.Note, Since: h.Since, Waiting: h.Waiting, Turn: h.Turn,
		Asked: h.Asked, Number: number, Session: h.Session}
}

// agentFlag lets a command have the flag that names the socket of the host's agent. The function that it returns says which one is used, ""
// for none.
func agentFlag(command *cobra.Command) (used func() string) {
	named := command.Flags().String("agent", "",
		"the socket of the host's agent, or \"none\"; "+agent.Socket+" if it is there, and no cluster or user is named")
	return func() string { return agentOf(command.Flags(), *named, agent.Socket) }
}
