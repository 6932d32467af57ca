package main

import (
	"context"
	"encoding/hex"
	"errors"
	"fmt"
	"os"
	"os/exec"
	"path/filepath"
	"runtime"
	"strings"
	"syscall"
	"time"

	"calvundek.example/service/agent"
	"calvundek.example/service/internal/config"
	"calvundek.example/service/locks"
	"calvundek.example/service/transport"
	"github.com/spf13/cobra"
	"github.com/spf13/pflag"
)

// Exit statuses of `run` besides that of the program.
const (
	exitNoLock   = 75  // the lock was not to be had in time, or no agent is there
	exitLost     = 76  // the lock may have been lost while the program ran
	exitSettings = 78  // a file of the settings can't be used, the server refuses the user, or the lock has a bad name
	exitNoStart  = 126 // the program can't be started
	exitNone     = 127 // there is no such program
)

var (
	errLost  = errors.New("the lock may be somebody else's, and the program was ended")
	errShown = errors.New("--no-note: the agent of the host shows the process and its user to who asks who has a lock; " +
		"with --agent none the lock is taken without it")
)

func runCommand(ctx context.Context, s *settings) *cobra.Command {
	var grace time.Duration
	var of taking
	var note string
	var by func() string
	var noNote bool
	command := &cobra.Command{Use: "run LOCK PROGRAM [ARGUMENT..]", Args: cobra.MinimumNArgs(2), Short: "Run a program that needs a lock",
		Long: "Takes a lock, runs a program, and gives the lock back. The program finds its pass in QLOCK_PASS, in hexadecimal: " +
			"what it shows to the guard. With --turn it finds the lock's turn in QLOCK_TURN: a number that grows from holder to holder. If the lock may be lost, the program and all processes of its group get SIGTERM, and " +
			"then SIGKILL. If this command itself is killed, the program is killed, too, but not what it started. It can't read " +
			"from a terminal.\n\nThe exit status is that of the program, 75 if the lock was not to be had in time or no agent is there, 76 if the " +
			"lock may have been lost, 78 if the settings or the lock's name can't be used or the server refuses the user, 126 if the program can't be " +
			"started, or 127 if there is none.\n\nWithout the name of a cluster's file or of a user, it takes the lock by the agent of " +
			"the host, qlockd, if that is there.",
		RunE: func(_ *cobra.Command, args []string) error {
			of.lock = args[0]
			if socket := by(); socket != "" {
				if noNote {
					return status{exitSettings, errShown}
				}
				if note == "" {
					note = filepath.Base(args[1])
				}
				client := agent.New(socket).WithNote(note)
				if of.turns {
					client = client.WithTurn()
				}
				return runByAgent(ctx, client, of, grace, args[1:])
			}
			cluster, err := config.ReadCluster(s.cluster)
			if err != nil {
				return status{exitSettings, err}
			}
			if grace, err = graceWithin(cluster.TTL.Duration, grace); err != nil {
				return status{exitSettings, err}
			}
			settings, link, err := s.connected(cluster)
			if err != nil {
				return status{exitSettings, err}
			}
			defer link.Close()
			if settings.Note, settings.NoNote = note, noNote; note == "" {
				settings.Note = filepath.Base(args[1])
			}
			of.slow = func() string { return slowVoters(cluster, link, s.access) }
			return run(ctx, settings, of, grace, args[1:])
		}}
	command.Flags().DurationVar(&of.wait, "wait", time.Minute, "how long to wait for the lock")
	command.Flags().BoolVar(&of.tries, "try", false, "do not wait for somebody else who has the lock")
	command.Flags().BoolVar(&of.turns, "turn", false, "also get the lock's turn: one number that grows from holder to holder, in QLOCK_TURN")
	by = agentFlag(command)
	command.Flags().DurationVar(&grace, "grace", 0,
		"how long after SIGTERM SIGKILL is sent; a tenth of the TTL, and at most 1s, if it is 0")
	command.Flags().StringVar(&note, "note", "",
		"what is shown of this command to who asks who has the lock; the program's name if it is empty")
	command.Flags().BoolVar(&noNote, "no-note", false, "show nothing of this command to who asks who has the lock; not by an agent")
	command.Flags().SetInterspersed(false)
	return command
}

// whoAndWhere are the flags that name a cluster, or a user of it.
var whoAndWhere = []string{"cluster", "user", "secret", "seed", "creds", "cert", "key"}

// agentOf returns the socket of the agent by which a lock is taken, "" for none: the one that is named, or else the usual
// one, if it is there and nothing names a cluster or a user. A flag goes before the environment.
func agentOf(flags *pflag.FlagSet, named, usual string) string {
	if named == "none" {
		named = ""
	}
	if flags.Changed("agent") {
		return named
	}
	for _, name := range whoAndWhere {
		if flags.Changed(name) {
			return ""
		}
	}
	if config.FromEnvironment("agent") != "" {
		return named
	}
	for _, name := range whoAndWhere {
		if config.FromEnvironment(name) != "" {
			return ""
		}
	}
	if info, err := os.Stat(usual); err == nil && info.Mode()&os.ModeSocket != 0 {
		return usual
	}
	return ""
}

// graceWithin returns for how long a program may go on after SIGTERM: a tenth of the TTL at most,
// which is half of what is left of the TTL when the lock may be lost.
func graceWithin(ttl, grace time.Duration) (time.Duration, error) {
	most := ttl / 10
	switch {
	case grace > most:
		return 0,
			fmt.Errorf("--grace is %v, and may be %v at most, a tenth of the cluster's ttl: "+
				"the next one enters a ttl after the last heartbeat", grace, most)
	case grace > 0:
		return grace, nil
	case most > time.Second:
		return time.Second, nil
	}
	return most, nil
}

// taking is which lock a program needs, how long to wait for it, and whether that is for nobody who has it.
type taking struct {
	lock  string
	wait  time.Duration
	tries bool
	turns bool
	slow  func() string // says which voters give no vote yet, as the end of a message; nil if that is not known
}

// slowVoters returns that, "" if it is not known.
func (of taking) slowVoters() string {
	if of.slow == nil {
		return ""
	}
	return of.slow()
}

// run runs a program under a lock.
func run(ctx context.Context, settings locks.Config, of taking, grace time.Duration, words []string) (err error) {
	limit, cancel := context.WithTimeout(ctx, of.wait)
	defer cancel()
	client, held, turn, err := takenBy(limit, settings, of)
	if client == nil && errors.Is(err, locks.ErrNoQuorum) {
		err = fmt.Errorf("%w%s", err, of.slowVoters())
	}
	if client == nil {
		return withoutLock(limit, err)
	}
	defer func() {
		brief, cancel := context.WithTimeout(context.Background(), 5*time.Second)
		defer cancel()
		if closed := client.Close(brief); err == nil && closed != nil && !errors.Is(closed, locks.ErrLost) {
			fmt.Fprintln(os.Stderr, "qlockctl: the lock is let go after the TTL:", closed)
		}
	}()
	if errors.As(err, new(status)) {
		return err
	}
	if err != nil {
		now := func() string { return of.slowVoters() + nowHeld(client, of.lock) }
		return notTaken(limit, err, client.Silent(), of, now)
	}
	return runWith(ctx, held, of, turn, grace, words)
}

// takenBy opens a session, and takes a lock by it, and its turn if that is wanted. One that is over before, since another one has its number
// or an operator ended it, is followed by another one. It returns no client if none was to be had.
func takenBy(limit context.Context, settings locks.Config, of taking) (client *locks.Client, held *locks.Held, turn uint64, err error) {
	for {
		err = unlessRefused(limit, settings.Transport, func(ctx context.Context) (err error) {
			client, err = locks.Open(ctx, settings)
			return err
		})
		if err != nil {
			return nil, nil, 0, err
		}
		take := client.Lock
		if of.tries {
			take = client.TryLock
		}
		held, turn, err = withTurn(limit, func() (*locks.Held, error) { return take(limit, of.lock) }, func(h *locks.Held) (uint64, error) {
			if !of.turns {
				return 0, nil
			}
			return h.Turn(limit)
		})
		if !errors.Is(err, locks.ErrLost) || limit.Err() != nil {
			return client, held, turn, err
		}
	}
}

// withTurn takes a lock, and then its turn. One that lapses before its turn is there is given back, and taken again.
func withTurn[H interface{ Unlock() error }](limit context.Context, take func() (H, error), turnOf func(H) (uint64, error)) (held H, turn uint64, err error) {
	for {
		if held, err = take(); err != nil {
			return held, 0, err
		}
		if turn, err = turnOf(held); err == nil {
			return held, turn, nil
		}
		_ = held.Unlock()
		if !errors.Is(err, locks.ErrLapsed) || limit.Err() != nil {
			return held, 0, status{exitNoLock, err}
		}
	}
}

// runByAgent runs a program under a lock of the host's agent.
func runByAgent(ctx context.Context, client *agent.Client, of taking, grace time.Duration, words []string) error {
	limit, cancel := context.WithTimeout(ctx, of.wait)
	defer cancel()
	take := client.Lock
	if of.tries {
		take = client.TryLock
	}
	held, err := take(limit, of.lock)
	if isDown(err) {
		return status{exitNoLock, fmt.Errorf("%s: %w; start qlockd, or try again later", of.lock, err)}
	}
	for _, hopeless := range []error{agent.ErrName, agent.ErrAbsent, agent.ErrRefused, agent.ErrDenied} {
		if errors.Is(err, hopeless) {
			return status{exitSettings, fmt.Errorf("%s: %w", of.lock, err)}
		}
	}
	if err != nil {
		return status{exitNoLock, withHolder(client, of, err)}
	}
	if grace, err = graceWithin(held.TTL(), grace); err != nil {
		_ = held.Unlock()
		return status{exitSettings, err}
	}
	return runWith(ctx, held, of, held.Turn(), grace, words)
}

// withHolder returns why the host's agent gave no lock, and who has it if that is known.
func withHolder(client *agent.Client, of taking, err error) error {
	fault := &agent.Fault{}
	switch {
	case errors.Is(err, agent.ErrTimeout):
		return fmt.Errorf("%w%s", err, nowHeld(byAgent{client}, of.lock))
	case errors.As(err, &fault) && fault.Holder != nil:
		return heldBy(of.lock, ofAgent(*fault.Holder))
	}
	return err
}

// heldBy is the error of a command that only tries to get a lock.
func heldBy(lock string, by locks.Holder) error {
	by.Asked = false // one voter said so
	return fmt.Errorf("%s: somebody else has the lock: %v", lock, by)
}

// asksWho is for how long a command that got no lock asks who has it.
const asksWho = time.Second

// nowHeld returns who has a lock that was not to be had in time, as the end of a message, "" if that is not known.
func nowHeld(by looks, lock string) string {
	ctx, cancel := context.WithTimeout(context.Background(), asksWho)
	defer cancel()
	holder, err := by.Who(ctx, lock)
	if err != nil || holder.IsNobody() {
		return ""
	}
	return fmt.Sprint("; who has it now: ", holder)
}

// isDown returns whether no agent listens at the socket, so that another try may help later.
func isDown(err error) bool {
	return errors.Is(err, agent.ErrAbsent) && (errors.Is(err, os.ErrNotExist) || errors.Is(err, syscall.ECONNREFUSED) ||
		errors.Is(err, syscall.EAGAIN))
}

// owned is a lock that is held, by a session of this process or by that of the host's agent.
type owned interface {
	Token() []byte
	Context(parent context.Context) (context.Context, context.CancelFunc)
	Unlock() error
}

// runWith runs a program under a lock that is held, and gives the lock back.
func runWith(ctx context.Context, held owned, of taking, turn uint64, grace time.Duration, words []string) error {
	work, done := held.Context(ctx)
	defer done()
	environment := []string{"QLOCK_PASS=" + hex.EncodeToString(held.Token())}
	if of.turns {
		environment = append(environment, fmt.Sprint("QLOCK_TURN=", turn))
	}
	code, err := runProgram(work, grace, words, environment...)
	lost := held.Unlock() != nil // the context may not say so yet
	switch {
	case lost:
		return status{exitLost, fmt.Errorf("%s: %w", of.lock, errLost)}
	case errors.Is(err, os.ErrNotExist) || errors.Is(err, exec.ErrNotFound):
		return status{exitNone, err}
	case err != nil:
		return status{exitNoStart, err}
	case code != 0:
		return status{code: code}
	}
	return nil
}

// notTaken returns the status of a command that did not get its lock, and why, as far as this client knows. Who had no number asked nobody
// for the lock, so it does not say that somebody else had that. Else voters that are silent may be why. The last function says who has it now.
func notTaken(limit context.Context, err error, silent []string, of taking, now func() string) error {
	by := &locks.HeldBy{}
	switch {
	case errors.As(err, &by):
		return status{exitNoLock, heldBy(of.lock, by.Holder)}
	case errors.Is(err, locks.ErrNumbers) || errors.Is(err, locks.ErrNoQuorum):
		return status{exitNoLock, fmt.Errorf("%s: %w", of.lock, err)}
	case errors.Is(err, context.DeadlineExceeded) && len(silent) > 0:
		return status{exitNoLock, fmt.Errorf("%s: the lock was not to be had for %v; these voters are silent: %s%s", of.lock, of.wait,
			strings.Join(silent, ", "), now())}
	case errors.Is(err, context.DeadlineExceeded):
		return status{exitNoLock, fmt.Errorf("%s: somebody else had the lock for %v%s", of.lock, of.wait, now())}
	case errors.Is(err, locks.ErrFull) || errors.Is(err, locks.ErrHeld):
		return status{exitNoLock, err}
	}
	return withoutLock(limit, fmt.Errorf("%s: %w", of.lock, err))
}

// withoutLock returns the status of a command that has no lock: 75 if its time or its session is over, and 78 if another
// try would not help.
func withoutLock(limit context.Context, err error) error {
	if limit.Err() == nil && !errors.Is(err, locks.ErrLost) || errors.Is(err, transport.ErrRefused) {
		return status{exitSettings, err}
	}
	return status{exitNoLock, err}
}

// runProgram runs a program until it ends, or the context does. It returns the program's exit status. The program has a
// process group of its own, so that all of it gets the signals. If the context ends, all of the group ends. The program is
// killed when this process is.
func runProgram(ctx context.Context, grace time.Duration, words []string, environment ...string) (int, error) {
	runtime.LockOSThread() // the program is killed when the thread ends that started it
	defer runtime.UnlockOSThread()
	program := exec.Command(words[0], words[1:]...)
	program.Env = append(without("QLOCK_TURN", os.Environ()), environment...) // what a run around this one has is of another lock
	program.SysProcAttr = &syscall.SysProcAttr{Setpgid: true, Pdeathsig: syscall.SIGKILL}
	program.Stdin, program.Stdout, program.Stderr = os.Stdin, os.Stdout, os.Stderr
	if err := program.Start(); err != nil {
		return 0, err
	}
	ended := make(chan error, 1)
	go func() { ended <- program.Wait() }()
	select {
	case err := <-ended:
		return exitCode(err)
	case <-ctx.Done():
	}
	group, limit := -program.Process.Pid, time.Now().Add(grace)
	_ = syscall.Kill(group, syscall.SIGTERM)
	select {
	case err := <-ended:
		endGroup(group, limit)
		return exitCode(err)
	case <-time.After(grace):
		_ = syscall.Kill(group, syscall.SIGKILL)
		return exitCode(<-ended)
	}
}

// without returns the variables of an environment but one.
func without(name string, environment []string) []string {
	var others []string
	for _, variable := range environment {
		if !strings.HasPrefix(variable, name+"=") {
			others = append(others, variable)
		}
	}
	return others
}

// endGroup waits until the processes of a group have ended whose program has. It kills those that are left at the limit.
// Their group keeps its number until the last one has ended, so no other processes get the signal.
func endGroup(group int, limit time.Time) {
	for ; syscall.Kill(group, 0) == nil; time.Sleep(10 * time.Millisecond) {
		if !time.Now().Before(limit) {
			_ = syscall.Kill(group, syscall.SIGKILL)
			return
		}
	}
}

// exitCode returns the exit status of a program, as a shell counts it.
func exitCode(err error) (int, error) {
	var exit *exec.ExitError
	if !errors.As(err, &exit) {
		return 0, err
	}
	if state, ok := exit.Sys().(syscall.WaitStatus); ok && state.Signaled() {
		return 128 + int(state.Signal()), nil
	}
	return exit.ExitCode(), nil
}
