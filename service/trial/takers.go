package main

import (
	"bufio"
	"context"
	"encoding/hex"
	"encoding/json"
	"errors"
	"fmt"
	"io"
	"os"
	"os/exec"
	"os/signal"
	"path/filepath"
	"strings"
	"sync"
	"syscall"
	"time"

	"calvundek.example/service/agent"
	"calvundek.example/service/internal/boot"
	"calvundek.example/service/locks"
)

var (
	errNothing = errors.New("neither a lock nor an error")
	errEarly   = errors.New("it gave up early")
	errLapsed  = errors.New("the lock was lost before it was given back")
)

// call is what a worker wants.
type call struct {
	lock         string
	wait         time.Duration
	tries, turns bool
}

// held is a lock that somebody has, whatever took it.
type held struct {
	token  []byte
	lost   <-chan struct{}
	turn   func(ctx context.Context) (uint64, error)
	unlock func() error
}

// taker takes a lock in one of the ways that users have.
type taker func(ctx context.Context, c call) (held, error)

// byLocks takes locks by a session.
func byLocks(client *locks.Client) taker {
	return func(ctx context.Context, c call) (held, error) {
		take := client.Lock
		if c.tries {
			take = client.TryLock
		}
		h, err := take(ctx, c.lock)
		if err != nil {
			return held{}, err
		}
		return held{h.Token(), h.Lost(), h.Turn, h.Unlock}, nil
	}
}

// byAgent takes locks by an agent.
func byAgent(socket string) taker {
	return func(ctx context.Context, c call) (held, error) {
		client := agent.New(socket)
		if c.turns {
			client = client.WithTurn()
		}
		take := client.Lock
		if c.tries {
			take = client.TryLock
		}
		h, err := take(ctx, c.lock)
		if h == nil && err == nil {
			err = errNothing
		}
		if err != nil {
			return held{}, err
		}
		return held{h.Token(), h.Lost(), turnOf(h.Turn()), h.Unlock}, nil
	}
}

func turnOf(turn uint64) func(context.Context) (uint64, error) {
	return func(context.Context) (uint64, error) { return turn, nil }
}

// piped is a program that has a lock, or waits for it.
type piped struct {
	run   *exec.Cmd
	in    io.WriteCloser
	lines *bufio.Reader
	fault strings.Builder // what it wrote to standard error
	lost  chan struct{}
	once  sync.Once
}

// pipe starts a program that is killed with this process.
func pipe(words ...string) (*piped, error) {
	p := &piped{run: exec.Command(words[0], words[1:]...), lost: make(chan struct{})}
	p.run.SysProcAttr = &syscall.SysProcAttr{Pdeathsig: syscall.SIGKILL}
	p.run.Stderr = &p.fault
	in, err := p.run.StdinPipe()
	if err != nil {
		return nil, err
	}
	out, err := p.run.StdoutPipe()
	if err != nil {
		return nil, err
	}
	p.in, p.lines = in, bufio.NewReader(out)
	return p, p.run.Start()
}

// lapse notes that the lock is lost.
func (p *piped) lapse() { p.once.Do(func() { close(p.lost) }) }

// end kills the program, and returns errLapsed if the lock was lost before.
func (p *piped) end() (err error) {
	select {
	case <-p.lost:
		err = errLapsed
	default:
	}
	_ = p.run.Process.Kill()
	_ = p.run.Wait()
	return err
}

// said is what an agent says in a line.
type said struct {
	Held  bool   `json:"held"`
	Pass  string `json:"pass"`
	Turn  uint64 `json:"turn,string"`
	Until int64  `json:"until_ms"`
	Fault string `json:"fault"`
	Why   string `json:"why"`
}

// byCurl takes locks by the HTTP of an agent.
func byCurl(socket string) taker {
	return func(ctx context.Context, c call) (held, error) {
		query := "wait=" + c.wait.String()
		if c.tries {
			query += "&try=1"
		}
		if c.turns {
			query += "&turn=1"
		}
		p, err := pipe("curl", "-sN", "--unix-socket", socket, "-X", "POST", "http://qlockd/v1/locks/"+c.lock+"?"+query)
		if err != nil {
			return held{}, err
		}
		first := p.hears()
		if !first.Held {
			_ = p.end()
			if err := refusals[first.Fault]; err != nil {
				return held{}, err
			}
			return held{}, fmt.Errorf("curl: %s %s", first.Fault, first.Why)
		}
		token, err := hex.DecodeString(first.Pass)
		go p.follow(first.Until)
		return held{token, p.lost, turnOf(first.Turn), p.end}, err
	}
}

// refusals are what an agent says if a lock is not to be had, and that is as it may be.
var refusals = map[string]error{"held": locks.ErrHeld, "timeout": context.DeadlineExceeded}

// hears returns the next line of an agent, an empty one at the end.
func (p *piped) hears() (s said) {
	line, _ := p.lines.ReadBytes('\n')
	_ = json.Unmarshal(line, &s)
	return s
}

// follow reads what the agent says until the lock is lost: so it says, or says nothing until then.
func (p *piped) follow(until int64) {
	defer p.lapse()
	left := func(until int64) time.Duration { return time.Duration(until)*time.Millisecond - boot.Uptime() }
	silence := time.AfterFunc(left(until), p.lapse)
	defer silence.Stop()
	for next := p.hears(); next.Until > 0; next = p.hears() {
		silence.Reset(left(next.Until))
	}
}

// byRun takes locks by `qlockctl run`, of which the program says that it runs.
func (h habits) byRun(ctx context.Context, c call) (held, error) {
	self, err := os.Executable()
	if err != nil {
		return held{}, err
	}
	words := []string{filepath.Join(h.Bin, "qlockctl"), "run", "--wait", c.wait.String()}
	if h.Agent != "" {
		words = append(words, "--agent", h.Agent)
	} else {
		words = append(words, "-c", h.Cluster)
	}
	if c.tries {
		words = append(words, "--try")
	}
	if c.turns {
		words = append(words, "--turn")
	}
	began := time.Now()
	p, err := pipe(append(words, c.lock, self, "hold")...)
	if err != nil {
		return held{}, err
	}
	var token []byte
	var turn uint64
	if n, _ := fmt.Fscanf(p.lines, "%x %d\n", &token, &turn); n < 2 {
		_ = p.run.Wait()
		return held{}, notRun(p.run.ProcessState.ExitCode(), p.fault.String(), c, time.Since(began))
	}
	go func() {
		defer p.lapse()
		_, _ = p.lines.ReadString('\n') // it is told to end, or has ended
	}()
	unlock := func() error {
		_ = p.in.Close()
		_ = p.run.Wait()
		if p.run.ProcessState.ExitCode() != 0 {
			return errLapsed
		}
		return nil
	}
	return held{token, p.lost, turnOf(turn), unlock}, nil
}

// notRun returns why a run did not get its lock, by its status and what it said.
func notRun(status int, fault string, c call, took time.Duration) error {
	err := fmt.Errorf("status %d: %s", status, strings.TrimSpace(fault))
	const noLock = 75
	switch {
	case status != noLock:
		return err
	case c.tries && strings.Contains(fault, "somebody else has the lock"):
		return locks.ErrHeld
	case took >= c.wait:
		return context.DeadlineExceeded
	case !c.tries && !strings.Contains(fault, "agent:"): // which may be gone
		return fmt.Errorf("%w: %v", errEarly, err)
	}
	return err
}

// hold is the program of such a run: it says its pass and its turn, and ends when its input does, or when it is told to.
func hold() error {
	told := make(chan os.Signal, 1)
	signal.Notify(told, syscall.SIGTERM)
	turn := os.Getenv("QLOCK_TURN")
	if turn == "" {
		turn = "0"
	}
	fmt.Println(os.Getenv("QLOCK_PASS"), turn)
	go func() {
		<-told
		fmt.Println("lost")
		os.Exit(1)
	}()
	_, err := io.Copy(io.Discard, os.Stdin)
	return err
}
