// Package local runs a cluster on this machine, for trials and measurements: servers of NATS and voters, each a process
// that can be killed and started again.
package local

import (
	"bytes"
	"context"
	"encoding/json"
	"errors"
	"fmt"
	"os"
	"os/exec"
	"path/filepath"
	"strconv"
	"strings"
	"sync"
	"syscall"
	"time"

	"calvundek.example/service/internal/config"
	"calvundek.example/service/internal/operator"
	"calvundek.example/service/internal/voter"
	"calvundek.example/service/internal/wire"
	"calvundek.example/service/transport"
)

// ErrSetUp is returned if a cluster can't be started.
var ErrSetUp = errors.New("the cluster does not start")

// Process is a process that can be killed, stopped and started again.
type Process struct {
	Name    string
	words   []string
	log     string
	*Island // nil if it is in the network of this machine
	run     *exec.Cmd
	ended   chan struct{} // closed when it has ended
	before  int           // how much of the log earlier runs wrote
}

// Start starts the process, which is not running. If that fails, the process is as before: never
// started, or ended.
func (p *Process) Start() error {
	words := p.words
	if p.Island != nil {
		words = p.within(words)
	}
	run := exec.Command(words[0], words[1:]...)
	out, err := os.OpenFile(p.log, os.O_WRONLY|os.O_CREATE|os.O_APPEND, 0o644)
	if err != nil {
		return err
	}
	defer out.Close()
	info, err := out.Stat()
	if err != nil {
		return err
	}
	run.Stdout, run.Stderr = out, out
	if err := run.Start(); err != nil {
		return err // the run before, if there was one, stays the last one
	}
	p.run, p.ended, p.before = run, make(chan struct{}), int(info.Size())
	go func(run *exec.Cmd, ended chan struct{}) {
		_ = run.Wait()
		close(ended)
	}(p.run, p.ended)
	return nil
}

// Kill ends the process at once, and waits until it is gone.
func (p *Process) Kill() {
	if p.run == nil || p.ended == nil {
		return // it was never started
	}
	_ = p.run.Process.Kill()
	<-p.ended
}

// Pid returns the number of the process.
func (p *Process) Pid() int { return p.run.Process.Pid }

// Signal sends a signal.
func (p *Process) Signal(s os.Signal) { _ = p.run.Process.Signal(s) }

// SignalAll sends a signal to the process, and to all that it started.
func (p *Process) SignalAll(s syscall.Signal) { signalAll(p.Pid(), s) }

func signalAll(pid int, s syscall.Signal) {
	_ = syscall.Kill(pid, s)
	lists, _ := filepath.Glob(fmt.Sprintf("/proc/%d/task/*/children", pid))
	for _, list := range lists {
		children, _ := os.ReadFile(list)
		for _, word := range strings.Fields(string(children)) {
			if child, err := strconv.Atoi(word); err == nil {
				signalAll(child, s)
			}
		}
	}
}

// Ended returns whether the process has ended by itself, and waits for that for some time.
func (p *Process) Ended(within time.Duration) bool {
	select {
	case <-p.ended:
		return true
	case <-time.After(within):
		return false
	}
}

// Log returns what the process wrote.
func (p *Process) Log() string {
	text, err := os.ReadFile(p.log)
	if err != nil {
		return err.Error()
	}
	return string(text)
}

// Says waits until the process wrote something since it was started, for some time, and returns whether it did.
func (p *Process) Says(text string, within time.Duration) bool {
	for end := time.Now().Add(within); time.Now().Before(end); time.Sleep(10 * time.Millisecond) {
		if log := p.Log(); len(log) > p.before && strings.Contains(log[p.before:], text) {
			return true
		}
	}
	return false
}

// Cluster is three servers of NATS, the voters of a coterie, and agents.
type Cluster struct {
	Folder, Bin, File       string
	Settings                *config.Cluster
	names                   []string // of all voters that were ever there
	Servers, Voters, Agents []*Process
	Listen                  []string   // where the voters' numbers are
	made                    []*Process // all voters that were ever there: those of Voters, then those that were dismissed
	all                     []*Process
	islands                 bool
	loss                    int
	cleanUp                 []func()
	linking                 sync.Once
	link                    *transport.NATS // by which Ask asks
}

// Options say how a cluster is made. Bin has qlock-voter and qlockctl, and qlockd for agents.
type Options struct {
	Folder, Bin, Coterie string
	TTL                  time.Duration
	Islands              bool // all processes have network namespaces of their own, which needs root
	SmallDisk            bool // the first voter has a disk that is soon full, which needs root
	Shards               int  // of the cluster, 0 for 1
	Loss                 int  // how many of 100 packets are lost on each island but those of servers, in each direction
	Agents               int
}

// Start makes a cluster in a new folder, and starts it.
func Start(o Options) (*Cluster, error) {
	if err := os.MkdirAll(o.Folder, 0o755); err != nil {
		return nil, err
	}
	c := &Cluster{Folder: o.Folder, Bin: o.Bin, File: filepath.Join(o.Folder, "cluster.toml")}
	if err := c.start(o); err != nil {
		c.End()
		return nil, fmt.Errorf("%w: %v", ErrSetUp, err)
	}
	return c, nil
}

func (c *Cluster) start(o Options) error {
	if o.Islands {
		remove, err := forward()
		if err != nil {
			return err
		}
		c.islands, c.loss, c.cleanUp = true, o.Loss, append(c.cleanUp, remove)
	}
	urls, err := c.startServers()
	if err != nil {
		return err
	}
	if o.Shards == 0 {
		o.Shards = 1
	}
	err = c.command("qlockctl", "init", "--shards", fmt.Sprint(o.Shards), "-c", c.File, "--id", "local", "--coterie", o.Coterie, "--servers", strings.Join(urls, ","), "--ttl", o.TTL.String())
	if err != nil {
		return err
	}
	if err := c.read(); err != nil {
		return err
	}
	if o.SmallDisk {
		remove, err := smallDisk(c.Data(0))
		if err != nil {
			return err
		}
		c.cleanUp = append(c.cleanUp, remove)
	}
	if err := c.grow(); err != nil {
		return err
	}
	for i := 0; i < o.Agents; i++ {
		if err := c.startAgent(i); err != nil {
			return err
		}
	}
	return c.wait()
}

// Socket returns where an agent listens. Its last part is the name of the agent.
func (c *Cluster) Socket(i int) string { return filepath.Join(c.Folder, fmt.Sprint("agent-", i)) }

// startAgent writes an agent's file, and starts the agent.
func (c *Cluster) startAgent(i int) error {
	file := c.Socket(i) + ".toml"
	if err := os.WriteFile(file, []byte(fmt.Sprintf("cluster = %q\nsocket = %q\n", c.File, c.Socket(i))), 0o644); err != nil {
		return err
	}
	agent, err := c.Process(filepath.Base(c.Socket(i)), filepath.Join(c.Bin, "qlockd"), "start", "-c", file)
	if err == nil {
		c.Agents = append(c.Agents, agent)
	}
	return err
}

// read reads the cluster's file.
func (c *Cluster) read() (err error) {
	if c.Settings, err = config.ReadCluster(c.File); err == nil && len(c.Settings.Names()) > len(c.names) {
		c.names = c.Settings.Names()
	}
	return err
}

// grow starts the voters that are not there. One that comes back has its state, and the others get
// one.
func (c *Cluster) grow() error {
	for i := len(c.Voters); i < len(c.names); i++ {
		start := func() error { return c.makeVoter(i) }
		if i < len(c.made) {
			start = c.made[i].Start
		}
		if err := start(); err != nil {
			return err
		}
		c.Voters = c.made[:i+1]
	}
	return nil
}

// Exchange begins to exchange the plan for one of another coterie, and starts the voters that only it has. Install has to
// be called then.
func (c *Cluster) Exchange(coterie string) error {
	why := c.Install(coterie) // without the new voters it may not succeed, but the file is written
	if err := c.read(); err != nil {
		return err
	}
	if c.Settings.OldPlanned == nil {
		return why
	}
	return c.grow()
}

// Install gives the voters the new plan. It may be called again.
func (c *Cluster) Install(coterie string) error {
	return c.operate("exchange", "-c", c.File, "--timeout", "1s", coterie)
}

// Retire takes the old plan out of use.
func (c *Cluster) Retire() error {
	return c.operate("retire", "-c", c.File, "--timeout", "1s")
}

// Dismiss ends the voters that the plan does not have any more.
func (c *Cluster) Dismiss() {
	if err := c.read(); err != nil || c.Settings.OldPlanned != nil {
		return
	}
	for len(c.Voters) > len(c.Settings.Names()) {
		last := len(c.Voters) - 1
		c.Voters[last].Kill()
		c.Voters = c.Voters[:last]
	}
}

// console returns the cluster's file as it is now, and an operator's console, nil if there is none.
func (c *Cluster) console() (*config.Cluster, *operator.Console) {
	cluster, err := config.ReadCluster(c.File)
	if err != nil {
		return c.Settings, nil
	}
	c.linking.Do(func() {
		if c.link, err = transport.Connect(cluster, config.Access{}, "trial"); err == nil {
			c.cleanUp = append(c.cleanUp, c.link.Close)
		}
	})
	if c.link == nil {
		return cluster, nil
	}
	return cluster, operator.New(cluster, c.link, wire.NoUser)
}

// Sessions returns the open sessions of a voter that replies within a second.
func (c *Cluster) Sessions(number int) (sessions []voter.SessionView) {
	_, console := c.console()
	if console == nil {
		return nil
	}
	ctx, cancel := context.WithTimeout(context.Background(), time.Second)
	defer cancel()
	_ = console.List(ctx, "sessions", number, func(page []byte) error {
		var lists voter.Lists
		err := json.Unmarshal(page, &lists)
		sessions = append(sessions, lists.Sessions...)
		return err
	})
	return sessions
}

// Ask returns the cluster's file as it is now, and what voters say of themselves that reply within a second, by their numbers.
func (c *Cluster) Ask() (*config.Cluster, map[int]voter.Status) {
	found := map[int]voter.Status{}
	cluster, console := c.console()
	if console == nil {
		return cluster, found
	}
	ctx, cancel := context.WithTimeout(context.Background(), time.Second)
	defer cancel()
	replies, _ := console.Ask(ctx, "status", console.All()...)
	for _, reply := range replies {
		var status voter.Status
		if reply.Err == nil && json.Unmarshal(reply.Body, &status) == nil {
			found[reply.Voter] = status
		}
	}
	return cluster, found
}

// LetGo orders `evict NUMBER` or `unlock LOCK` as an operator does, and returns how many grants the
// voters let go. Those that are away do not hear of it.
func (c *Cluster) LetGo(words ...string) (total int) {
	words = append(words, "-c", c.File, "--json", "--timeout", "1s")
	out, _ := exec.Command(filepath.Join(c.Bin, "qlockctl"), words...).Output() // it fails if a voter is away
	var answers []struct {
		Reply struct {
			LetGo int `json:"let_go"`
		} `json:"reply"`
	}
	_ = json.Unmarshal(out, &answers) // nobody has the lock, or nobody replied
	for _, one := range answers {
		total += one.Reply.LetGo
	}
	return total
}

// startServers starts three servers of NATS. On islands each has an address of its own, so that they can be cut off from one another.
func (c *Cluster) startServers() (urls []string, err error) {
	ports, err := FreePorts(6)
	if err != nil {
		return nil, err
	}
	program, err := NATSServer()
	if err != nil {
		return nil, err
	}
	islands, addresses := make([]*Island, 3), []string{"127.0.0.1", "127.0.0.1", "127.0.0.1"}
	for i := 0; i < 3 && c.islands; i++ {
		if islands[i], err = c.newIsland(i, 0); err != nil {
			return nil, err
		}
		addresses[i] = islands[i].Address()
	}
	var routes []string
	for i, port := range ports[3:] {
		routes = append(routes, fmt.Sprintf("nats://%s:%d", addresses[i], port))
	}
	for i, port := range ports[:3] {
		urls = append(urls, fmt.Sprintf("nats://%s:%d", addresses[i], port))
		server, err := c.process(fmt.Sprintf("nats-%d", i), islands[i], program, "-a", addresses[i], "-p", fmt.Sprint(port),
			"-cluster", routes[i], "-routes", strings.Join(routes, ","), "-cluster_name", "local")
		if err != nil {
			return nil, err
		}
		c.Servers = append(c.Servers, server)
	}
	return urls, nil
}

// NATSServer returns the path of the server. Debian has it in a folder that is not on every PATH.
func NATSServer() (string, error) {
	if path, err := exec.LookPath("nats-server"); err == nil {
		return path, nil
	}
	return exec.LookPath("/usr/sbin/nats-server")
}

// makeVoter makes a voter's state, and starts the voter.
func (c *Cluster) makeVoter(i int) error {
	ports, err := FreePorts(1)
	if err != nil {
		return err
	}
	c.Listen = append(c.Listen, fmt.Sprintf("127.0.0.1:%d", ports[0]))
	if err := c.writeVoter(i); err != nil {
		return err
	}
	if err := c.command("qlock-voter", "init", "-c", c.VoterFile(i)); err != nil {
		return err
	}
	voter, err := c.Process(c.names[i], filepath.Join(c.Bin, "qlock-voter"), "start", "-c", c.VoterFile(i))
	if err == nil {
		c.made = append(c.made, voter)
	}
	return err
}

// VoterFile returns the file of a voter's settings, and Data the folder of its state.
func (c *Cluster) VoterFile(i int) string {
	return filepath.Join(c.Folder, c.names[i]+".toml")
}

// Data returns the folder of a voter's state.
func (c *Cluster) Data(i int) string { return filepath.Join(c.Folder, c.names[i]) }

// writeVoter writes a voter's settings.
func (c *Cluster) writeVoter(i int) error {
	text := fmt.Sprintf("cluster = %q\nvoter = %q\ndata = %q\nlisten = %q\n", c.File, c.names[i], c.Data(i), c.Listen[i])
	return os.WriteFile(c.VoterFile(i), []byte(text), 0o644)
}

// InitLost makes the state of a voter that lost it, and returns what the program said if it did not.
func (c *Cluster) InitLost(i int) error {
	return c.command("qlock-voter", "init", "--lost", "-c", c.VoterFile(i))
}

// operate runs an operator's command. That a quorum of the voters did it and not all is no error.
func (c *Cluster) operate(words ...string) error {
	const partly = 3
	err := c.command("qlockctl", words...)
	var exit *exec.ExitError
	if errors.As(err, &exit) && exit.ExitCode() == partly {
		return nil
	}
	return err
}

// command runs a program of the service.
func (c *Cluster) command(name string, words ...string) error {
	out, err := exec.Command(filepath.Join(c.Bin, name), words...).CombinedOutput()
	if err != nil {
		return fmt.Errorf("%s: %w: %s", name, err, bytes.TrimSpace(out))
	}
	return nil
}

// wait waits until all voters reply to an operator, and the others answered their starts.
func (c *Cluster) wait() error {
	ctx, cancel := context.WithTimeout(context.Background(), 30*time.Second)
	defer cancel()
	for {
		out, err := exec.CommandContext(ctx, filepath.Join(c.Bin, "qlockctl"), "status", "-c", c.File, "--json", "--timeout",
			"25s").CombinedOutput()
		if err != nil {
			return fmt.Errorf("%v: %s", err, bytes.TrimSpace(out))
		}
		if serve := bytes.Count(out, []byte(`"serves":true`)); serve == len(c.names) {
			return nil
		}
		time.Sleep(50 * time.Millisecond)
	}
}

// Process starts a process of this cluster, on an island of its own if there are islands.
func (c *Cluster) Process(name string, words ...string) (*Process, error) {
	if !c.islands {
		return c.process(name, nil, words...)
	}
	island, err := c.newIsland(len(c.all), c.loss)
	if err != nil {
		return nil, err
	}
	return c.process(name, island, words...)
}

// newIsland makes an island that is removed at the end.
func (c *Cluster) newIsland(number, loss int) (*Island, error) {
	island, err := newIsland(number, loss)
	c.cleanUp = append(c.cleanUp, island.remove)
	return island, err
}

func (c *Cluster) process(name string, island *Island, words ...string) (*Process, error) {
	p := &Process{Name: name, words: words, log: filepath.Join(c.Folder, name+".log"), Island: island}
	if err := p.Start(); err != nil {
		return nil, err
	}
	c.all = append(c.all, p)
	return p, nil
}

// End ends all processes, and removes what was made for them, but for the folder.
func (c *Cluster) End() {
	for _, p := range c.all {
		p.Kill()
	}
	for i := len(c.cleanUp) - 1; i >= 0; i-- {
		c.cleanUp[i]()
	}
}
