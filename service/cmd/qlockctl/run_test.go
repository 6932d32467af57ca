package main

import (
	"bytes"
	"context"
	"errors"
	"fmt"
	"log"
	"os"
	"os/exec"
	"path/filepath"
	"regexp"
	"strings"
	"testing"
	"time"

	"calvundek.example/service/agent"
	"calvundek.example/service/internal/config"
	"calvundek.example/service/internal/voter"
	"calvundek.example/service/internal/worlds"
	"calvundek.example/service/locks"
)

// The exit status of a program is handed on, and a program whose lock is lost is ended.
func TestRunProgram(t *testing.T) {
	for text, want := range map[string]int{"exit 0": 0, "exit 7": 7, "kill -9 $$": 137, "[ \"$QLOCK_PASS\" = abc ]": 0} {
		code, err := runProgram(context.Background(), time.Second, []string{"sh", "-c", text}, "QLOCK_PASS=abc")
		if err != nil || code != want {
			t.Errorf("%s: %d, %v", text, code, err)
		}
	}
	if _, err := runProgram(context.Background(), time.Second, []string{"/there/is/none"}, "A=b"); err == nil {
		t.Error("a program that is not there")
	}
	for text, want := range map[string]int{"sleep 60": 143, "trap '' TERM; sleep 60; sleep 60": 137} {
		ctx, cancel := context.WithTimeout(context.Background(), 300*time.Millisecond)
		began := time.Now()
		code, err := runProgram(ctx, 500*time.Millisecond, []string{"sh", "-c", text}, "A=b")
		cancel()
		if err != nil || code != want || time.Since(began) > 20*time.Second {
			t.Errorf("%s: %d, %v", text, code, err)
		}
	}
}

// A program is killed with the process that runs it.
func TestProgramIsKilledWithRun(t *testing.T) {
	if os.Getenv("TEST_RUNS") != "" {
		_, _ = runProgram(context.Background(), time.Second, []string{"sh", "-c", "echo $$; exec sleep 60"}, "A=b")
		return
	}
	run := exec.Command(os.Args[0], "-test.run", "^TestProgramIsKilledWithRun$")
	run.Env = append(os.Environ(), "TEST_RUNS=1")
	out, err := run.StdoutPipe()
	if err != nil {
		t.Fatal(err)
	}
	if err := run.Start(); err != nil {
		t.Fatal(err)
	}
	var program int
	if _, err := fmt.Fscan(out, &program); err != nil {
		t.Fatal(err)
	}
	_ = run.Process.Kill()
	_ = run.Wait()
	ends(t, program)
}

// ends waits until a process has ended.
func ends(t *testing.T, process int) {
	t.Helper()
	for end := time.Now().Add(5 * time.Second); ; time.Sleep(10 * time.Millisecond) {
		stat, err := os.ReadFile(fmt.Sprintf("/proc/%d/stat", process))
		if err != nil || bytes.Contains(stat, []byte(") Z ")) {
			return
		}
		if time.Now().After(end) {
			t.Fatal("the process goes on")
		}
	}
}

// The group of a program whose lock is lost is ended, though the program itself ended before.
func TestGroupIsEnded(t *testing.T) {
	file := filepath.Join(t.TempDir(), "process")
	text := "sh -c 'trap \"\" TERM; echo $$ > $FILE.new; mv $FILE.new $FILE; exec sleep 60' & wait"
	ctx, cancel := context.WithCancel(context.Background())
	defer cancel()
	go func() {
		for end := time.Now().Add(10 * time.Second); time.Now().Before(end); time.Sleep(10 * time.Millisecond) {
			if _, err := os.Stat(file); err == nil {
				break
			}
		}
		cancel()
	}()
	code, err := runProgram(ctx, 300*time.Millisecond, []string{"sh", "-c", text}, "FILE="+file)
	if err != nil || code != 143 {
		t.Errorf("%d, %v", code, err)
	}
	word, err := os.ReadFile(file)
	if err != nil {
		t.Fatal(err)
	}
	var process int
	if _, err := fmt.Sscan(string(word), &process); err != nil {
		t.Fatal(err)
	}
	ends(t, process)
}

// A session that was ended while its lock was waited for is no fault of the settings.
func TestWithoutLock(t *testing.T) {
	over, cancel := context.WithCancel(context.Background())
	cancel()
	for _, one := range []struct {
		limit context.Context
		err   error
		want  int
	}{
		{context.Background(), locks.ErrName, exitSettings},
		{context.Background(), fmt.Errorf("x: %w", locks.ErrLost), exitNoLock},
		{over, locks.ErrNoQuorum, exitNoLock},
	} {
		var got status
		if !errors.As(withoutLock(one.limit, one.err), &got) || got.code != one.want {
			t.Errorf("%v: %d", one.err, got.code)
		}
	}
}

// outOfTime is an error of a call whose time ended.
type outOfTime struct{ error }

func (o outOfTime) Is(target error) bool { return target == o.error }
func (o outOfTime) Unwrap() error        { return context.DeadlineExceeded }

// A command that had no number, or reached no quorum, does not say that somebody else had the lock.
func TestNotTaken(t *testing.T) {
	over, cancel := context.WithCancel(context.Background())
	cancel()
	of, now := taking{lock: "x", wait: 2 * time.Second}, func() string { return "; who has it now: one" }
	for _, one := range []struct {
		err    error
		silent []string
		code   int
		text   string
	}{
		{outOfTime{locks.ErrNumbers}, nil, exitNoLock, "x: " + locks.ErrNumbers.Error()},
		{outOfTime{locks.ErrNumbers}, []string{"a"}, exitNoLock, "x: " + locks.ErrNumbers.Error()},
		{outOfTime{locks.ErrNoQuorum}, nil, exitNoLock, "x: " + locks.ErrNoQuorum.Error()},
		{context.DeadlineExceeded, nil, exitNoLock, "x: somebody else had the lock for 2s; who has it now: one"},
		{context.DeadlineExceeded, []string{"a", "b"}, exitNoLock, "x: the lock was not to be had for 2s; these voters are silent: a, b; who has it now: one"},
		{locks.ErrHeld, nil, exitNoLock, locks.ErrHeld.Error()},
		{&locks.HeldBy{Lock: "x", Holder: locks.Holder{Session: "2/3", Note: "one", Asked: true}}, nil, exitNoLock,
			`x: somebody else has the lock: client 2/3 note="one"`},
		{locks.ErrFull, nil, exitNoLock, locks.ErrFull.Error()},
		{locks.ErrLost, nil, exitNoLock, "x: " + locks.ErrLost.Error()},
	} {
		var got status
		if !errors.As(notTaken(over, one.err, one.silent, of, now), &got) || got.code != one.code || got.Error() != one.text {
			t.Errorf("%v: %d, %v", one.err, got.code, got)
		}
	}
	var got status
	if !errors.As(notTaken(context.Background(), locks.ErrName, nil, of, now), &got) || got.code != exitSettings {
		t.Errorf("a bad name: %d", got.code)
	}
}

// A command that does not get its lock says who has it, and for how long it waited, whether it takes it by an agent or not.
func TestWhoHadTheLock(t *testing.T) {
	w := worlds.New(t, worlds.Majority, 4*time.Second)
	path, socket := fileOf(t, w), agentOn(t, w, w.Bus.Port())
	held, err := agent.New(socket).Lock(context.Background(), "x")
	if err != nil {
		t.Fatal(err)
	}
	for _, of := range []taking{{lock: "x", wait: 300 * time.Millisecond}, {lock: "x", wait: 10 * time.Second, tries: true}} {
		settings := locks.Config{Cluster: path, Transport: w.Bus.Port()}
		for name, err := range map[string]error{
			"alone":       run(context.Background(), settings, of, 0, []string{"true"}),
			"by an agent": runByAgent(context.Background(), agent.New(socket), of, 0, []string{"true"}),
		} {
			text := fmt.Sprint(err)
			isRight := strings.HasPrefix(text, "x: somebody else has the lock: ")
			if !of.tries {
				isRight = regexp.MustCompile("for [0-9]{3}ms; who has it now: ").MatchString(text)
			}
			if !isRight || !strings.Contains(text, fmt.Sprint(" pid=", os.Getpid())) || strings.Contains(text, "asked") {
				t.Errorf("%s, tries %v: %s", name, of.tries, text)
			}
		}
	}
	if err := held.Unlock(); err != nil {
		t.Error(err)
	}
}

// fileOf writes a cluster's file.
func fileOf(t *testing.T, w *worlds.World) string {
	t.Helper()
	text, err := w.Cluster.Text()
	if err != nil {
		t.Fatal(err)
	}
	path := filepath.Join(t.TempDir(), "cluster.toml")
	if err := os.WriteFile(path, text, 0o600); err != nil {
		t.Fatal(err)
	}
	return path
}

// The status says whether the lock may have been lost.
func TestStatusOfRun(t *testing.T) {
	w := worlds.New(t, worlds.Majority, time.Second)
	path := fileOf(t, w)
	for cut, want := range map[time.Duration]int{0: 7, 300 * time.Millisecond: exitLost} {
		port := w.Bus.Port()
		text := "exit 7"
		if cut > 0 {
			text = "sleep 60"
			time.AfterFunc(cut, func() { port.Cut(true) })
			time.AfterFunc(cut+2*time.Second, func() { port.Cut(false) }) // so that the session can be closed
		}
		err := run(context.Background(), locks.Config{Cluster: path, Transport: port}, taking{lock: "x", wait: 10 * time.Second}, time.Second, []string{"sh", "-c", text})
		var got status
		if !errors.As(err, &got) || got.code != want {
			t.Errorf("%s: %v", text, err)
		}
	}
}

// said are the lines of a log.
type said chan string

func (s said) Write(line []byte) (int, error) {
	s <- string(line)
	return len(line), nil
}

// session returns the number of the next session that the log names.
func (s said) session(t *testing.T) (number int) {
	t.Helper()
	for end := time.After(20 * time.Second); ; {
		select {
		case line := <-s:
			if _, err := fmt.Sscanf(line, "event=session number=%d", &number); err == nil {
				return number
			}
		case <-end:
			t.Fatal("there is no session")
		}
	}
}

// A session that is over before it has the lock is followed by another one. One that ends later, with the lock, is not.
func TestSessionIsFollowedUntilTheLockIsThere(t *testing.T) {
	w := worlds.New(t, worlds.Majority, 20*time.Second)
	path, lines := fileOf(t, w), make(said, 1000)
	other, err := locks.Open(context.Background(), locks.Config{Cluster: path, Transport: w.Bus.Port()})
	if err != nil {
		t.Fatal(err)
	}
	held, err := other.Lock(context.Background(), "x")
	if err != nil {
		t.Fatal(err)
	}
	evict := func(words string) {
		t.Helper()
		ctx, cancel := context.WithTimeout(context.Background(), 20*time.Second)
		defer cancel()
		if _, err := w.Console().Ask(ctx, "evict "+words, 0, 1, 2); err != nil {
			t.Fatal(err)
		}
	}
	is := func(what string, so func(locks.Holder) bool) {
		t.Helper()
		for end := time.Now().Add(20 * time.Second); ; time.Sleep(10 * time.Millisecond) {
			if holder, err := other.Who(context.Background(), "x"); err == nil && so(holder) {
				return
			} else if time.Now().After(end) {
				t.Fatalf("it is not so that %s: %v", what, holder)
			}
		}
	}
	ended := make(chan error, 1)
	go func() {
		ended <- run(context.Background(), locks.Config{Cluster: path, Transport: w.Bus.Port(), Log: log.New(lines, "", 0), Note: "run"},
			taking{lock: "x", wait: time.Minute}, time.Second, []string{"sleep", "60"})
	}()
	first := lines.session(t)
	is("it waits", func(holder locks.Holder) bool { return holder.Waiting == 1 })
	evict(fmt.Sprint(first, " now")) // else what it asks for keeps others out for a TTL
	second := lines.session(t)
	if err := held.Unlock(); err != nil {
		t.Fatal(err)
	}
	is("it has the lock", func(holder locks.Holder) bool { return holder.Note == "run" && !holder.Asked })
	evict(fmt.Sprint(second, " now"))
	var got status
	if err := <-ended; !errors.As(err, &got) || got.code != exitLost {
		t.Error(err)
	}
	for len(lines) > 0 {
		if line := <-lines; strings.HasPrefix(line, "event=session number") {
			t.Error("it opens a third session:", line)
		}
	}
	_ = other.Close(context.Background())
}

// With --try nobody waits for who has the lock.
func TestRunThatTries(t *testing.T) {
	w := worlds.New(t, worlds.Majority, 20*time.Second)
	path := fileOf(t, w)
	client, err := locks.Open(context.Background(), locks.Config{Cluster: path, Transport: w.Bus.Port()})
	if err != nil {
		t.Fatal(err)
	}
	held, err := client.Lock(context.Background(), "x")
	if err != nil {
		t.Fatal(err)
	}
	tries := func() int {
		began := time.Now()
		err := run(context.Background(), locks.Config{Cluster: path, Transport: w.Bus.Port()}, taking{lock: "x", wait: time.Minute, tries: true}, time.Second,
			[]string{"sh", "-c", "exit 7"})
		var got status
		if !errors.As(err, &got) || time.Since(began) > 20*time.Second {
			t.Errorf("after %v: %v", time.Since(began), err)
		}
		return got.code
	}
	if code := tries(); code != exitNoLock {
		t.Errorf("somebody has the lock: %d", code)
	}
	if err := held.Unlock(); err != nil {
		t.Fatal(err)
	}
	code := 0
	for end := time.Now().Add(20 * time.Second); code != 7 && time.Now().Before(end); {
		code = tries() // a RELEASE takes a moment
	}
	if code != 7 {
		t.Errorf("nobody has the lock: %d", code)
	}
	_ = client.Close(context.Background())
}

// A program ends before the next one enters: its grace is within what is left of the TTL.
func TestGraceIsWithinTheTTL(t *testing.T) {
	for _, one := range []struct{ ttl, grace, want time.Duration }{
		{10 * time.Second, 0, time.Second},
		{2 * time.Second, 0, 200 * time.Millisecond},
		{2 * time.Second, 100 * time.Millisecond, 100 * time.Millisecond},
		{time.Minute, 6 * time.Second, 6 * time.Second},
		{2 * time.Second, time.Second, 0},
	} {
		text, err := worlds.NewCluster(t, worlds.Majority, one.ttl).Text()
		if err != nil {
			t.Fatal(err)
		}
		path := filepath.Join(t.TempDir(), "cluster.toml")
		if err := os.WriteFile(path, text, 0o600); err != nil {
			t.Fatal(err)
		}
		if got, err := graceWithin(one.ttl, one.grace); got != one.want || (err != nil) != (one.want == 0) {
			t.Errorf("ttl %v, grace %v: %v, %v", one.ttl, one.grace, got, err)
		}
		if one.want == 0 {
			root := command(context.Background())
			root.SetArgs([]string{"run", "--cluster", path, "--grace", one.grace.String(), "x", "true"})
			var got status
			if err := root.Execute(); !errors.As(err, &got) || got.code != exitSettings {
				t.Errorf("%v", err)
			}
		}
	}
}

// lapsing is a lock that lapsed as the program ended: only Unlock says so.
type lapsing struct{}

func (lapsing) Token() []byte { return nil }
func (lapsing) Context(parent context.Context) (context.Context, context.CancelFunc) {
	return context.WithCancel(parent)
}
func (lapsing) Unlock() error { return locks.ErrLapsed }

// A program whose lock lapsed just as it ended may have run beside another one: that is no success.
func TestLossAtTheEndIsNoSuccess(t *testing.T) {
	err := runWith(context.Background(), lapsing{}, taking{lock: "x"}, 0, time.Second, []string{"true"})
	var got status
	if !errors.As(err, &got) || got.code != exitLost {
		t.Errorf("%v", err)
	}
}

// A command that got no lock says which voters are there and give no vote yet, why, and for how long at most. Who is a
// user may not ask that.
func TestSlowVoters(t *testing.T) {
	w := worlds.New(t, worlds.Majority, 20*time.Second)
	if text := slowVoters(w.Cluster, w.Bus.Port(), config.Access{}); text != "" {
		t.Errorf("all serve: %q", text)
	}
	for i := range w.Owns {
		w.Stop(i)
	}
	w.Start(0)
	if text := slowVoters(w.Cluster, w.Bus.Port(), config.Access{}); text != "; a waits for b,c: those that answered and it contain no quorum" {
		t.Errorf("one starts: %q", text)
	}
	w.Start(1)
	text := ""
	for begun := time.Now(); !strings.Contains(text, "at most") && time.Since(begun) < 5*time.Second; {
		text = slowVoters(w.Cluster, w.Bus.Port(), config.Access{})
	}
	if !strings.Contains(text, "; b waits for c, for ") || !strings.Contains(text, "s at most: it was heard lately") {
		t.Errorf("two start: %q", text)
	}
	if text := slowVoters(w.Cluster, w.Bus.Port(), config.Access{User: "jobs"}); text != "" {
		t.Errorf("a user: %q", text)
	}
	if why := whySlow(voter.Status{Serves: true, Quiet: 6.8}); why != "is quiet for 7s" {
		t.Errorf("a quiet one: %q", why)
	}
}

// A lock that lapses before its turn is there is taken again, as long as the command may wait.
func TestLockThatLapsesBeforeItsTurn(t *testing.T) {
	short, cancel := context.WithCancel(context.Background())
	defer cancel()
	for _, one := range []struct {
		why   error
		taken int // how often it is taken
	}{{locks.ErrLapsed, 3}, {context.DeadlineExceeded, 1}} {
		taken := 0
		_, turn, err := withTurn(short, func() (lapsing, error) { taken++; return lapsing{}, nil }, func(lapsing) (uint64, error) {
			if taken == 3 {
				return 7, nil
			}
			return 0, one.why
		})
		if taken != one.taken || (err == nil) != (turn == 7) || (err == nil) != (one.taken == 3) {
			t.Errorf("%v: taken %d times, turn %d: %v", one.why, taken, turn, err)
		}
	}
	cancel()
	var got status
	if _, _, err := withTurn(short, func() (lapsing, error) { return lapsing{}, nil }, func(lapsing) (uint64, error) { return 0, locks.ErrLapsed }); !errors.As(err, &got) ||
		got.code != exitNoLock {
		t.Errorf("after its time: %v", err)
	}
}
