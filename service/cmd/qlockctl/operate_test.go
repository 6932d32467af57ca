package main

import (
	"context"
	"errors"
	"fmt"
	"math/bits"
	"strings"
	"testing"
	"time"

	"calvundek.example/service/internal/operator"
	"calvundek.example/service/internal/voter"
	"calvundek.example/service/internal/worlds"
	"calvundek.example/service/locks"
)

// What voters did not do is named: one did not reply, another one refused.
func TestComplete(t *testing.T) {
	refusal := fmt.Errorf("%w: unknown command", operator.ErrRefused)
	good, silent, refused := operator.Reply{Name: "a"}, operator.Reply{Name: "b", Err: operator.ErrSilent}, operator.Reply{Name: "c", Err: refusal}
	for _, one := range []struct {
		replies []operator.Reply
		want    string
	}{
		{[]operator.Reply{good}, "<nil>"},
		{[]operator.Reply{good, silent}, "some voters did not reply: b"},
		{[]operator.Reply{good, refused}, "some voters did not do it: c (refused: unknown command)"},
		{[]operator.Reply{silent, refused}, "some voters did not reply: b; some voters did not do it: c (refused: unknown command)"},
	} {
		if got := fmt.Sprint(complete(one.replies)); got != one.want {
			t.Errorf("%s, not %s", got, one.want)
		}
	}
	if err := complete([]operator.Reply{silent, refused}); !errors.Is(err, errSilent) {
		t.Error(err)
	}
}

// The exit status tells whether all voters did it, a quorum, or fewer.
func TestVerdict(t *testing.T) {
	c := worlds.NewCluster(t, worlds.Majority, time.Second)
	good, silent := func(v int) operator.Reply { return operator.Reply{Voter: v} }, operator.Reply{Voter: 2,
		Name: "c", Err: operator.ErrSilent}
	if err := verdict([]operator.Reply{good(0), good(1), good(2)}, c.HasQuorums); err != nil {
		t.Error(err)
	}
	var got status
	if err := verdict([]operator.Reply{good(0), good(1), silent}, c.HasQuorums); !errors.As(err, &got) ||
		got.code != exitPartly || !errors.Is(err, errSilent) {
		t.Error(err)
	}
	if err := verdict([]operator.Reply{good(0), silent, silent}, c.HasQuorums); errors.As(err, &got) && got.code == exitPartly &&
		err == error(got) || err == nil {
		t.Error(err)
	}
}

// That nobody has a number is said if the voters of a quorum say so, and none says that somebody has it.
func TestEvicted(t *testing.T) {
	nobody, somebody, some := `{"let_go":0,"nobody":true}`, `{"let_go":0}`, `{"let_go":1,"nobody":true}`
	for _, one := range []struct {
		bodies string
		want   error
		code   int
	}{
		{nobody + " " + nobody + " " + nobody, errNobody, 1},
		{nobody + " " + nobody + " -", errNobody, 1},
		{nobody + " - -", errSilent, 1},
		{"- - -", errSilent, 1},
		{nobody + " " + nobody + " " + somebody, nil, 0},
		{nobody + " " + some + " " + nobody, nil, 0},
		{nobody + " " + `{"let_go":0,"later":1,"nobody":true}` + " " + nobody, nil, 0},
		{somebody + " " + nobody + " -", errSilent, exitPartly},
	} {
		var replies []operator.Reply
		for voter, body := range strings.Fields(one.bodies) {
			r := operator.Reply{Voter: voter, Name: string(rune('a' + voter)), Body: []byte(body)}
			if body == "-" {
				r.Body, r.Err = nil, operator.ErrSilent
			}
			replies = append(replies, r)
		}
		err := evicted(replies, func(voters uint64) bool { return bits.OnesCount64(voters) > 1 })
		end := status{code: 1}
		if errors.As(err, &end); err == nil {
			end.code = 0
		}
		if !errors.Is(err, one.want) || end.code != one.code {
			t.Errorf("%s: %v, %d", one.bodies, err, end.code)
		}
	}
	for body, want := range map[string]string{nobody: "let_go=0 nobody=true", `{"let_go":0,"later":2}`: "let_go=0 later=2"} {
		if line, err := letGo(operator.Reply{Body: []byte(body)}); line != want || err != nil {
			t.Error(line, err)
		}
	}
}

// The line of a voter says whether it gives no votes yet.
func TestShown(t *testing.T) {
	line := "locks=1 busy=0 sessions=7 granted=2 runs=3s start=4 run=0 identity=01234567 plan=0"
	for more, want := range map[string]string{`"serves":true`: "", `"serves":false`: " serves=false",
		`"serves":false,"awaits":{"voters":"m0,m1","why":"too few"}`:             ` serves=false awaits=m0,m1 why="too few"`,
		`"serves":false,"awaits":{"voters":"m0","why":"may come","seconds":6.4}`: ` serves=false awaits=m0 why="may come" for=6s`,
		`"serves":true,"quiet_seconds":8.7`:                                      " quiet=9s"} {
		got, err := shown(operator.Reply{Body: []byte(`{"locks":1,"open":7,"granted":2,"runs_seconds":3.2,"start":4,` +
			`"identity":"0123456789",` + more + `}`)})
		if got != line+want || err != nil {
			t.Errorf("%s: %q, %v", more, got, err)
		}
	}
}

// Where no server is there, the error says so.
func TestNoServer(t *testing.T) {
	w := worlds.New(t, worlds.Majority, time.Second)
	w.Cluster.Servers = []string{"nats://127.0.0.1:1"}
	s := &settings{cluster: fileOf(t, w), timeout: 300 * time.Millisecond}
	said := statusCommand(context.Background(), s).RunE(nil, nil)
	if !errors.Is(said, errSilent) || !strings.Contains(said.Error(), "no server of NATS is there: dial tcp 127.0.0.1:1: connect: connection refused") {
		t.Error(said)
	}
	limit, cancel := context.WithTimeout(context.Background(), 300*time.Millisecond)
	defer cancel()
	if _, err := locks.Open(limit, s.client()); !errors.Is(err, locks.ErrNoQuorum) ||
		!strings.Contains(err.Error(), "no server of NATS is there: dial tcp 127.0.0.1:1: connect: connection refused") {
		t.Error(err)
	}
}

// The line of a reply to a step of an exchange says which plans there are. One with sessions says
// nothing.
func TestPlanned(t *testing.T) {
	for body, want := range map[string]string{`{"generation":2,"oldest":1}`: "plan=2 old=1", `[{"name":"x"}]`: ""} {
		if got, err := planned(operator.Reply{Body: []byte(body)}); got != want || err != nil {
			t.Errorf("%s: %q, %v", body, got, err)
		}
	}
}

// A lock is let go whoever has it. That nobody has it is said only if all voters say so.
func TestUnlock(t *testing.T) {
	w := worlds.New(t, worlds.Majority, 5*time.Second)
	s := &settings{}
	ask := func() error {
		ctx, cancel := context.WithTimeout(context.Background(), time.Second)
		defer cancel()
		return unlock(ctx, s, w.Cluster, w.Console(), "x")
	}
	if err := ask(); !errors.Is(err, errFree) {
		t.Error(err)
	}
	ctx, cancel := context.WithTimeout(context.Background(), 20*time.Second)
	defer cancel()
	client, err := locks.Open(ctx, locks.Config{Cluster: fileOf(t, w), Transport: w.Bus.Port()})
	if err != nil {
		t.Fatal(err)
	}
	held, err := client.Lock(ctx, "x")
	if err != nil {
		t.Fatal(err)
	}
	if err := ask(); err != nil {
		t.Error(err)
	}
	select {
	case <-held.Lost():
	case <-time.After(5 * time.Second):
		t.Error("a lock that was let go is held")
	}
	w.Stop(2)
	var got status
	brief, end := context.WithTimeout(ctx, time.Second)
	defer end()
	votes := map[int]uint64{0: 1, 1: 1, 2: 1}
	if err := letGoAll(brief, s, w.Cluster, w.Console(), "x", 0b111, votes); !errors.As(err, &got) ||
		got.code != exitPartly {
		t.Errorf("two of three let it go: %v", err)
	}
	w.Stop(1)
	if err := ask(); !errors.Is(err, errSilent) || errors.Is(err, errFree) || !strings.HasSuffix(err.Error(), "did not reply: b, c") {
		t.Error(err)
	}
}

// A name that no lock has is refused before anybody is asked.
func TestUnlockName(t *testing.T) {
	for _, name := range []string{"a b", ".", "", strings.Repeat("x", 65)} {
		root := command(context.Background())
		root.SetArgs([]string{"unlock", "--cluster", "/there/is/none", name})
		if err := root.Execute(); !errors.Is(err, locks.ErrName) {
			t.Errorf("%q: %v", name, err)
		}
	}
}

// `status --json` has all sessions and votes of each voter that replied, and a report all votes, each once.
func TestListsOfVoters(t *testing.T) {
	w := worlds.New(t, worlds.Majority, 5*time.Second)
	ctx, cancel := context.WithTimeout(context.Background(), 20*time.Second)
	defer cancel()
	client, err := locks.Open(ctx, locks.Config{Cluster: fileOf(t, w), Transport: w.Bus.Port(), Note: "nightly"})
	if err != nil {
		t.Fatal(err)
	}
	for n := 0; n < 3; n++ {
		if _, err := client.Lock(ctx, fmt.Sprint("x", n)); err != nil {
			t.Fatal(err)
		}
	}
	w.Stop(2)
	console, s := w.Console(), &settings{timeout: time.Second}
	short, end := context.WithTimeout(ctx, s.timeout)
	defer end()
	replies, err := console.Ask(short, "status", console.All()...)
	if err != nil {
		t.Fatal(err)
	}
	lists := make([]voter.Lists, len(replies))
	s.eachGood(ctx, replies, func(ctx context.Context, r *operator.Reply) error {
		if err := readList(ctx, console, "votes", r.Voter, &lists[r.Voter]); err != nil {
			return err
		}
		return addLists(ctx, console, r)
	})
	for _, r := range replies[:2] {
		if text := string(r.Body); r.Err != nil || strings.Count(text, `"lock":"x`) != len(lists[r.Voter].Votes) ||
			strings.Count(text, `"shard":0,"number"`) != 1 || !strings.Contains(text, "nightly") || !strings.Contains(text, `"serves":true`) {
			t.Errorf("%v: %s", r.Err, text)
		}
	}
	if votes := len(newReport(w.Cluster, replies, lists).Votes); votes == 0 || votes != len(lists[0].Votes)+len(lists[1].Votes) {
		t.Errorf("a report of %d votes", votes)
	}
	if err := verdict(replies, w.Cluster.HasQuorums); !strings.HasSuffix(err.Error(), "did not reply: c") {
		t.Error(err)
	}
}
