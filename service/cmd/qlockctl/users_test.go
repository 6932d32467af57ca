package main

import (
	"context"
	"errors"
	"fmt"
	"os"
	"os/exec"
	"path/filepath"
	"strings"
	"testing"
	"time"

	"calvundek.example/service/internal/config"
	"calvundek.example/service/internal/local"
	"calvundek.example/service/internal/users"
	"calvundek.example/service/internal/worlds"
	"github.com/nats-io/nats.go"
)

var list = users.List{Clients: []string{"jobs", "web"}, Operators: []string{"alice"}, Readers: []string{"bob"}}

// A server with the block that is printed lets each user do what it needs, and nothing in the place of another one.
func TestUsers(t *testing.T) {
	folder := t.TempDir()
	text, err := block(worlds.NewCluster(t, worlds.Majority, time.Second), list, folder)
	if err != nil {
		t.Fatal(err)
	}
	address := serve(t, text)
	for _, one := range []struct{ user, publish, subscribe, notPublish, notSubscribe string }{
		{"voter-1", "c.jobs.s.1 p.0.1 v.1.1 o.alice.q.1 read.0.1", "v.1.* p.1.* read.1.* write.1.* o.1.q.*",
			"c.jobs.s.0 v.0.1 v.1.jobs p.0.2 p.1.0 o.alice.q.0 read.0.2 read.0.alice write.0.1 write.0.alice",
			"v.0.* v.> p.0.* read.0.* write.0.* o.2.q.* o.alice.q.* c.> >"},
		{"jobs", "v.0.jobs v.2.jobs", "c.jobs.s.* c.jobs.>", "v.0.web v.0.0 v.0 c.jobs.s.0 p.0.1 read.0.jobs write.0.jobs write.0.alice o.alice.q.0",
			"c.web.s.* c.*.*.* v.0.jobs o.jobs.q.* o.alice.q.* p.0.* >"},
		{"alice", "read.0.alice write.2.alice", "o.alice.q.*", "v.0.alice v.0.jobs p.0.1 read.0.bob write.0.bob o.alice.q.0 c.jobs.s.0",
			"read.0.* write.0.alice c.jobs.s.0 v.0.* o.bob.q.* >"},
		{"bob", "read.0.bob read.2.bob", "o.bob.q.*", "write.0.bob write.0.alice read.0.alice", "o.alice.q.* o.*.*.* >"},
	} {
		seed, err := nats.NkeyOptionFromSeed(filepath.Join(folder, one.user+".nk"))
		if err != nil {
			t.Fatal(err)
		}
		link := dial(t, address, seed)
		publish := func(subject string) error { return link.Publish(subject, nil) }
		subscribe := func(subject string) error { _, err := link.SubscribeSync(subject); return err }
		for _, tried := range []struct {
			subjects string
			try      func(subject string) error
			may      bool
		}{{one.publish, publish, true}, {one.subscribe, subscribe, true}, {one.notPublish, publish, false},
			{one.notSubscribe, subscribe, false}} {
			for _, subject := range strings.Fields(tried.subjects) {
				if subject != ">" {
					subject = "qlock.test." + subject
				}
				if may := isAllowed(t, link, subject, tried.try); may != tried.may {
					t.Errorf("%s: %s: %v", one.user, subject, may)
				}
			}
		}
	}
	if _, err := nats.Connect(address); err == nil {
		t.Error("nobody is connected, too")
	}
}

// A user that the server refuses, or that may take no locks, is told so at once, in a line that says what to do.
func TestRefusedUser(t *testing.T) {
	folder, other := t.TempDir(), t.TempDir()
	cluster := worlds.NewCluster(t, worlds.Majority, time.Second)
	text, err := block(cluster, list, folder)
	if err != nil {
		t.Fatal(err)
	}
	if _, err := block(cluster, list, other); err != nil { // other seeds of the same users
		t.Fatal(err)
	}
	cluster.Servers = []string{serve(t, text)}
	file := fileOf(t, &worlds.World{Cluster: cluster})
	for _, one := range []struct {
		user, seed, words, says string
		code                    int
	}{
		{"jobs", other + "/jobs.nk", "run --wait 60s x true", "authorization violation", exitSettings},
		{"wrong", folder + "/jobs.nk", "run --wait 60s x true", `"qlock.test.c.wrong.`, exitSettings},
		{"alice", folder + "/alice.nk", "run --wait 60s x true", "qlockctl users --user NAME", exitSettings},
		{"alice", folder + "/alice.nk", "who --timeout 60s x", "qlockctl report", 1},
		{"bob", folder + "/bob.nk", "list --timeout 60s", "qlockctl report", 1},
	} {
		began := time.Now()
		command := command(context.Background())
		name, more, _ := strings.Cut(one.words, " ")
		command.SetArgs(append([]string{name, "-c", file, "--user", one.user, "--seed", one.seed}, strings.Fields(more)...))
		err := command.Execute()
		end := status{code: 1}
		_ = errors.As(err, &end)
		if err == nil || end.code != one.code || !strings.Contains(err.Error(), "the server of NATS refuses the user") ||
			!strings.Contains(strings.ToLower(err.Error()), strings.ToLower(one.says)) || strings.Contains(err.Error(), "\n") {
			t.Errorf("%s %s: %v, %d", one.user, one.words, err, end.code)
		}
		if took := time.Since(began); took > 30*time.Second {
			t.Errorf("%s %s: after %v", one.user, one.words, took)
		}
	}
}

// serve starts a server of NATS with a part of its file.
func serve(t *testing.T, text string) (address string) {
	t.Helper()
	server, err := local.NATSServer()
	if err != nil {
		t.Skip("apt-get install nats-server")
	}
	ports, err := local.FreePorts(1)
	if err != nil {
		t.Fatal(err)
	}
	file := filepath.Join(t.TempDir(), "nats.conf")
	if err := os.WriteFile(file, []byte(fmt.Sprintf("listen: \"127.0.0.1:%d\"\n%s", ports[0], text)), 0o600); err != nil {
		t.Fatal(err)
	}
	run := exec.Command(server, "-c", file)
	if err := run.Start(); err != nil {
		t.Fatal(err)
	}
	t.Cleanup(func() { _ = run.Process.Kill(); _ = run.Wait() })
	return fmt.Sprintf("nats://127.0.0.1:%d", ports[0])
}

// dial connects to a server that starts.
func dial(t *testing.T, address string, who nats.Option) *nats.Conn {
	t.Helper()
	for end := time.Now().Add(10 * time.Second); ; time.Sleep(50 * time.Millisecond) {
		link, err := nats.Connect(address, who, nats.ErrorHandler(func(*nats.Conn, *nats.Subscription, error) {}))
		if err == nil {
			t.Cleanup(link.Close)
			return link
		}
		if time.Now().After(end) {
			t.Fatal(err)
		}
	}
}

// isAllowed returns whether a server lets a connection do something with a subject.
func isAllowed(t *testing.T, link *nats.Conn, subject string, try func(subject string) error) bool {
	t.Helper()
	if err := try(subject); err != nil {
		t.Fatal(err)
	}
	if err := link.FlushTimeout(5 * time.Second); err != nil {
		t.Fatal(err)
	}
	err := link.LastError()
	return err == nil || !strings.Contains(err.Error(), fmt.Sprintf("%q", subject))
}

// A seed that is there stays, and is for its user alone to read. A file that is none is refused, and stays too.
func TestSeeds(t *testing.T) {
	folder, cluster := t.TempDir(), worlds.NewCluster(t, worlds.Majority, time.Second)
	first, err := block(cluster, users.List{}, folder)
	if err != nil {
		t.Fatal(err)
	}
	second, err := block(cluster, list, folder)
	if err != nil || !strings.HasPrefix(second, strings.TrimSuffix(first, "] }\n")) {
		t.Errorf("%v: other seeds:\n%s%s", err, first, second)
	}
	made, _ := filepath.Glob(filepath.Join(folder, "*"))
	if want := len(cluster.Names()) + 4; len(made) != want {
		t.Errorf("%d seeds, not %d", len(made), want)
	}
	for _, path := range made {
		if info, err := os.Stat(path); err != nil || info.Mode().Perm() != 0o600 {
			t.Error(path, info.Mode(), err)
		}
	}
	junk := filepath.Join(folder, "junk.nk")
	if err := os.WriteFile(junk, []byte("junk"), 0o600); err != nil {
		t.Fatal(err)
	}
	_, err = block(cluster, users.List{Clients: []string{"junk"}}, folder)
	if text, _ := os.ReadFile(junk); err == nil || string(text) != "junk" {
		t.Errorf("%v: %q", err, text)
	}
}

// Without seeds there are places for passwords. What names no user, or two, is refused.
func TestUserNames(t *testing.T) {
	cluster := worlds.NewCluster(t, worlds.Majority, time.Second)
	text, err := block(cluster, list, "")
	if err != nil || strings.Count(text, `password: "..."`) != 7 || !strings.Contains(text, "user: voter-2,") {
		t.Error(text, err)
	}
	for _, name := range []string{"", "*", ">", "a.b", "-", "0", "a b", "voter-1", "jobs"} {
		_, err := block(cluster, users.List{Clients: []string{"jobs"}, Operators: []string{name}}, t.TempDir())
		if !errors.Is(err, config.ErrConfig) {
			t.Errorf("%q: %v", name, err)
		}
	}
}
