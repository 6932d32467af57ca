package main

import (
	"context"
	"errors"
	"fmt"
	"net/http"
	"os"
	"path/filepath"
	"strings"
	"testing"
	"time"

	"calvundek.example/service/agent"
	"calvundek.example/service/internal/config"
	"calvundek.example/service/internal/local"
	"calvundek.example/service/internal/worlds"
)

// execute runs a command until the context ends.
func execute(ctx context.Context, words ...string) error {
	root := command(ctx)
	root.SetArgs(words)
	return root.Execute()
}

// files writes the files of an agent.
func files(t *testing.T, more string) (path, socket string) {
	t.Helper()
	folder := t.TempDir()
	text, err := worlds.NewCluster(t, worlds.Majority, time.Second).Text()
	if err != nil {
		t.Fatal(err)
	}
	cluster := filepath.Join(folder, "cluster.toml")
	// no server listens there
	text = []byte(strings.Replace(string(text), `"none"`, `"nats://127.0.0.1:1"`, 1))
	if err := os.WriteFile(cluster, text, 0o600); err != nil {
		t.Fatal(err)
	}
	path, socket = filepath.Join(folder, "qlockd.toml"), filepath.Join(folder, "q.sock")
	text = []byte(fmt.Sprintf("cluster = %q\nsocket = %q\nlog = \"error\"\n%s", cluster, socket, more))
	if err := os.WriteFile(path, text, 0o600); err != nil {
		t.Fatal(err)
	}
	return path, socket
}

// Settings that can't be used end the agent with the status that no restart helps.
func TestSettings(t *testing.T) {
	path, _ := files(t, "")
	for what, words := range map[string][]string{
		"no file":        {"start", "-c", path + ".none"},
		"an unknown key": {"start", "-c", first(files(t, "data = \"/x\"\n"))},
		"no such group":  {"start", "-c", first(files(t, "group = \"there-is-none\"\n"))},
		"a bad user":     {"start", "-c", first(files(t, "user = \"a b\"\n"))},
	} {
		if err := execute(context.Background(), words...); exitStatus(err) != exitHopeless || !errors.Is(err, config.ErrConfig) {
			t.Errorf("%s: %v", what, err)
		}
	}
	t.Setenv("QLOCK_SOCKT", "/x")
	if err := execute(context.Background(), "start", "-c", path); exitStatus(err) != exitHopeless {
		t.Error(err)
	}
	if exitStatus(os.ErrPermission) != 1 {
		t.Error("another start may help")
	}
}

func first(one, _ string) string { return one }

// The agent answers before it has a session, and ends after a signal. A setting of the environment goes before the file.
func TestStart(t *testing.T) {
	path, socket := files(t, "")
	other := socket + "2"
	t.Setenv("QLOCK_SOCKET", other)
	ports, err := local.FreePorts(1)
	if err != nil {
		t.Fatal(err)
	}
	address := fmt.Sprint("127.0.0.1:", ports[0])
	t.Setenv("QLOCK_LISTEN", address)
	ctx, cancel := context.WithCancel(context.Background())
	ended := make(chan error, 1)
	go func() { ended <- execute(ctx, "start", "-c", path) }()
	for end := time.Now().Add(20 * time.Second); time.Now().Before(end); time.Sleep(10 * time.Millisecond) {
		wait, done := context.WithTimeout(context.Background(), 100*time.Millisecond)
		_, err = agent.New(other).Lock(wait, "x")
		done()
		if fault := (&agent.Fault{}); errors.As(err, &fault) {
			break
		}
	}
	if !errors.Is(err, agent.ErrUnreachable) || !strings.Contains(err.Error(), "has no session") {
		t.Error(err)
	}
	reply, err := http.Get("http://" + address + "/healthz")
	if err != nil || reply.StatusCode != http.StatusGatewayTimeout {
		t.Error(reply, err)
	}
	cancel()
	if err := <-ended; err != nil {
		t.Error(err)
	}
}

// The unit starts no agent again that no restart helps, waits until it listens, and keeps the socket's folder.
func TestUnit(t *testing.T) {
	unit, err := os.ReadFile("../../systemd/qlockd.service")
	if err != nil {
		t.Fatal(err)
	}
	for _, line := range []string{fmt.Sprintf("RestartPreventExitStatus=%d", exitHopeless), "Type=notify",
		"RuntimeDirectory=" + filepath.Base(filepath.Dir(config.AgentSocket)), "RuntimeDirectoryPreserve=yes",
		"ExecStart=/usr/bin/qlockd start -c " + config.AgentFile} {
		if !strings.Contains(string(unit), "\n"+line+"\n") {
			t.Errorf("there is no %s", line)
		}
	}
}
