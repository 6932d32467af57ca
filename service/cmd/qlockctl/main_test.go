package main

import (
	"context"
	"errors"
	"strings"
	"testing"
	"time"

	"calvundek.example/service/internal/config"
	"calvundek.example/service/transport"
	"github.com/spf13/cobra"
)

// What is not given by a flag is in the environment, for each command.
func TestEnvironment(t *testing.T) {
	t.Setenv("QLOCK_CLUSTER", "/there/is/none")
	t.Setenv("QLOCK_TIMEOUT", "7s")
	t.Setenv("QLOCK_USER", "jobs")
	execute := func(words ...string) error {
		root := command(context.Background())
		root.SetArgs(words)
		return root.Execute()
	}
	for _, words := range [][]string{{"status"}, {"run", "l", "true"}} {
		if err := execute(words...); !errors.Is(err, config.ErrConfig) || !strings.Contains(err.Error(), "/there/is/none") {
			t.Errorf("%s: %v", words[0], err)
		}
	}
	if err := execute("status", "-c", "/nor/this"); err == nil || !strings.Contains(err.Error(), "/nor/this") {
		t.Errorf("a flag goes before the environment: %v", err)
	}
	var read *cobra.Command
	for _, one := range command(context.Background()).Commands() {
		if one.Name() == "run" {
			read = one
		}
	}
	if err := read.ParseFlags([]string{"--timeout", "2s"}); err != nil {
		t.Fatal(err)
	}
	if err := readEnvironment(read); err != nil {
		t.Fatal(err)
	}
	user, _ := read.Flags().GetString("user")
	if timeout, _ := read.Flags().GetDuration("timeout"); timeout != 2*time.Second || user != "jobs" {
		t.Error(timeout, user)
	}
	t.Setenv("QLOCK_TIMEOUT", "soon")
	if err := execute("status"); !errors.Is(err, config.ErrConfig) || !strings.Contains(err.Error(), "timeout") {
		t.Error(err)
	}
	t.Setenv("QLOCK_TIMEOUT", "")
	t.Setenv("QLOCK_CLUSTR", "slip")
	var end status
	if err := execute("run", "l", "true"); !errors.As(err, &end) || end.code != exitSettings {
		t.Error(err)
	}
}

// Who watches for long looks seldom whether its user is refused, and hears of it.
func TestAwaitRefusal(t *testing.T) {
	brief, cancel := context.WithTimeout(context.Background(), 300*time.Millisecond)
	defer cancel()
	looks := 0
	if awaitRefusal(brief, func() error { looks++; return nil }); looks > 6 || brief.Err() == nil {
		t.Errorf("%d looks in 300 ms: %v", looks, brief.Err())
	}
	looks = 0
	awaitRefusal(context.Background(), func() error {
		if looks++; looks < 4 {
			return nil
		}
		return transport.ErrRefused
	})
	if looks != 4 {
		t.Errorf("%d looks until a refusal", looks)
	}
}
