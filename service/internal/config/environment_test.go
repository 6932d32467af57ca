package config

import (
	"errors"
	"os"
	"path/filepath"
	"strings"
	"testing"
	"time"

	"calvundek.example/service/internal/event"
)

// in goes to a new folder until the test ends.
func in(t *testing.T) string {
	t.Helper()
	before, err := os.Getwd()
	if err != nil {
		t.Fatal(err)
	}
	folder := t.TempDir()
	if err := os.Chdir(folder); err != nil {
		t.Fatal(err)
	}
	t.Cleanup(func() { _ = os.Chdir(before) })
	return folder
}

// All settings of a voter may be in the environment, without a file, and go before those of a file.
func TestEnvironment(t *testing.T) {
	cluster := file(t, "", "")
	folder := in(t)
	if _, _, err := ReadVoter(""); !errors.Is(err, ErrConfig) || !strings.Contains(err.Error(), "there is no voter.toml") {
		t.Error(err)
	}
	for name, value := range map[string]string{"CLUSTER": cluster, "VOTER": "b", "DATA": "d", "LISTEN": ":1",
		"MAX_LOCKS": "7", "MAX_LOCKS_USER": "3", "REMIND_FIRST": "1s", "REMIND_MOST": "2s", "USER": "u", "SECRET": "s", "SEED": "n",
		"CREDS": "j", "CERT": "c", "KEY": "k", "LOG": "warning"} {
		t.Setenv("QLOCK_"+name, value)
	}
	want := Voter{Cluster: cluster, Voter: "b", Data: "d", Listen: ":1", MaxLocks: 7, MaxLocksUser: 3,
		First: Duration{time.Second}, Most: Duration{2 * time.Second}, Log: event.Warning,
		Access: Access{User: "u", Secret: "s", Seed: "n", Creds: "j", Cert: "c", Key: "k"}}
	if v, _, err := ReadVoter(""); err != nil || *v != want {
		t.Errorf("%+v, %v", v, err)
	}
	path := filepath.Join(folder, "voter.toml")
	text := "cluster = \"no\"\nvoter = \"a\"\ndata = \"other\"\nmax_locks = 9\n"
	if err := os.WriteFile(path, []byte(text), 0o600); err != nil {
		t.Fatal(err)
	}
	t.Setenv("QLOCK_DATA", "") // as if it were not there
	want.Data = "other"
	for _, path := range []string{"", path} {
		if v, _, err := ReadVoter(path); err != nil || *v != want {
			t.Errorf("%q: %+v, %v", path, v, err)
		}
	}
	if _, _, err := ReadVoter(path + ".none"); !errors.Is(err, ErrConfig) {
		t.Errorf("a file that is named and not there: %v", err)
	}
	for name, value := range map[string]string{"MAX_LOCKS": "many", "REMIND_MOST": "5", "LOG": "loud"} {
		before := os.Getenv("QLOCK_" + name)
		t.Setenv("QLOCK_"+name, value)
		if _, _, err := ReadVoter(""); !errors.Is(err, ErrConfig) || !strings.Contains(err.Error(), "QLOCK_"+name) {
			t.Errorf("%s=%s: %v", name, value, err)
		}
		t.Setenv("QLOCK_"+name, before)
	}
}

// A variable that is no setting is named, unless Kubernetes made it of a service's name.
func TestUnknownVariables(t *testing.T) {
	for name, isKnown := range map[string]bool{"QLOCK_DATA": true, "QLOCK_TIMEOUT": true, "QLOCK_PASS": true,
		"QLOCK_VOTER_SERVICE_HOST": true, "QLOCK_VOTER_PORT_9403_TCP_ADDR": true, "QLOCK_PORT": true,
		"QLOCK_SERVICE_PORT_METRICS": true, "QLOCK_DATE": false, "QLOCK_MAXLOCKS": false, "QLOCK_SUPPORT": false} {
		t.Run(name, func(t *testing.T) {
			t.Setenv(name, "x")
			err := CheckEnvironment()
			if isKnown != (err == nil) || err != nil && (!errors.Is(err, ErrConfig) || !strings.Contains(err.Error(), name)) {
				t.Error(err)
			}
		})
	}
}
