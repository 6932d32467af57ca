package config

import (
	"errors"
	"os"
	"path/filepath"
	"strings"
	"testing"
	"time"

	"calvundek.example/service/qlock"
)

const coterie = "voters = [\"a\", \"b\"]\nquorums = [[\"a\", \"b\"]]\n"

// file writes a file of a cluster, with one thing changed.
func file(t *testing.T, old, now string) string {
	t.Helper()
	plan, err := qlock.FindPlan(coterie)
	if err != nil {
		t.Fatal(err)
	}
	text := "id = \"prod\"\nservers = [\"nats://n1\"]\nttl = \"3s\"\ncoterie = '''\n" + coterie + "'''\nplan = '''\n" + plan.Text + "'''\n"
	if !strings.Contains(text, old) {
		t.Fatal(old)
	}
	path := filepath.Join(t.TempDir(), "cluster.toml")
	if err := os.WriteFile(path, []byte(strings.Replace(text, old, now, 1)), 0o600); err != nil {
		t.Fatal(err)
	}
	return path
}

// A cluster's file is read with its plan, and a file that is wrong in one thing is refused.
func TestClusterFile(t *testing.T) {
	c, err := ReadCluster(file(t, "", ""))
	if err != nil || c.TTL.Duration != 3*time.Second || len(c.Planned.Names) != 2 {
		t.Fatal(c, err)
	}
	for what, change := range map[string][2]string{
		"an unknown key":            {"id =", "colour = \"red\"\nid ="},
		"a name with a dot":         {"prod", "pr.od"},
		"no servers":                {"\"nats://n1\"", ""},
		"no time":                   {"3s", "soon"},
		"a short TTL":               {"3s", "1ms"},
		"another plan":              {"load 1/1", "load 1/2"},
		"a coterie that is another": {"[\"a\", \"b\"]]", "[\"a\"]]"},
	} {
		if _, err := ReadCluster(file(t, change[0], change[1])); !errors.Is(err, ErrConfig) {
			t.Errorf("%s: %v", what, err)
		}
	}
	if _, err := ReadCluster("/there/is/none"); !errors.Is(err, ErrConfig) {
		t.Error(err)
	}
}

func TestVoterFile(t *testing.T) {
	cluster := file(t, "", "")
	read := func(text string) error {
		path := filepath.Join(t.TempDir(), "voter.toml")
		if err := os.WriteFile(path, []byte("cluster = \""+cluster+"\"\n"+text), 0o600); err != nil {
			t.Fatal(err)
		}
		_, _, err := ReadVoter(path)
		return err
	}
	if err := read("voter = \"b\"\ndata = \"d\"\nuser = \"u\"\nsecret = \"s\"\nlog = \"error\"\n"); err != nil {
		t.Error(err)
	}
	for what, text := range map[string]string{
		"no such voter":         "voter = \"c\"\ndata = \"d\"\n",
		"no folder":             "voter = \"b\"\n",
		"an unknown key":        "voter = \"b\"\ndata = \"d\"\nuser_name = \"u\"\n",
		"no such level":         "voter = \"b\"\ndata = \"d\"\nlog = \"loud\"\n",
		"no locks":              "voter = \"b\"\ndata = \"d\"\nmax_locks = 0\n",
		"fewer than no locks":   "voter = \"b\"\ndata = \"d\"\nmax_locks_user = -1\n",
		"reminders that shrink": "voter = \"b\"\ndata = \"d\"\nremind_first = \"10s\"\n",
	} {
		if err := read(text); !errors.Is(err, ErrConfig) {
			t.Errorf("%s: %v", what, err)
		}
	}
}

func TestHashAndNonce(t *testing.T) {
	if Hash(coterie) == Hash(coterie+" ") || len(Hash("")) != 12 {
		t.Error("hashes")
	}
	a, err := Nonce()
	if err != nil {
		t.Fatal(err)
	}
	if b, err := Nonce(); err != nil || a == b || len(a) != 32 {
		t.Error(a, b, err)
	}
}

// Two quorums that do not meet are named.
func TestNoBridge(t *testing.T) {
	find := func(coterie string) *qlock.Plan {
		t.Helper()
		plan, err := qlock.FindPlan(coterie)
		if err != nil {
			t.Fatal(err)
		}
		return plan
	}
	old, now := find(coterie), find("voters = [\"a\", \"b\", \"c\", \"d\"]\nquorums = [[\"c\", \"d\"]]\n")
	err := CheckExchange(old, now)
	if !errors.Is(err, ErrBridge) || !strings.HasSuffix(err.Error(), ": a b of the old one, and c d of the new one") {
		t.Error(err)
	}
	if err := CheckExchange(old, old); err != nil {
		t.Error(err)
	}
}
