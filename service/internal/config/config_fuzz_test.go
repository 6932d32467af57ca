package config

import (
	"fmt"
	"os"
	"path/filepath"
	"reflect"
	"strings"
	"testing"

	"calvundek.example/service/qlock"
)

const majority = "voters = [\"a\", \"b\", \"c\"]\nquorums = [[\"a\", \"b\"], [\"a\", \"c\"], [\"b\", \"c\"]]\n"

// clusterText returns the text of a cluster's file.
func clusterText(f *testing.F, change func(c *Cluster)) string {
	f.Helper()
	plan, err := qlock.FindPlan(majority)
	if err != nil {
		f.Fatal(err)
	}
	c := &Cluster{ID: "prod", Servers: []string{"tls://m0:4222"}, CA: "/etc/qlock/ca.pem", Coterie: majority,
		Plan: plan.Text}
	if err := c.TTL.UnmarshalText([]byte("10s")); err != nil {
		f.Fatal(err)
	}
	change(c)
	text, err := c.Text()
	if err != nil {
		f.Fatal(err)
	}
	return string(text)
}

// A cluster's file that is accepted has a name, servers and a plan that is checked. It reads the
// same once it is written again.
func FuzzReadCluster(f *testing.F) {
	f.Add(clusterText(f, func(*Cluster) {}))
	f.Add(clusterText(f, func(c *Cluster) { c.Generation, c.OldCoterie, c.OldPlan = 1, c.Coterie, c.Plan }))
	f.Add(clusterText(f, func(c *Cluster) { c.Plan = strings.Replace(c.Plan, "1", "2", 1) }))
	f.Add(clusterText(f, func(c *Cluster) { c.ID = "a b" }) + "unknown = 1\n")
	path, again := filepath.Join(f.TempDir(), "cluster.toml"), filepath.Join(f.TempDir(), "again.toml")
	f.Fuzz(func(t *testing.T, text string) {
		c := readCluster(t, path, []byte(text))
		if c == nil {
			return
		}
		if c.ID == "" || len(c.Servers) == 0 || c.TTL.Duration <= 0 || c.Planned == nil ||
			c.Number(c.Names()[0]) != 0 || c.Number("") != -1 {
			t.Fatalf("%+v", c)
		}
		if all := uint64(1)<<len(c.Names()) - 1; !c.HasQuorums(all) || !c.HasAny(all) || c.HasAny(0) {
			t.Fatalf("%+v", c)
		}
		written, err := c.Text()
		if err != nil {
			t.Fatal(err)
		}
		same := readCluster(t, again, written)
		if same == nil {
			t.Fatalf("%s is refused once it is written again", written)
		}
		c.Planned, c.OldPlanned, same.Planned, same.OldPlanned = nil, nil, nil, nil
		if !reflect.DeepEqual(c, same) || !reflect.DeepEqual(marksOf(c), marksOf(same)) {
			t.Fatalf("%+v, not %+v", same, c)
		}
	})
}

func marksOf(c *Cluster) []string {
	return []string{Mark(c.Generation, c.Coterie), Mark(c.Generation, c.OldCoterie)}
}

// readCluster returns the cluster of a text, nil if it is refused.
func readCluster(t *testing.T, path string, text []byte) *Cluster {
	t.Helper()
	if err := os.WriteFile(path, text, 0o644); err != nil {
		t.Fatal(err)
	}
	c, err := ReadCluster(path)
	if err != nil {
		return nil
	}
	return c
}

// A voter's file that is accepted names a voter of the cluster and a folder, and its times and
// bounds are possible.
func FuzzReadVoter(f *testing.F) {
	folder := f.TempDir()
	cluster, path := filepath.Join(folder, "cluster.toml"), filepath.Join(folder, "voter.toml")
	if err := os.WriteFile(cluster, []byte(clusterText(f, func(*Cluster) {})), 0o644); err != nil {
		f.Fatal(err)
	}
	for _, text := range []string{"voter = \"a\"\ndata = \"/x\"\n", "voter = \"d\"\ndata = \"/x\"\n",
		"voter = \"c\"\ndata = \"/x\"\nlost = 3\nlisten = \"127.0.0.1:9403\"\nmax_locks = 7\n" +
			"remind_first = \"1s\"\nremind_most = \"2s\"\n",
		"voter = \"b\"\ndata = \"/x\"\nuser = \"u\"\nsecret = \"/s\"\ncert = \"/c\"\nkey = \"/k\"\n",
		"max_locks = -1\n", "voter = \"b\"\ndata = \"/x\"\nmax_locks_user = 2\n"} {
		f.Add(text)
	}
	f.Fuzz(func(t *testing.T, text string) {
		if err := os.WriteFile(path, []byte(fmt.Sprintf("cluster = %q\n%s", cluster, text)), 0o644); err != nil {
			t.Fatal(err)
		}
		v, c, err := ReadVoter(path)
		if err != nil {
			return
		}
		if c.Number(v.Voter) < 0 || v.Data == "" || v.MaxLocks < 1 || v.LocksOfUser() < 1 || v.First.Duration <= 0 ||
			v.Most.Duration < v.First.Duration {
			t.Fatalf("%+v", v)
		}
	})
}
