package operator

import (
	"errors"
	"fmt"
	"testing"

	"calvundek.example/service/internal/config"
	"calvundek.example/service/internal/wire"
	"calvundek.example/service/qlock"
)

// A reply is one of a voter of the cluster, whatever comes, and is a refusal only if it says why.
func FuzzReplies(f *testing.F) {
	coterie := "voters = [\"a\", \"b\"]\nquorums = [[\"a\", \"b\"]]\n"
	plan, err := qlock.FindPlan(coterie)
	if err != nil {
		f.Fatal(err)
	}
	cluster := &config.Cluster{ID: "test", Servers: []string{"none"}, Coterie: coterie, Plan: plan.Text, Planned: plan}
	h := wire.Header{Cluster: "test", Coterie: cluster.Marks()[0], Kind: wire.FromVoter, Number: 1, Name: "identity"}
	for _, body := range []string{"", "{}", "[]", "{\"error\":\"no\"}", "{\"error\":\"\"}", "{\"let_go\":1}",
		"{\"error\":1}", "{\"error\":"} {
		f.Add(append(h.Append(nil), body...))
	}
	h.Number = 2
	f.Add(append(h.Append(nil), "{}"...))
	f.Fuzz(func(t *testing.T, message []byte) {
		c := New(cluster, nil, "alice")
		h, body, err := wire.Read(message)
		if err != nil || !c.isOurs(h, fmt.Sprint(h.Number)) {
			return
		}
		if h.Number >= len(cluster.Names()) || h.Cluster != "test" || h.Kind != wire.FromVoter {
			t.Fatalf("%+v is a voter's", h)
		}
		if c.isOurs(h, fmt.Sprint(h.Number+1)) {
			t.Fatalf("%+v is of another voter", h)
		}
		r := c.reply(h.Number, body)
		if r.Voter != h.Number || r.Name != cluster.Names()[h.Number] || r.Err != nil && !errors.Is(r.Err,
			ErrRefused) && len(body) > 0 {
			t.Fatalf("%q: %+v", body, r)
		}
	})
}
