package voter

import (
	"fmt"
	"testing"
	"time"

	"calvundek.example/service/internal/bus"
	"calvundek.example/service/internal/voter/outbox"
	"calvundek.example/service/internal/wire"
	"calvundek.example/service/transport"
)

// moving is a transport that notes how old the server may be that is left.
type moving struct {
	*bus.Port
	ages []time.Duration
}

func (m *moving) Move(age time.Duration) { m.ages = append(m.ages, age) }

// A voter leaves the server of the broker that lets it hear no other voter for two TTLs, also if its own marker comes back. A voter that is
// alone hears nobody anywhere.
func TestVoterThatHearsNobodyMoves(t *testing.T) {
	port := &moving{Port: bus.New(1).Port()}
	d := pair(t)
	d.sender = outbox.NewSender(port)
	h := wire.Header{Cluster: d.cluster.ID, Coterie: d.mark, Kind: wire.FromVoter, Number: 1, Start: 1, Name: identity("one")}
	text := fmt.Sprintf("{\"word\":\"ended\",\"voter\":%q,\"ttl\":%q}\n", d.inUse[0].Names[1], d.cluster.TTL.String())
	now, most := time.Now(), 2*(d.cluster.TTL.Duration+tellAgain)
	d.hearPeer(transport.Message{Mailbox: wire.PeerBox(d.cluster.ID, 0, 1), Data: append(h.Append(nil), text...)}, now)
	if d.look(now.Add(most)); len(port.ages) > 0 {
		t.Fatal("it moves early")
	}
	if d.look(now.Add(most + 1)); len(port.ages) != 1 || port.ages[0] != most {
		t.Error(port.ages)
	}
	d.store.meta.Voter, d.inUse = 0, nil
	if d.look(now.Add(time.Hour)); len(port.ages) != 1 {
		t.Error("a voter that is alone moves")
	}
}
