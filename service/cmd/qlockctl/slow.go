package main

import (
	"context"
	"encoding/json"
	"fmt"

	"calvundek.example/service/internal/config"
	"calvundek.example/service/internal/operator"
	"calvundek.example/service/internal/voter"
	"calvundek.example/service/internal/wire"
	"calvundek.example/service/transport"
)

// slowVoters returns which voters are there and give nobody new their vote yet, and why, as the end of a message. Where
// a cluster has users those that take locks may not ask that: it is "" then.
func slowVoters(cluster *config.Cluster, link transport.Transport, access config.Access) (text string) {
	if name, err := access.Speaker(); err != nil || name != wire.NoUser {
		return ""
	}
	ctx, cancel := context.WithTimeout(context.Background(), asksWho)
	defer cancel()
	console := operator.New(cluster, link, wire.NoUser)
	replies, err := console.Ask(ctx, "status", console.All()...)
	if err != nil {
		return ""
	}
	for _, r := range replies {
		var one voter.Status
		if r.Err != nil || json.Unmarshal(r.Body, &one) != nil {
			continue
		}
		if why := whySlow(one); why != "" {
			text += fmt.Sprintf("; %s %s", r.Name, why)
		}
	}
	return text
}

// whySlow returns why a voter gives nobody new its vote yet, "" if it does.
func whySlow(one voter.Status) string {
	switch {
	case one.Awaits != nil && one.Awaits.Seconds > 0:
		left := seconds(one.Awaits.Seconds)
		return fmt.Sprintf("waits for %s, for %s at most: %s", one.Awaits.Voters, left, one.Awaits.Why)
	case one.Awaits != nil:
		return fmt.Sprintf("waits for %s: %s", one.Awaits.Voters, one.Awaits.Why)
	case one.Quiet > 0:
		return fmt.Sprintf("is quiet for %s", seconds(one.Quiet))
	}
	return ""
}
