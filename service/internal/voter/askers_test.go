package voter

import (
	"fmt"
	"math/rand"
	"testing"
	"time"

	"calvundek.example/service/internal/moment"
	"calvundek.example/service/qlock"
)

// asked has the requests of a vote by their clients, and who has the vote.
type asked struct {
	all  map[int]ask
	held qlock.Grant
}

// is fails unless these are the requests of a vote.
func (a *asked) is(t *testing.T, v *vote, users []*usage) {
	t.Helper()
	count, waiting := 0, len(a.all)
	if a.held.Number > 0 {
		waiting--
	}
	v.asks(func(one ask) {
		if count++; one != a.all[one.client] {
			t.Fatalf("%+v is not %+v", one, a.all[one.client])
		}
	})
	for client := 0; client < 6; client++ {
		if one := v.ask(client); one != a.all[client] || v.isHolder(client) != (a.held.Number > 0 && a.held.Client == uint64(client)) {
			t.Fatalf("%d: %+v is not %+v, had by %+v", client, one, a.all[client], v.held())
		}
	}
	for _, user := range users {
		is := false
		for _, one := range a.all {
			is = is || one.user == user
		}
		if v.isOf(user) != is {
			t.Fatalf("%+v has a request: %v", user, !is)
		}
	}
	if count != len(a.all) || v.held() != a.held || v.isBusy() != (len(a.all) > 0) || v.isWanted() != (waiting > 0) {
		t.Fatalf("%d of %d requests, had by %+v, busy %v, wanted %v", count, len(a.all), v.held(), v.isBusy(), v.isWanted())
	}
}

// Whoever asks for a vote, gives it back, waits on, or leaves, and whoever gets it: of each client that asks the request is known, and nobody
// else's.
func TestRequestsOfAVote(t *testing.T) {
	random, users := rand.New(rand.NewSource(1)), []*usage{{user: "jobs"}, {user: "web"}, nil}
	for world := 0; world < 300; world++ {
		v, a := &vote{}, asked{all: map[int]ask{}}
		for step := 1; step < 100; step++ {
			client, now := random.Intn(6), time.Unix(int64(step), 0)
			one, is := a.all[client]
			switch what := random.Intn(4); {
			case !is:
				one = ask{client: client, stamp: uint64(step), since: moment.Of(now), user: users[random.Intn(3)]}
				v.addAsk(one)
				a.all[client] = one
			case what == 0:
				v.removeAsk(client)
				delete(a.all, client)
			case what == 1:
				one.note = fmt.Sprint("note ", step)
				v.noteOn(client, one.note)
				a.all[client] = one
			}
			if _, is := a.all[int(a.held.Client)]; random.Intn(3) == 0 || !is {
				a.held = qlock.Grant{}
				if one, is := a.all[random.Intn(6)]; is {
					a.held = qlock.Grant{Client: uint64(one.client), Stamp: one.stamp, Number: uint64(step)}
				}
				v.goesTo(a.held, now)
			}
			a.is(t, v, users)
		}
	}
}

// The requests of a vote are found by their clients, and each of a user counts.
func TestAskers(t *testing.T) {
	var a askers
	one, other := &usage{}, &usage{}
	for client := 0; client < 5; client++ {
		a.add(ask{client: client, stamp: uint64(10 + client), user: one})
	}
	a.of(3).user = other
	a.remove(1)
	a.remove(17)
	a.remove(4)
	for client, want := range []uint64{10, 0, 12, 13, 0} {
		if found := a.of(client); (found != nil) != (want > 0) || found != nil && found.stamp != want {
			t.Errorf("%d: %+v", client, found)
		}
	}
	if a.remove(3); a.areOf(other) || !a.areOf(one) || a.areOf(nil) || len(a) != 2 {
		t.Errorf("%+v", a)
	}
}
