package voter

import (
	"calvundek.example/service/internal/moment"
)

// ask is a request that has the vote or waits for it. The zero ask is none.
type ask struct {
	client int
	stamp  uint64
	since  moment.Moment
	user   *usage // whose it is, nil if it is of an earlier session of its number, or of no user
	note   string // what its client says of it
}

// askers are requests that have a vote or wait for it, one of a client.
type askers []ask

// of returns the request of a client, nil if there is none. It counts until askers change.
func (a askers) of(client int) *ask {
	for i := range a {
		if a[i].client == client {
			return &a[i]
		}
	}
	return nil
}

// add adds the request of a client that has none.
func (a *askers) add(one ask) { *a = append(*a, one) }

// remove takes the request of a client out, if there is one.
func (a *askers) remove(client int) {
	for i, one := range *a {
		if one.client == client {
			last := len(*a) - 1
			copy((*a)[i:], (*a)[i+1:])
			(*a)[last] = ask{}
			*a = (*a)[:last]
			return
		}
	}
}

// areOf returns whether a request is of a user.
func (a askers) areOf(user *usage) bool {
	for i := range a {
		if a[i].user == user {
			return true
		}
	}
	return false
}

// A vote keeps its first request itself: nearly always there is one, or none. While somebody has the vote it is the request of that one. The
// others are among the extras.

// first returns the first request.
func (v *vote) first() ask {
	if v.stamp == 0 {
		return ask{}
	}
	return ask{int(v.client), v.stamp, v.since, v.user, v.extra().note}
}

// setFirst puts a request in place of the first one.
func (v *vote) setFirst(one ask) {
	v.client, v.stamp, v.since, v.user = uint8(one.client), one.stamp, one.since, one.user
	if one.note != "" || v.extras != nil {
		v.needs().note = one.note
	}
}

// isFirst returns whether the first request is that of a client.
func (v *vote) isFirst(client int) bool { return v.stamp > 0 && int(v.client) == client }

// ask returns the request of a client that has the vote or waits for it.
func (v *vote) ask(client int) ask {
	if v.isFirst(client) {
		return v.first()
	}
	if one := v.extra().others.of(client); one != nil {
		return *one
	}
	return ask{}
}

// asks hands all requests to a function that have the vote or wait for it.
func (v *vote) asks(use func(ask)) {
	if v.stamp > 0 {
		use(v.first())
	}
	for _, one := range v.extra().others {
		use(one)
	}
}

// isOf returns whether a request that has the vote or waits for it is of a user.
func (v *vote) isOf(user *usage) bool {
	return v.stamp > 0 && v.user == user || v.extra().others.areOf(user)
}

// addAsk adds the request of a client that has none.
func (v *vote) addAsk(one ask) {
	if v.stamp == 0 {
		v.setFirst(one)
		return
	}
	v.needs().others.add(one)
}

// removeAsk takes the request of a client out, if there is one.
func (v *vote) removeAsk(client int) {
	if v.isFirst(client) {
		v.setFirst(ask{})
	} else if v.extras != nil {
		v.extras.others.remove(client)
	}
}

// noteOn notes what a client says of its request that has the vote or waits for it.
func (v *vote) noteOn(client int, text string) {
	if v.isFirst(client) {
		v.needs().note = text
	} else if one := v.extra().others.of(client); one != nil {
		one.note = text
	}
}
