package voter

import (
	"strings"
	"testing"
	"time"

	"calvundek.example/service/internal/wire"
	"calvundek.example/service/transport"
)

// spoken is whom a voter heard lately, and whom not, as it says in its answer.
type spoken struct{ heard, missed uint64 }

// A voter that starts waits for eight seconds for who was heard lately, by it or by one that answered, and where nobody
// knows. It waits for a second for who was not heard for longer.
func TestPatience(t *testing.T) {
	const last = 1 << 3
	for what, one := range map[string]struct {
		answers  [2]spoken
		left     time.Duration // ago it ended, 0 if it was killed
		spoke    bool          // the last one, in this run
		expected bool
	}{
		"nobody knows":                      {expected: true},
		"one heard it":                      {answers: [2]spoken{{heard: last}, {}}, expected: true},
		"one missed it":                     {answers: [2]spoken{{missed: last}, {}}},
		"one heard it, and one missed it":   {answers: [2]spoken{{heard: last}, {missed: last}}, expected: true},
		"both missed it":                    {answers: [2]spoken{{missed: last}, {missed: last}}},
		"they missed another one":           {answers: [2]spoken{{missed: 2}, {missed: 2}}, expected: true},
		"all ended long ago":                {left: time.Hour},
		"all ended just now":                {left: time.Second, expected: true},
		"it ended long ago, one heard it":   {answers: [2]spoken{{heard: last}, {}}, left: time.Hour, expected: true},
		"it ended long ago, and it spoke":   {left: time.Hour, spoke: true, expected: true},
		"one missed it, and it spoke":       {answers: [2]spoken{{missed: last}, {}}, spoke: true, expected: true},
		"it was to end later, by its clock": {left: -time.Hour, expected: true},
	} {
		d := ended(t, one.left)
		d.cluster.TTL.Duration = 10 * time.Second
		now := d.join.began
		for i, said := range one.answers {
			answer := answered(i+1, Peer{})
			answer.Heard, answer.Missed = said.heard, said.missed
			d.hearAnswer(heard(i+1), answer, now)
		}
		if one.spoke {
			d.spoke[3] = now
		}
		after := leastPatience
		if one.expected {
			after = mostPatience
		}
		if d.start(now.Add(after)); d.asked() > 0 {
			t.Errorf("%s: it asks for a ceiling before %v", what, after)
		}
		if d.start(now.Add(after + time.Millisecond)); d.asked() == 0 {
			t.Errorf("%s: it asks for none after %v", what, after)
		}
	}
}

// Where the TTL is short, nobody is waited for for longer than those that serve are silent.
func TestPatienceWithAShortTTL(t *testing.T) {
	for _, ago := range []time.Duration{0, -time.Hour} { // it was killed, or its clock was set back
		d := ended(t, ago)
		for _, place := range []int{1, 2} {
			d.hearAnswer(heard(place), answered(place, Peer{}), d.join.began)
		}
		if d.start(d.started.Add(d.unheard())); d.unheard() > mostPatience/2 || d.asked() > 0 {
			t.Errorf("it asks for a ceiling before %v", d.unheard())
		}
		if d.start(d.started.Add(d.unheard() + time.Millisecond)); d.asked() == 0 {
			t.Errorf("it asks for none after %v", d.unheard())
		}
	}
}

// ended returns voter a of four, which served before, and whose last run ended so long ago; or was killed, if that is
// 0. Now it waits for the others.
func ended(t *testing.T, ago time.Duration) *Daemon {
	t.Helper()
	d := made(t, threeOfFour)
	d.store.own.Ceiling = firstCeiling
	if d.newOwn = true; ago == 0 {
		if err := d.save(); err != nil {
			t.Fatal(err)
		}
	} else {
		d.around.Now = func() time.Time { return time.Now().Add(-ago) }
		if err := d.End(); err != nil {
			t.Fatal(err)
		}
	}
	d.store.disk.Close()
	return opened(t, d.own, d.cluster)
}

// A voter that is silent for longer than those that serve was killed later can't say so again: a start of its state
// forgets when it ended.
func TestEndIsForgottenByTheNextStart(t *testing.T) {
	d := ended(t, time.Hour)
	if d.join.left.IsZero() || time.Since(d.join.left) < time.Hour-time.Minute {
		t.Errorf("it ended at %v", d.join.left)
	}
	d.store.disk.Close()
	if d = opened(t, d.own, d.cluster); !d.join.left.IsZero() {
		t.Errorf("after a kill it ended at %v", d.join.left)
	}
}

// A voter tells who starts whom it heard lately, and whom not for longer than one that serves is silent. Before it
// knows it says nothing.
func TestWhoSpoke(t *testing.T) {
	d := pair(t)
	now := d.started
	d.around.Now = func() time.Time { return now }
	who := heard(1)
	answer := func() (heard, missed uint64) {
		d.letters = nil
		d.meet(who, word{Word: "start", Process: process("p")})
		return d.letters[0].word.Heard, d.letters[0].word.Missed
	}
	if heard, missed := answer(); heard != 0 || missed != 0 {
		t.Errorf("at its start: %b, %b", heard, missed)
	}
	d.spoke[2] = now.Add(time.Second)
	now = now.Add(d.unheard())
	if heard, missed := answer(); heard != 1<<2 || missed != 0 {
		t.Errorf("before it knows: %b, %b", heard, missed)
	}
	now = now.Add(time.Second)
	if heard, missed := answer(); heard != 1<<2 || missed != 1<<1 {
		t.Errorf("a second later: %b, %b", heard, missed)
	}
	now = now.Add(time.Second)
	if heard, missed := answer(); heard != 0 || missed != 0b110 {
		t.Errorf("once all are silent: %b, %b", heard, missed)
	}
}

// What comes from another voter is noted as heard.
func TestVotersAreHeard(t *testing.T) {
	d, now := pair(t), time.Now()
	h := heard(1)
	h.Coterie = "mark"
	d.hearPeer(transport.Message{Mailbox: wire.PeerBox("test", 0, 1), Data: append(h.Append(nil), `{"word":"ended","voter":"b","ttl":"2s"}`...)}, now)
	if d.spoke[1] != now || !d.spoke[2].IsZero() {
		t.Errorf("heard at %v", d.spoke[:3])
	}
}

// An operator sees for whom a voter waits, why, and for how long at most.
func TestAwaits(t *testing.T) {
	d := ended(t, 0)
	d.cluster.TTL.Duration = 10 * time.Second
	shows := func(after time.Duration, voters, why string, isTimed bool) {
		t.Helper()
		a := d.status(d.join.began.Add(after)).Awaits
		if a == nil || a.Voters != voters || !strings.Contains(a.Why, why) || a.Seconds > 0 != isTimed || a.Seconds > mostPatience.Seconds() {
			t.Errorf("%+v, and not %s: %s", a, voters, why)
		}
	}
	shows(0, "b,c,d", "no quorum", false)
	for _, place := range []int{1, 2} {
		d.hearAnswer(heard(place), answered(place, Peer{}), d.join.began)
	}
	for _, after := range []time.Duration{0, mostPatience - time.Millisecond} {
		shows(after, "d", "heard lately", true)
	}
	d.join.missed = 1 << 3
	shows(0, "d", "start just now", true)
	d.start(d.join.began.Add(2 * time.Second))
	shows(2*time.Second, "b,c,d", "keep its ceiling", false)
	d.isKeptBy(1, 2)
	if a := d.status(d.now()).Awaits; a != nil || !d.join.done {
		t.Errorf("it serves, and awaits %+v", a)
	}
	d = lost(t, two)
	shows(0, "b,c", "lost", false)
	d = made(t, two)
	shows(0, "b,c", "new", false)
}
