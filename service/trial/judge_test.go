package main

import (
	"context"
	"errors"
	"fmt"
	"os"
	"path/filepath"
	"strings"
	"testing"
	"time"

	"calvundek.example/service/internal/worlds"
	"calvundek.example/service/locks"
)

// first and second are passes of which the guard takes the second one for a later one.
var first, second = strings.Repeat("01", 512), strings.Repeat("02", 512)

// bEnters has b inside the lock x from the first second on.
var bEnters = "1 b wait x; 1 b enter x 1000000 " + first

// judged judges a history of a TTL of a second, and returns what was found. Each line is "SECONDS WHO WORDS"; between two of them
// may be "; ".
func judged(t *testing.T, lines ...string) findings {
	t.Helper()
	for _, who := range []string{"a", "b", "c"} {
		lines = append([]string{"0 " + who + "-1/0 name agent-" + who}, lines...)
	}
	text := "ttl 1000000 open false\n"
	for _, line := range strings.Split(strings.Join(lines, "; "), "; ") {
		var seconds float64
		words := strings.SplitN(line, " ", 3)
		if _, err := fmt.Sscan(words[0], &seconds); err != nil {
			t.Fatal(err)
		}
		who := words[1]
		if who != "-" && !strings.Contains(who, "/") {
			who += "-1/0"
		}
		text += fmt.Sprintf("%d %s %s\n", int64(seconds*1e6), who, words[2])
	}
	path := filepath.Join(t.TempDir(), "history")
	if err := os.WriteFile(path, []byte(text), 0o600); err != nil {
		t.Fatal(err)
	}
	found, err := judgeHistory(path)
	if err != nil {
		t.Fatal(err)
	}
	return found
}

// is fails unless these faults were found, and no others.
func (f findings) is(t *testing.T, what string, names ...string) {
	t.Helper()
	sum, failing := 0, 0
	for name, count := range f.Faults {
		if sum += count; !known[name] {
			failing += count
		}
	}
	if sum != len(names) || f.faults() != failing {
		t.Errorf("%s: %v", what, f.Faults)
	}
	for _, name := range names {
		if f.Faults[name] == 0 {
			t.Errorf("%s: not found: %s", what, name)
		}
	}
}

// a is inside x from the first second on, and b from the third.
func together(between ...string) []string {
	lines := []string{"1 a wait x", "1.1 a enter x 1000000 " + first, "2 b wait x"}
	return append(lines, between...)
}

// Two inside are a fault unless one of them was told before the other one entered, whoever says so first, or was let go.
func TestTwoInside(t *testing.T) {
	enter := "3.1 b enter x 3000000 " + second
	for what, one := range map[string]struct {
		lines []string
		names []string
	}{
		"none was let go":               {together(enter, "4 b leave x", "4 b done x"), []string{twoInside}},
		"the first one leaves":          {together(enter, "3.2 a leave x", "4 b leave x"), []string{twoInside}},
		"told, and says so late":        {together(enter, "3.2 a lost x 2900000", "4 b leave x"), nil},
		"told too late":                 {together(enter, "3.2 a lost x 3100000", "4 b leave x"), []string{twoInside}},
		"left before":                   {together("2.5 a leave x", enter, "4 b leave x"), nil},
		"died before":                   {together("2.5 a die x", enter, "4 b leave x"), nil},
		"the first one stood still":     {together("2.5 - still a-1", enter, "4 b leave x"), nil},
		"another one stood still":       {together("2.5 - still a-2", enter, "4 b leave x"), []string{twoInside}},
		"the second one stood still":    {together("2.5 - still b-1", enter, "4 b leave x"), nil},
		"the agent of the second one":   {together("2.5 - still agent-b-7", enter, "4 b leave x"), nil},
		"the agent of the first one":    {together("2.5 - still agent-a-7", enter, "4 b leave x"), []string{twoInside}},
		"the first one was killed":      {together("2.5 - gone a-1", enter, "4 b leave x"), nil},
		"killed after the second came":  {together(enter, "3.2 - gone a-1", "4 b leave x"), []string{twoInside}},
		"unlocked":                      {together("2.5 - unlock x", enter, "4 b leave x"), nil},
		"unlocked before it came":       {append([]string{"0.5 - unlock x"}, together("2.5 - unlocked x", enter, "4 b leave x")...), nil},
		"another one unlocked":          {together("2.5 - unlock y", enter, "4 b leave x"), []string{twoInside}},
		"evicted at once":               {together("2.5 - evict-now a-1", enter, "4 b leave x"), nil},
		"its agent was evicted at once": {together("2.5 - evict-now agent-a-7", enter, "4 b leave x"), nil},
		"evicted, and may work":         {together("2.5 - evict a-1", enter, "4 b leave x"), []string{twoInside}},
		"a voter lost its state":        {together("2.5 - lost-state hub", enter, "4 b leave x"), nil},
		"at the end":                    {together(enter, "5 - serve 0"), []string{twoInside}},
		"exchanged in a hurry": {together("2.4 - evict c-1", "2.5 - plan retire", "2.6 - plan exchange", enter, "4 b leave x"),
			[]string{twoInside + ", after evict, retire and exchange within a TTL"}},
	} {
		judged(t, one.lines...).is(t, what, one.names...)
	}
}

// A pass that is let go is excused until it is over, and the next one of its worker is not.
func TestExcuseEnds(t *testing.T) {
	judged(t, together("2.5 - unlock x", "3.1 b enter x 3000000 "+second, "3.2 b leave x", "3.2 b done x", "3.3 - unlocked x", "3.4 c wait x",
		"3.6 c enter x 3500000 "+second, "4 c leave x", "4 c done x", "5 a leave x", "5 a done x", "6 c wait x", "6.1 c enter x 6000000 "+second,
		"7 a wait x", "7.1 a enter x 7000000 "+first, "8 a leave x")...).is(t, "a later pass", twoInside)
}

// A write after one of a later pass is a fault, also while an operator lets go; the guard refuses it unless it is open.
func TestOrderOfWrites(t *testing.T) {
	for open, name := range map[bool]string{true: torn, false: ""} {
		j := newJudge(time.Second, open)
		for _, line := range []string{"a/0 name", "b/0 name", "- unlock x", "a/0 wait x", "b/0 wait x", "a/0 enter x 1 " + first, "b/0 enter x 2 " + second,
			"a/0 read x", "b/0 read x", "a/0 write x 1"} {
			words := strings.Fields(line)
			j.take(time.Second, words[0], words[1:])
		}
		if j.found.Faults[torn] > 0 != (name != "") || j.found.Refused != 1 {
			t.Errorf("%v, and %d were refused", j.found.Faults, j.found.Refused)
		}
	}
}

func TestLostUpdates(t *testing.T) {
	lines := []string{"1 a wait x", "1 a enter x 1000000 " + first, "1 a read x", "1 a write x 1"}
	judged(t, append(lines, "1 a read x", "1 a write x 2")...).is(t, "each in its turn")
	judged(t, append(lines, "1 a write x 1")...).is(t, "twice the same", lostUpdates)
}

// Turns grow from holder to holder, in the order in which these entered, unless one stood still.
func TestTurns(t *testing.T) {
	lines := func(turns [2]int, between ...string) []string {
		lines := []string{"1 a wait x", "1 a enter x 1000000 " + first, fmt.Sprint("1.5 a turn x ", turns[0]), "2 a leave x", "2 a done x", "2 b wait x"}
		return append(append(lines, between...), "3 b enter x 3000000 "+second, fmt.Sprint("3.1 b turn x ", turns[1]))
	}
	judged(t, lines([2]int{7, 9})...).is(t, "they grow")
	judged(t, lines([2]int{9, 7})...).is(t, "they fall", turnsFell)
	judged(t, lines([2]int{7, 7})...).is(t, "they stay", turnsFell)
	judged(t, lines([2]int{9, 7}, "2.5 - plan exchange")...).is(t, "they fall after an exchange", turnsFell+" after an exchange")
	judged(t, lines([2]int{9, 7}, "2.5 - still b-1")...).is(t, "one stood still")
}

// A wait is a fault if it is longer than three TTL while a quorum serves, and nothing happened to who waits or to who was before it.
func TestWaits(t *testing.T) {
	for what, one := range map[string]struct {
		lines []string
		names []string
	}{
		"served all the time":       {[]string{"1 a wait x", "4.1 - serve 500000", "9 - serve 500000"}, []string{longWaits}},
		"it enters late":            {[]string{"1 a wait x", "4.1 a enter x 4050000 " + first}, []string{longWaits}},
		"short":                     {[]string{"1 a wait x", "3.9 - serve 500000"}, nil},
		"of a session":              {[]string{"1 a wait", "4.1 - serve 500000"}, []string{longWaits}},
		"a session in time":         {[]string{"1 a wait", "2 a session", "4.1 - serve 500000"}, nil},
		"nobody served":             {[]string{"1 a wait x", "4.1 - serve 0"}, nil},
		"served again for a moment": {[]string{"1 a wait x", "4.1 - serve 2000000"}, nil},
		"after all had ended":       {[]string{"1 - all-ended", "1 a wait x", "4.1 - serve 500000"}, []string{longWaits + " after all voters ended"}},
		"it was cut off":            {[]string{"1 a wait x", "2 - touch a-1", "4.1 - serve 500000"}, nil},
		"its agent was killed":      {[]string{"1 a wait x", "2 - gone agent-a-3", "4.1 - serve 500000"}, nil},
		"a voter was killed":        {[]string{"1 a wait x", "2 - gone hub-3", "4.1 - serve 500000"}, []string{longWaits}},
		"a server was killed":       {[]string{"1 a wait x", "2 - gone nats-0-3", "4.1 - serve 500000"}, nil},
		"one before it was killed": {[]string{bEnters, "1 a wait x", "2 - gone b-1",
			"4.1 - serve 500000"}, nil},
		"one elsewhere was killed": {[]string{"1 b wait y", "1 a wait x", "2 - gone b-1", "4.1 - serve 500000"}, []string{longWaits}},
		"behind one who stays": {[]string{bEnters, "1 b stay x", "1 a wait x",
			"4.1 - serve 500000", "4.2 b leave x", "6 - serve 500000"}, nil},
		"long behind one who stayed": {[]string{bEnters, "1 b stay x", "1 a wait x",
			"4.2 b leave x", "4.2 b done x", "7.3 - serve 500000"}, []string{longWaits}},
	} {
		judged(t, append([]string{"1 - serve 500000"}, one.lines...)...).is(t, what, one.names...)
	}
}

// A try that fails says that somebody has the lock or asked before. That is a fault if nobody was there, nor may have been.
func TestTries(t *testing.T) {
	for what, one := range map[string]struct {
		lines []string
		names []string
	}{
		"nobody":                 {nil, []string{freeTries}},
		"one who has it":         {[]string{bEnters}, nil},
		"one who waits":          {[]string{"1 b wait x"}, nil},
		"one who tries":          {[]string{"1 b try x"}, nil},
		"one of another lock":    {[]string{"1 b wait y", "1 b enter y 1000000 " + first}, []string{freeTries}},
		"one who left long ago":  {[]string{bEnters, "2 b leave x; 2 b done x"}, []string{freeTries}},
		"one who left just now":  {[]string{bEnters, "9.5 b leave x", "9.5 b done x"}, nil},
		"one who gave up":        {[]string{"1 b wait x", "9.5 b nowait x"}, nil},
		"one who died":           {[]string{bEnters, "2 b die x"}, nil},
		"one who died long ago":  {[]string{bEnters, "2 b die x; 3 c wait x; 3 c enter x 3000000 " + second + "; 4 c leave x; 4 c done x"}, nil},
		"one who was killed":     {[]string{bEnters, "2 - gone b-1"}, nil},
		"a voter that came back": {[]string{"9 - touch hub-1"}, nil},
	} {
		lines := append(append([]string{}, one.lines...), "10 a try x", "10.1 a held x")
		f := judged(t, lines...)
		if f.is(t, what, one.names...); (f.Doubtful > 0) != (what == "one who died long ago") {
			t.Errorf("%s: %d are doubtful", what, f.Doubtful)
		}
	}
}

// What workers report is counted by its name, unless something explains it.
func TestReports(t *testing.T) {
	for what, one := range map[string]struct {
		lines []string
		names []string
	}{
		"nothing":                {[]string{"100 a fault nothing x"}, []string{nothingSaid}},
		"early":                  {[]string{"100 a fault early status 75"}, []string{gaveUpEarly}},
		"early, and evicted":     {[]string{"99 - evict b-1", "100 a fault early status 75"}, nil},
		"early, and cut off":     {[]string{"99 - touch a-1", "100 a fault early status 75"}, nil},
		"retired":                {[]string{"99 - plan exchange", "100 a fault retired"}, []string{saidRetired}},
		"retired, and cut off":   {[]string{"99 - plan exchange", "99.5 - touch a-1", "100 a fault retired"}, nil},
		"nobody serves":          {[]string{"100 - fault nobody-serves"}, []string{nobodyServes}},
		"nobody serves, all end": {[]string{"95 - all-ended", "100 - fault nobody-serves"}, []string{nobodyServes + " after all voters ended"}},
	} {
		judged(t, one.lines...).is(t, what, one.names...)
	}
}

// Who was taken for dead is not listened to.
func TestDead(t *testing.T) {
	f := judged(t, "1 a wait x", "1 a enter x 1000000 "+first, "2 - gone a-1", "2.1 a write x 5", "2.2 a lost x 2000000", "2.3 a bye")
	if f.is(t, "a late word"); f.Writes != 0 || f.Lost != 0 {
		t.Errorf("%+v", f)
	}
}

// A quorum serves as long as all voters of one and the same do.
func TestStreak(t *testing.T) {
	cluster := worlds.NewCluster(t, worlds.Majority, time.Second) // any two of three
	var s streak
	for i, one := range []struct {
		voters uint64
		since  time.Duration
	}{{0b001, 0}, {0b011, 2}, {0b111, 2}, {0b011, 2}, {0b110, 5}, {0b111, 5}, {0b100, 0}, {0b101, 8}} {
		if s.next(cluster, one.voters, time.Duration(i+1)); s.since != one.since {
			t.Errorf("step %d: %d", i+1, s.since)
		}
	}
}

// A run that has its time left has no reason to give up, unless it only tries, or the agent is gone.
func TestNotRun(t *testing.T) {
	for _, one := range []struct {
		status int
		fault  string
		c      call
		took   time.Duration
		want   error
	}{
		{75, "x: somebody else has the lock: client 7", call{tries: true, wait: time.Second}, 0, locks.ErrHeld},
		{75, "x: somebody else had the lock for 1s", call{wait: time.Second}, time.Second, context.DeadlineExceeded},
		{75, "x: the session is over", call{wait: time.Second}, 0, errEarly},
	} {
		if err := notRun(one.status, one.fault, one.c, one.took); !errors.Is(err, one.want) {
			t.Errorf("%s: %v", one.fault, err)
		}
	}
	for _, fault := range []string{"agent: no agent is there", "agent: unexpected EOF"} {
		if err := notRun(75, fault, call{wait: time.Second}, 0); errors.Is(err, errEarly) {
			t.Errorf("%s: %v", fault, err)
		}
	}
}
