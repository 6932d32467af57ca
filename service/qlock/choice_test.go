package qlock

import "testing"

// pairs are any two of three voters.
var pairs = &Plan{Quorums: []uint64{0b011, 0b110, 0b101}, distinct: []uint64{0b011, 0b110, 0b101}}

// A session asks the next quorum without voters that it avoids or that have no room, or else the next one that has room.
func TestNext(t *testing.T) {
	for _, it := range []struct {
		ticket        int
		avoided, full uint64
		place         int
	}{
		{0, 0, 0, 0}, {4, 0, 0, 1}, {0, 0b010, 0, 2}, {5, 0, 0b001, 1}, {3, 0b001, 0b010, 2}, {1, 0b111, 0, 1}, {1, 0b111, 0b010, 2},
	} {
		if place, found := pairs.Next(it.ticket, it.avoided, it.full); !found || place != it.place {
			t.Errorf("%v: place %d, %v", it, place, found)
		}
	}
	if place, found := pairs.Next(1, 0, 0b011); found {
		t.Error("a quorum has room, at place", place)
	}
	if _, found := (&Plan{}).Next(0, 0, 0); found {
		t.Error("a plan without quorums has one")
	}
}

// A voter is silent once it was heard longer ago than for so long, and avoided also while it is quiet.
func TestSilent(t *testing.T) {
	heard, ends := []uint64{10, 70, 200}, []uint64{0, 101, 100}
	if silent := Silent(heard, 100, 50); silent != 0b001 {
		t.Errorf("%b", silent)
	}
	if silent := Silent(heard, 100, 30); silent != 0b001 {
		t.Errorf("%b", silent)
	}
	if silent := Silent(heard, 100, 29); silent != 0b011 {
		t.Errorf("%b", silent)
	}
	if avoided := Avoided(heard, ends, 100, 50); avoided != 0b011 || Silent(nil, 100, 50) != 0 || Avoided(nil, ends, 100, 50) != 0b010 {
		t.Errorf("%b", avoided)
	}
}

// A request waits for a voter that is avoided, and whose vote it does not have, if others would do; and is stuck after a while.
func TestIsStuck(t *testing.T) {
	request := Waiting{Quorum: 0b101, Votes: 0b001, Asked: 100}
	if !pairs.WaitsFor(request, 0b100, 0) || pairs.WaitsFor(request, 0b001, 0) || pairs.WaitsFor(request, 0b010, 0) ||
		pairs.WaitsFor(request, 0b100, 0b010) || (&Plan{}).WaitsFor(request, 0b100, 0) {
		t.Error("it waits for voter 2, and the others would do")
	}
	if pairs.IsStuck(request, 0b100, 0, 99, 50) || pairs.IsStuck(request, 0b100, 0, 150, 50) || !pairs.IsStuck(request, 0b100, 0, 151, 50) ||
		pairs.IsStuck(request, 0b001, 0, 151, 50) {
		t.Error("it is stuck after 50")
	}
}
