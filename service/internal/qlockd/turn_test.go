package qlockd

import (
	"testing"
	"time"
)

// A lock whose turn some voter does not tell is given back.
func TestTurnThatNobodyTells(t *testing.T) {
	h := start(t, 5*time.Second)
	h.world.Bus.Lose(". turned ")
	if said := h.refused("orders?turn=1&wait=2s"); said != "504 unreachable" {
		t.Error(said)
	}
	h.world.Bus.Lose("")
	if _, line := h.take("orders?try=1&turn=1&wait=5s"); line["turn"] == nil {
		t.Error(line)
	}
}
