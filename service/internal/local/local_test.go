package local

import (
	"net"
	"os"
	"path/filepath"
	"testing"
	"time"
)

// A start that fails leaves a process that may be killed, started again, and killed again.
func TestFailedStart(t *testing.T) {
	folder := t.TempDir()
	program := filepath.Join(folder, "program")
	p := &Process{Name: "one", words: []string{program}, log: filepath.Join(folder, "log")}
	if p.Start() == nil {
		t.Fatal("a program that is not there starts")
	}
	p.Kill()
	if err := os.WriteFile(program, []byte("#!/bin/sh\nexec sleep 60\n"), 0o755); err != nil {
		t.Fatal(err)
	}
	if err := p.Start(); err != nil {
		t.Fatal(err)
	}
	p.Kill()
	if err := os.Remove(program); err != nil {
		t.Fatal(err)
	}
	if p.Start() == nil {
		t.Error("a program that is gone starts")
	}
	if !p.Ended(time.Second) {
		t.Error("a process that was killed goes on")
	}
	p.Signal(os.Interrupt)
	p.Kill()
}

// Ports are below those of connections, another process can't have their block, and none comes twice.
func TestFreePorts(t *testing.T) {
	seen := map[int]bool{}
	for len(seen) < 2*BlockSize {
		ports, err := FreePorts(7)
		if err != nil {
			t.Fatal(err)
		}
		for _, port := range ports {
			if seen[port] || port < firstPort || port >= portsEnd() {
				t.Fatal("a port that is not to be had:", port)
			}
			seen[port] = true
		}
	}
	if len(own.held) < 3 {
		t.Errorf("%d blocks for %d ports", len(own.held), len(seen))
	}
	for _, block := range own.held {
		if l, err := net.Listen("tcp", block.Addr().String()); err == nil {
			l.Close()
			t.Error("another process can take the block at", block.Addr())
		}
	}
}
