package main

import (
	"bytes"
	"context"
	"errors"
	"fmt"
	"os"
	"os/exec"
	"strings"
	"syscall"

	"calvundek.example/service/internal/config"
	"calvundek.example/service/internal/voter"
)

// exitPanic is the exit status of a program of Go that panics, or reads what is not there.
const exitPanic = 2

// hopelessly is what a check said of a state that no restart mends.
type hopelessly string

func (h hopelessly) Error() string { return string(h) }

// mostMemory is how many bytes of memory a check may take, and checkFactor how many for each of the
// file's. A state that is as it was saved takes a small part of them.
const (
	mostMemory  = 4 << 30
	checkFactor = 8
)

// check reads the whole state of a voter that does not run.
func check(path string) error {
	own, _, err := config.ReadVoter(path)
	if err != nil {
		return err
	}
	if err := boundMemory(mostMemory + checkFactor*voter.Size(own.Data)); err != nil {
		return err
	}
	return voter.Check(own.Data)
}

// boundMemory lets this process take no more memory than so many bytes from now on. Whoever reads
// what is damaged may ask for any number.
func boundMemory(more uint64) error {
	text, err := os.ReadFile("/proc/self/statm")
	if err != nil {
		return err
	}
	var pages uint64
	if _, err := fmt.Sscan(string(text), &pages); err != nil {
		return err
	}
	var limit syscall.Rlimit
	if err := syscall.Getrlimit(syscall.RLIMIT_AS, &limit); err != nil {
		return err
	}
	if most := pages*uint64(os.Getpagesize()) + more; most < limit.Cur {
		limit.Cur = most
	}
	return syscall.Setrlimit(syscall.RLIMIT_AS, &limit)
}

// checkApart checks the state in a process of its own: some damage ends whoever reads it.
func checkApart(ctx context.Context, path, data string) error {
	self, err := os.Executable()
	if err != nil {
		return err
	}
	var said bytes.Buffer
	apart := exec.CommandContext(ctx, self, "check", "-c", path) // and the same environment
	apart.Stderr = &said
	if err = apart.Run(); err == nil {
		return nil
	}
	line, _, _ := strings.Cut(strings.TrimPrefix(said.String(), prefix), "\n")
	var ended *exec.ExitError
	if !errors.As(err, &ended) || !ended.Exited() {
		return fmt.Errorf("the state was not checked: %w", err)
	}
	switch ended.ExitCode() {
	case exitPanic:
		return fmt.Errorf("%s: %w: %s", data, voter.ErrDamaged, line)
	case exitHopeless:
		return hopelessly(line)
	}
	return errors.New(line)
}
