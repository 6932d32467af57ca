package qlock

// #include "qlock.h"
import "C"

// Fence is the guard of what the lock protects. It refuses the pass of a client that was let go, once a newer pass was
// admitted. Package guard has the same for programs that are built without the C library.
type Fence struct{ state [FenceBytes]byte }

// NewFence makes a guard that saw no grant.
func NewFence() (*Fence, error) {
	f := new(Fence)
	return f, refusal(C.qlock_fence_new(at(f.state[:]), FenceBytes))
}

// RestoreFence returns the guard that was saved as these bytes.
func RestoreFence(state []byte) (*Fence, error) {
	if len(state) != FenceBytes {
		return nil, BadState
	}
	f := new(Fence)
	copy(f.state[:], state)
	return f, nil
}

// State returns the bytes to save with what is guarded, in one step. They change with the next call.
func (f *Fence) State() []byte { return f.state[:] }

// Admit admits a pass and returns its turn, the fencing token: one number, the same for all shows of one pass, and
// greater for each pass that is admitted later, as long as only passes are shown that clients had. It returns OlderGrant
// if a pass with a newer grant of some voter was admitted before, NoPass if this one has no grant, and TurnsSpent at the
// last turn.
func (f *Fence) Admit(pass []byte) (turn uint64, err error) {
	var number C.uint64_t
	err = refusal(C.qlock_fence_admit(at(f.state[:]), FenceBytes, at(pass), C.size_t(len(pass)), &number))
	return uint64(number), err
}
