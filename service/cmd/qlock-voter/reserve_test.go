package main

import "testing"

// The reserve is as large as what is in use while that is little, then 128 MB, and then a quarter. It is what was allocated, if that is more
// than 128 MB, and no more than what is in use.
func TestReserve(t *testing.T) {
	for _, one := range []struct {
		inUse, allocated uint64
		percent          int
	}{{0, 0, 100}, {64 << 20, 0, 100}, {128 << 20, 0, 100}, {256 << 20, 0, 50}, {384 << 20, 0, 33}, {512 << 20, 0, 25}, {8 << 30, 0, 25},
		{64 << 20, 32 << 20, 100}, {512 << 20, 128 << 20, 25}, {512 << 20, 256 << 20, 50}, {512 << 20, 384 << 20, 75}, {512 << 20, 512 << 20, 100},
		{512 << 20, 8 << 30, 100}, {8 << 30, 1 << 30, 25}, {8 << 30, 4 << 30, 50}} {
		if percent := reserve(one.inUse, one.allocated); percent != one.percent {
			t.Errorf("%d MB in use, %d MB allocated: %d %%, not %d", one.inUse>>20, one.allocated>>20, percent, one.percent)
		}
	}
}

// What is in use, and was allocated, grows by what somebody allocates.
func TestHeap(t *testing.T) {
	const size = 32 << 20
	inUse, allocated := heap()
	kept := make([]byte, size)
	if after, total := heap(); after < inUse/2 || after < size || total < allocated+size {
		t.Errorf("%d bytes in use, and then %d; %d allocated, and then %d", inUse, after, allocated, total)
	}
	kept[0]++
}
