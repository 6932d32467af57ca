package voter

import (
	"runtime"
	"sync"
)

// mostRead is how many rows are read before they are handed on.
const mostRead = 1 << 13

// saved is a row of a bucket, and what was read of it.
type saved[T any] struct {
	key, row []byte
	read     T
	err      error
}

// readAll reads all rows of a bucket, some of them at a time by several goroutines, and hands what it read to a function, in the order of the
// keys. While some are read, those before them are handed on. It ends with the first error.
func readAll[T any](rows Rows, bucket []byte, read func(key, value []byte) (T, error), use func(T) error) error {
	var before, some []saved[T]
	step := func() error {
		wait := readSome(bucket, some, read)
		err := useSome(before, use)
		wait()
		before, some = some, before[:0]
		return err
	}
	err := rows.Each(bucket, func(key, row []byte) error {
		if some = append(some, saved[T]{key: key, row: row}); len(some) < mostRead {
			return nil
		}
		return step()
	})
	for last := 0; last < 2 && err == nil; last++ {
		err = step() // the first one reads the last rows, and the second one hands them on
	}
	return err
}

// useSome hands what was read to a function, up to the first error.
func useSome[T any](some []saved[T], use func(T) error) error {
	for i := range some {
		if some[i].err == nil {
			some[i].err = use(some[i].read)
		}
		if some[i].err != nil {
			return some[i].err
		}
	}
	return nil
}

// readSome reads rows by several goroutines, and returns what waits for them.
func readSome[T any](bucket []byte, some []saved[T], read func(key, value []byte) (T, error)) (wait func()) {
	return inParts(len(some), func(from, to int) {
		for i := from; i < to; i++ {
			one := &some[i]
			var text []byte
			if text, one.err = value(bucket, one.key, one.row); one.err == nil {
				one.read, one.err = read(one.key, text)
			}
		}
	})
}

// inParts hands the places of so many things to a function, in a part for each processor, which a goroutine of its own does. It returns what
// waits for all of them.
func inParts(count int, do func(from, to int)) (wait func()) {
	var group sync.WaitGroup
	each := count/runtime.GOMAXPROCS(0) + 1
	for from := 0; from < count; from += each {
		group.Add(1)
		go func(from int) {
			defer group.Done()
			do(from, least(from+each, count))
		}(from)
	}
	return group.Wait
}

func least(a, b int) int {
	if a < b {
		return a
	}
	return b
}
