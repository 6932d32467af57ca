package voter

import (
	"encoding/binary"
	"errors"
	"fmt"
	"hash/crc32"
	"hash/fnv"
	"os"
	"runtime/debug"

	"go.etcd.io/bbolt"
)

const (
	sumBytes  = 4       // how long the checksum is in front of a row's value
	mostKey   = 64      // how long a key may be, as a lock's name is the longest one
	mostValue = 1 << 26 // how long a value may be
)

var castagnoli = crc32.MakeTable(crc32.Castagnoli)

// lengths are what is between a bucket and a key of some length in a checksum. They are made once: else each checksum takes memory.
var lengths = func() (all [256][2]byte) {
	for i := range all {
		all[i][1] = byte(i)
	}
	return all
}()

// sum returns the checksum of a row: over its bucket, its key, and its value.
func sum(bucket, key, value []byte) uint32 {
	crc := crc32.Update(0, castagnoli, bucket)
	crc = crc32.Update(crc, castagnoli, lengths[byte(len(key))][:])
	return crc32.Update(crc32.Update(crc, castagnoli, key), castagnoli, value)
}

// batch writes rows in one transaction. It keeps their tally, the sum of the checksums of all rows
// but that of the counts: so a row that is gone, or older than the others, is found.
type batch struct {
	rows  Rows
	tally uint64
	room  []byte // has the rows that were put
}

// put saves a row.
func (b *batch) put(bucket, key, value []byte) error {
	begin := len(b.room)
	b.room = appendSummed(b.room, bucket, key, value)
	row := b.room[begin:len(b.room):len(b.room)]
	b.tally += sumIn(row) - sumIn(b.rows.Get(bucket, key))
	return b.rows.Put(bucket, key, row)
}

// remove takes a row out.
func (b *batch) remove(bucket, key []byte) error {
	b.tally -= sumIn(b.rows.Get(bucket, key))
	return b.rows.Remove(bucket, key)
}

// appendSummed appends a row: its checksum, and its value.
func appendSummed(to, bucket, key, value []byte) []byte {
	return append(binary.LittleEndian.AppendUint32(to, sum(bucket, key, value)), value...)
}

// rowOf returns a row.
func rowOf(bucket, key, value []byte) []byte { return appendSummed(nil, bucket, key, value) }

// sumIn returns the checksum that a row has, 0 if there is no row.
func sumIn(row []byte) uint64 {
	if len(row) < sumBytes {
		return 0
	}
	return uint64(binary.LittleEndian.Uint32(row))
}

// get returns the value of a row, nil if there is none.
func get(rows Rows, bucket, key []byte) ([]byte, error) {
	row := rows.Get(bucket, key)
	if row == nil {
		return nil, nil
	}
	return value(bucket, key, row)
}

// value returns the value in a row that was read, or ErrDamaged if it is not as it was saved. A length
// that is damaged may be that of all memory.
func value(bucket, key, row []byte) ([]byte, error) {
	if len(key) > mostKey || len(row) > mostValue {
		return nil, fmt.Errorf("%s: a row of %d and %d bytes: %w", bucket, len(key), len(row), ErrDamaged)
	}
	if len(row) < sumBytes || binary.LittleEndian.Uint32(row) != sum(bucket, key, row[sumBytes:]) {
		return nil, fmt.Errorf("%s, row %q: %w", bucket, key, ErrDamaged)
	}
	return row[sumBytes:], nil
}

// each hands all rows of a bucket to a function.
func each(rows Rows, bucket []byte, use func(key, value []byte) error) error {
	return rows.Each(bucket, func(key, row []byte) error {
		v, err := value(bucket, key, row)
		if err != nil {
			return err
		}
		return use(key, v)
	})
}

// verify reads all rows of a file, and returns ErrDamaged if one is not as it was saved, or missing.
// What is damaged may also lead the database out of the file.
func verify(path string) (err error) {
	defer debug.SetPanicOnFault(debug.SetPanicOnFault(true))
	defer func() {
		if fault := recover(); fault != nil {
			err = fmt.Errorf("%w: %v", ErrDamaged, fault)
		}
	}()
	db, err := bbolt.Open(path, 0o600, &bbolt.Options{Timeout: lockTimeout, ReadOnly: true})
	if errors.Is(err, bbolt.ErrTimeout) {
		return err
	} else if err == nil {
		defer db.Close()
	}
	if damaged := verifyRoots(path); damaged != nil {
		return damaged
	} else if err != nil {
		return err
	}
	if err := verifyPages(path); err != nil {
		return err
	}
	return db.View(func(tx *bbolt.Tx) error { return verifyRows(tx) })
}

// verifyRows reads all rows of a database whose pages are in order.
func verifyRows(tx *bbolt.Tx) error {
	tally, rows := uint64(0), rowsOfFile(tx)
	for _, bucket := range buckets {
		if tx.Bucket(bucket) == nil {
			return fmt.Errorf("%w: there is no bucket %q", ErrDamaged, bucket)
		}
		if isOldFormat(rows) {
			return nil // it is refused for that
		}
		if err := rows.Each(bucket, func(key, row []byte) error {
			tally += sumIn(row)
			_, err := value(bucket, key, row)
			return err
		}); err != nil {
			return err
		}
	}
	_, saved, err := counts(rows)
	if err == nil && saved != tally-sumIn(rows.Get(metaBucket, countsKey)) {
		err = fmt.Errorf("%w: a row is missing, or older than the others", ErrDamaged)
	}
	return err
}

// Check reads a whole state, and returns ErrDamaged unless it is as it was saved. Some damage ends
// whoever reads it, so this is for a process of its own. A state that is not there passes: Open
// says so.
func Check(folder string) error {
	path := file(folder)
	if _, err := os.Stat(path); errors.Is(err, os.ErrNotExist) {
		return nil
	}
	return named(path, verify(path))
}

// The places in each of the two root pages of a database: what its checksum covers, the size of a
// page, and the checksum.
const (
	rootBegin = 16
	rootSize  = 24
	rootSum   = 72
)

// Size returns how many bytes a state has, 0 if there is none.
func Size(folder string) uint64 {
	info, err := os.Stat(file(folder))
	if err != nil {
		return 0
	}
	return uint64(info.Size())
}

// verifyRoots returns ErrDamaged unless both root pages are as they were written. If the newer one
// is not, the database would go on from the transaction before it, an older copy of the state.
func verifyRoots(path string) error {
	f, err := os.Open(path)
	if err != nil {
		return err
	}
	defer f.Close()
	size := int64(0)
	for page := int64(0); page < 2; page++ {
		root := make([]byte, rootSum+8)
		if _, err := f.ReadAt(root, page*size); err != nil {
			return fmt.Errorf("%w: root page %d: %v", ErrDamaged, page, err)
		}
		hash := fnv.New64a()
		_, _ = hash.Write(root[rootBegin:rootSum])
		if hash.Sum64() != binary.LittleEndian.Uint64(root[rootSum:]) {
			return fmt.Errorf("%w: root page %d is not as it was written", ErrDamaged, page)
		}
		size = int64(binary.LittleEndian.Uint32(root[rootSize:]))
	}
	return nil
}

// counts returns how often a state was saved, and the tally of its rows.
func counts(rows Rows) (saves, tally uint64, err error) {
	row, err := get(rows, metaBucket, countsKey)
	if err == nil && len(row) != 16 {
		err = fmt.Errorf("%w: there is no count of saves", ErrDamaged)
	}
	if err != nil {
		return 0, 0, err
	}
	return binary.LittleEndian.Uint64(row), binary.LittleEndian.Uint64(row[8:]), nil
}

// putCounts saves how often a state was saved, and the tally of its rows.
func putCounts(rows Rows, saves, tally uint64) error {
	value := binary.LittleEndian.AppendUint64(binary.LittleEndian.AppendUint64(nil, saves), tally)
	return rows.Put(metaBucket, countsKey, rowOf(metaBucket, countsKey, value))
}
