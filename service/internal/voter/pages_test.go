package voter

import (
	"bytes"
	"encoding/binary"
	"errors"
	"fmt"
	"math/rand"
	"os"
	"path/filepath"
	"sort"
	"testing"

	"go.etcd.io/bbolt"
)

// history is a database that changed at random.
type history struct {
	path   string
	random *rand.Rand
}

// opened hands the database to a function. It has a list of its free pages, or none.
func (h history) opened(hasFree bool, use func(db *bbolt.DB) error) error {
	db, err := bbolt.Open(h.path, 0o600, &bbolt.Options{NoFreelistSync: !hasFree, FreelistType: bbolt.FreelistMapType})
	if err != nil {
		return err
	}
	if err := use(db); err != nil {
		db.Close()
		return err
	}
	return db.Close()
}

// changes changes rows in one transaction: it puts more than it takes out, or the other way.
func (h history) changes(tx *bbolt.Tx, isGrowing bool) error {
	for _, name := range []string{"a", "b", "c"} {
		bucket, err := tx.CreateBucketIfNotExists([]byte(name))
		if err != nil {
			return err
		}
		for i := h.random.Intn(200); i > 0; i-- {
			key := []byte(fmt.Sprint(h.random.Intn(2000)))
			if name == "c" { // a bucket that takes no page of its own
				key = key[:1]
			}
			if (h.random.Intn(4) > 0) != isGrowing {
				err = bucket.Delete(key)
			} else {
				err = bucket.Put(key, make([]byte, h.random.Intn(1+h.random.Intn(300))))
			}
			if err != nil {
				return err
			}
		}
		if name == "b" && h.random.Intn(3) == 0 { // a row that takes some pages
			if err := bucket.Put([]byte("long"), make([]byte, h.random.Intn(20000))); err != nil {
				return err
			}
		}
	}
	return nil
}

// follows lets the database follow all its pages: its own check finds nothing, each row is found by its key, and rows can be changed.
func (h history) follows(hasFree bool) error {
	return h.opened(hasFree, func(db *bbolt.DB) error {
		check := func(tx *bbolt.Tx) (err error) {
			for fault := range tx.Check() {
				err = fault
			}
			return err
		}
		if err := db.View(check); err != nil {
			return err
		}
		if err := db.View(func(tx *bbolt.Tx) error {
			return tx.ForEach(func(name []byte, bucket *bbolt.Bucket) error {
				return bucket.ForEach(func(key, value []byte) error {
					if !bytes.Equal(bucket.Get(key), value) {
						return fmt.Errorf("row %q of %q is not found", key, name)
					}
					return nil
				})
			})
		}); err != nil {
			return err
		}
		if err := db.Update(func(tx *bbolt.Tx) error { return h.changes(tx, true) }); err != nil {
			return err
		}
		return db.View(check)
	})
}

// However a database grew and shrank, nothing is found in its pages.
func TestPagesOfAllHistories(t *testing.T) {
	for run := int64(0); run < 10; run++ {
		h := history{filepath.Join(t.TempDir(), "db"), rand.New(rand.NewSource(run))}
		for step := 0; step < 30; step++ {
			if err := h.opened(step%3 == 0, func(db *bbolt.DB) error {
				return db.Update(func(tx *bbolt.Tx) error { return h.changes(tx, step < 15) })
			}); err != nil {
				t.Fatal(err)
			}
			if err := verifyPages(h.path); err != nil {
				t.Fatalf("run %d, step %d: %v", run, step, err)
			}
		}
	}
}

// structure returns the places of a database's file that say where something is, and the keys of pages that lead to others.
func structure(t *testing.T, text []byte) (places []int) {
	t.Helper()
	for number := range pagesInUse(t, text) {
		page := int(number) * os.Getpagesize()
		kind, count := binary.LittleEndian.Uint16(text[page+8:]), int(binary.LittleEndian.Uint16(text[page+10:]))
		long := headerBytes + elementBytes*count
		switch kind {
		case branchPage:
			last := long - elementBytes
			long = last + int(binary.LittleEndian.Uint32(text[page+last:])+binary.LittleEndian.Uint32(text[page+last+4:]))
		case freePage:
			long = headerBytes + 8*count
		}
		for at := page; at < page+long; at++ {
			places = append(places, at)
		}
	}
	sort.Ints(places)
	return places
}

// Whatever bit of a database's pages is changed: it is found, or the database follows them as before.
func TestPagesByTheDatabase(t *testing.T) {
	for _, hasFree := range []bool{true, false} {
		h := history{filepath.Join(t.TempDir(), "db"), rand.New(rand.NewSource(1))}
		for step := 0; step < 30; step++ {
			if err := h.opened(hasFree, func(db *bbolt.DB) error {
				return db.Update(func(tx *bbolt.Tx) error { return h.changes(tx, step < 20) })
			}); err != nil {
				t.Fatal(err)
			}
		}
		right, err := os.ReadFile(h.path)
		if err != nil {
			t.Fatal(err)
		}
		places, found := structure(t, right), 0
		const runs = 300
		for run := 0; run < runs; run++ {
			wrong := append([]byte(nil), right...)
			at := places[h.random.Intn(len(places))]
			wrong[at] ^= 1 << h.random.Intn(8)
			if err := os.WriteFile(h.path, wrong, 0o600); err != nil {
				t.Fatal(err)
			}
			if err := verifyPages(h.path); errors.Is(err, ErrDamaged) {
				found++
			} else if err != nil {
				t.Fatal(err)
			} else if err := h.follows(hasFree); err != nil {
				t.Fatalf("byte %d of page %d: %v", at%os.Getpagesize(), at/os.Getpagesize(), err)
			}
		}
		if t.Logf("%d places, %d of %d are found", len(places), found, runs); found < runs/2 {
			t.Errorf("%d are found", found)
		}
	}
}

// large makes a database that has a list of free pages, and pages that lead to others, and returns its text.
func large(t *testing.T) (h history, text []byte) {
	t.Helper()
	h = history{filepath.Join(t.TempDir(), "db"), rand.New(rand.NewSource(1))}
	if err := h.opened(true, func(db *bbolt.DB) (err error) {
		for step := 0; step < 20 && err == nil; step++ {
			err = db.Update(func(tx *bbolt.Tx) error { return h.changes(tx, true) })
		}
		return err
	}); err != nil {
		t.Fatal(err)
	}
	text, err := os.ReadFile(h.path)
	if err != nil || verifyPages(h.path) != nil {
		t.Fatal(err, verifyPages(h.path))
	}
	return h, text
}

// isDamaged returns whether a database with this text is damaged.
func (h history) isDamaged(t *testing.T, text []byte) bool {
	t.Helper()
	if err := os.WriteFile(h.path, text, 0o600); err != nil {
		t.Fatal(err)
	}
	return errors.Is(verifyPages(h.path), ErrDamaged)
}

// Each bit of a key that leads to a page counts.
func TestKeysThatLeadToPages(t *testing.T) {
	h, right := large(t)
	tries, size := 0, os.Getpagesize()
	for number := range pagesInUse(t, right) {
		page := right[int(number)*size:]
		if binary.LittleEndian.Uint16(page[8:]) != branchPage {
			continue
		}
		for i := 0; i < int(binary.LittleEndian.Uint16(page[10:])); i++ {
			at := headerBytes + elementBytes*i
			at += int(binary.LittleEndian.Uint32(page[at:]))
			wrong := append([]byte(nil), right...)
			wrong[int(number)*size+at] ^= 1 << h.random.Intn(8)
			if tries++; !h.isDamaged(t, wrong) {
				t.Errorf("key %d of page %d may be another one", i, number)
			}
		}
	}
	if tries < 10 {
		t.Errorf("%d keys", tries)
	}
}

// Each page is in use, or once in the list of free pages.
func TestListOfFreePages(t *testing.T) {
	h, right := large(t)
	root, in := newerRoot(right), pagesInUse(t, right)
	free := binary.LittleEndian.Uint64(root[rootFree:])
	delete(in, free)
	used := uint64(0)
	for number := range in {
		used = number
	}
	for what, change := range map[string]func(list []uint64) []uint64{
		"a page is in use":       func(list []uint64) []uint64 { return append(list, used) },
		"a page is there twice":  func(list []uint64) []uint64 { return append(list, list[1]) },
		"a page is left out":     func(list []uint64) []uint64 { return list[1:] },
		"a page is out of range": func(list []uint64) []uint64 { return append(list, binary.LittleEndian.Uint64(root[rootHigh:])) },
		"a root page is free":    func(list []uint64) []uint64 { return append(list, 1) },
		"nothing":                func(list []uint64) []uint64 { return list },
	} {
		wrong := append([]byte(nil), right...)
		page := wrong[free*uint64(os.Getpagesize()):]
		var list []uint64
		for i := 0; i < int(binary.LittleEndian.Uint16(page[10:])); i++ {
			list = append(list, binary.LittleEndian.Uint64(page[headerBytes+8*i:]))
		}
		if len(list) < 3 {
			t.Fatalf("%d pages are free", len(list))
		}
		list = change(list)
		binary.LittleEndian.PutUint16(page[10:], uint16(len(list)))
		for i, number := range list {
			binary.LittleEndian.PutUint64(page[headerBytes+8*i:], number)
		}
		if h.isDamaged(t, wrong) != (what != "nothing") {
			t.Errorf("%s: damaged: %v", what, what == "nothing")
		}
	}
}

// newerRoot returns the newer root page of a file.
func newerRoot(text []byte) []byte {
	second := text[os.Getpagesize():]
	if word := binary.LittleEndian.Uint64; word(second[rootNumber:]) > word(text[rootNumber:]) {
		return second
	}
	return text
}

// pagesInUse returns the numbers of the pages that the newer root page of a file leads to, but for those that follow another one.
func pagesInUse(t *testing.T, text []byte) map[uint64]bool {
	t.Helper()
	root, size := newerRoot(text), uint64(os.Getpagesize())
	free := binary.LittleEndian.Uint64(root[rootFree:])
	p := &pages{text: text, size: size, high: binary.LittleEndian.Uint64(root[rootHigh:])}
	p.seen = make([]uint64, p.high/64+1)
	if err := p.bucket(root[rootBucket:rootFree]); err != nil {
		t.Fatal(err)
	}
	in := map[uint64]bool{}
	if free != noFree {
		in[free] = true
	}
	for number := uint64(0); number < p.high; number++ {
		page := text[number*size:]
		if !p.see(number) && binary.LittleEndian.Uint64(page) == number && binary.LittleEndian.Uint16(page[8:]) <= leafPage {
			in[number] = true
		}
	}
	return in
}
