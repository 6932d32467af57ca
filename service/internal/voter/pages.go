package voter

import (
	"bytes"
	"encoding/binary"
	"fmt"
	"os"
	"syscall"
)

// The pages of a database are looked at before the database follows them: one that leads to itself would lead it
// round for ever. A page has a header (its number, its kind, how many elements it has, and how many pages follow it),
// and elements, which say where their keys and values are.
//
// The database finds a row by the keys of the pages that lead to it, and the page to which one leads by its first key. It writes to the pages
// that are free. So these keys have to be right, and each page is either in use or free. All that the database's own check of its pages finds
// is found here, in a tenth of the time (TestPagesByTheDatabase).

// The parts of a page and of an element, and the kinds of pages and elements (bbolt, page.go).
const (
	headerBytes  = 16
	elementBytes = 16
	branchPage   = 1
	leafPage     = 2
	freePage     = 0x10
	isBucket     = 1
	bucketBytes  = 16 // a bucket's root page, and a count; a bucket without a page of its own is behind that
)

// The root pages are the first two of a file. These are the places in one of what it leads to.
const (
	rootPages  = 2
	rootBucket = 32
	rootFree   = 48
	rootHigh   = 56
	rootNumber = 64
	noFree     = ^uint64(0)
)

// pages is a database's file.
type pages struct {
	text []byte
	size uint64
	high uint64   // no page has this number, or a greater one
	seen []uint64 // the pages that something led to, a bit for each
}

// tree is the tree of pages of a bucket.
type tree struct {
	*pages
	last []byte // the greatest key so far
}

// verifyPages returns ErrDamaged unless the pages that the newer root page leads to are trees within the file with their keys in
// order, and all others are free. The root pages have to be as they were written (verifyRoots).
func verifyPages(path string) error {
	text, err := mapFile(path)
	if err != nil {
		return err
	}
	defer syscall.Munmap(text)
	size := uint64(binary.LittleEndian.Uint32(text[rootSize:]))
	root, second := text, text[size:]
	if number := binary.LittleEndian.Uint64; number(second[rootNumber:]) > number(root[rootNumber:]) {
		root = second
	}
	p := &pages{text: text, size: size, high: binary.LittleEndian.Uint64(root[rootHigh:])}
	if there := uint64(len(text)) / size; p.high > there {
		return fmt.Errorf("%w: of %d pages %d are there", ErrDamaged, p.high, there)
	}
	p.seen = make([]uint64, p.high/64+1)
	for number := uint64(0); number < rootPages; number++ {
		p.see(number)
	}
	if err := p.bucket(root[rootBucket:rootFree]); err != nil {
		return err
	}
	if free := binary.LittleEndian.Uint64(root[rootFree:]); free != noFree {
		return p.free(free)
	}
	return nil // all that nothing leads to are free
}

// mapFile returns the bytes of a file. Its parts are read as somebody looks at them.
func mapFile(path string) ([]byte, error) {
	f, err := os.Open(path)
	if err != nil {
		return nil, err
	}
	defer f.Close()
	info, err := f.Stat()
	if err != nil {
		return nil, err
	}
	return syscall.Mmap(int(f.Fd()), 0, int(info.Size()), syscall.PROT_READ, syscall.MAP_SHARED)
}

// damagedPage returns the error of a page.
func damagedPage(number uint64) error { return fmt.Errorf("%w: page %d", ErrDamaged, number) }

// see notes that something leads to a page, and returns whether nothing did before.
func (p *pages) see(number uint64) bool {
	word, bit := &p.seen[number/64], uint64(1)<<(number%64)
	isNew := *word&bit == 0
	*word |= bit
	return isNew
}

// page returns a page with those that follow it. Each may be led to once.
func (p *pages) page(number uint64) ([]byte, error) {
	if number >= p.high {
		return nil, damagedPage(number)
	}
	page := p.text[number*p.size:]
	more := uint64(binary.LittleEndian.Uint32(page[12:]))
	if binary.LittleEndian.Uint64(page) != number || number+more >= p.high {
		return nil, damagedPage(number)
	}
	for n := number; n <= number+more; n++ {
		if !p.see(n) {
			return nil, damagedPage(n)
		}
	}
	return page[:(1+more)*p.size], nil
}

// bucket looks at the pages of a bucket, or at the one that it is itself.
func (p *pages) bucket(value []byte) error {
	if len(value) < bucketBytes {
		return ErrDamaged
	}
	t := &tree{pages: p}
	if root := binary.LittleEndian.Uint64(value); root != 0 {
		return t.visit(root, nil)
	}
	return t.elements(value[bucketBytes:], nil)
}

// visit looks at a page, which has this key first unless that is nil, and at all to which it leads.
func (t *tree) visit(number uint64, first []byte) error {
	page, err := t.page(number)
	if err != nil {
		return err
	}
	if err := t.elements(page, first); err != nil {
		return fmt.Errorf("%w of page %d", err, number)
	}
	return nil
}

// elements looks at the elements of a page, and at the pages to which they lead.
func (t *tree) elements(page, first []byte) error {
	if len(page) < headerBytes {
		return ErrDamaged
	}
	kind, count := binary.LittleEndian.Uint16(page[8:]), int(binary.LittleEndian.Uint16(page[10:]))
	isFewer := count == 0 && (kind == branchPage || first != nil) // than the database writes
	if kind != branchPage && kind != leafPage || headerBytes+count*elementBytes > len(page) || isFewer {
		return ErrDamaged
	}
	for i := 0; i < count; i++ {
		element, look := page[headerBytes+i*elementBytes:], t.leaf
		if kind == branchPage {
			look = t.branch
		}
		key, err := look(element)
		if err != nil {
			return err
		}
		if i == 0 && first != nil && !bytes.Equal(key, first) {
			return ErrDamaged
		}
	}
	return nil
}

// branch looks at an element that leads to a page, and returns its key.
func (t *tree) branch(element []byte) ([]byte, error) {
	at, size := uint64(binary.LittleEndian.Uint32(element)), uint64(binary.LittleEndian.Uint32(element[4:]))
	if size == 0 || at+size > uint64(len(element)) {
		return nil, ErrDamaged
	}
	key := element[at : at+size]
	return key, t.visit(binary.LittleEndian.Uint64(element[8:]), key)
}

// leaf looks at an element that has a key and a value, or a bucket, and returns its key.
func (t *tree) leaf(element []byte) ([]byte, error) {
	word := func(i int) uint64 { return uint64(binary.LittleEndian.Uint32(element[4*i:])) }
	at, from := word(1), word(1)+word(2)
	if from+word(3) > uint64(len(element)) {
		return nil, ErrDamaged
	}
	key := element[at:from]
	if bytes.Compare(t.last, key) >= 0 {
		return nil, ErrDamaged
	}
	if t.last = key; word(0)&isBucket == 0 {
		return key, nil
	}
	return key, t.bucket(element[from : from+word(3)])
}

// free looks at the list of free pages, once all that are in use were seen.
func (p *pages) free(number uint64) error {
	page, err := p.page(number)
	if err != nil {
		return err
	}
	const many = 0xffff // then the count is in front of the list
	kind, count, list := binary.LittleEndian.Uint16(page[8:]), uint64(binary.LittleEndian.Uint16(page[10:])), page[headerBytes:]
	if count == many {
		count, list = binary.LittleEndian.Uint64(list), list[8:]
	}
	if kind != freePage || count > uint64(len(list)/8) {
		return damagedPage(number)
	}
	for i := uint64(0); i < count; i++ {
		if one := binary.LittleEndian.Uint64(list[8*i:]); one >= p.high || !p.see(one) {
			return damagedPage(one)
		}
	}
	for n := uint64(0); n < p.high; n++ {
		if p.see(n) {
			return fmt.Errorf("%w: page %d is lost", ErrDamaged, n)
		}
	}
	return nil
}
