package voter

import (
	"bytes"
	"fmt"
	"os"

	"go.etcd.io/bbolt"
)

// fileDisk is a disk in a file of bbolt.
type fileDisk struct {
	db     *bbolt.DB
	folder string
	isNew  bool // it has no buckets yet
}

// openFile opens the file in a folder, all of whose rows are as they were saved. It has to be there.
func openFile(folder string) (*fileDisk, error) {
	db, err := openDatabase(file(folder))
	if err != nil {
		return nil, named(file(folder), err)
	}
	return &fileDisk{db: db, folder: folder}, nil
}

// makeFile makes a file. The first transaction makes its buckets, too.
func makeFile(path string) (*fileDisk, error) {
	db, err := bbolt.Open(path, 0o600, &bbolt.Options{Timeout: lockTimeout})
	if err != nil {
		return nil, err
	}
	return &fileDisk{db: db, isNew: true}, nil
}

func (f *fileDisk) View(read func(Rows) error) error {
	return f.db.View(func(tx *bbolt.Tx) error { return read(rowsOfFile(tx)) })
}

func (f *fileDisk) Update(change func(Rows) error) error {
	return f.db.Update(func(tx *bbolt.Tx) error {
		if f.isNew {
			if err := makeBuckets(tx); err != nil {
				return err
			}
			f.isNew = false
		}
		return change(rowsOfFile(tx))
	})
}

// makeBuckets makes all buckets.
func makeBuckets(tx *bbolt.Tx) error {
	for _, name := range buckets {
		if _, err := tx.CreateBucket(name); err != nil {
			return err
		}
	}
	return nil
}

func (f *fileDisk) Sync() error { return syncFolders(f.folder) }

func (f *fileDisk) Close() error { return f.db.Close() }

// fileRows are the rows of a file. Each bucket in which somebody looks for a row has a cursor: one for each row would take memory.
type fileRows struct {
	tx      *bbolt.Tx
	cursors map[string]*bbolt.Cursor
}

// rowsOfFile returns the rows of a file within a transaction.
func rowsOfFile(tx *bbolt.Tx) fileRows { return fileRows{tx, map[string]*bbolt.Cursor{}} }

func (r fileRows) Get(bucket, key []byte) []byte {
	cursor := r.cursors[string(bucket)]
	if cursor == nil {
		cursor = r.tx.Bucket(bucket).Cursor()
		r.cursors[string(bucket)] = cursor
	}
	found, row := cursor.Seek(key)
	if !bytes.Equal(found, key) {
		return nil
	}
	return row
}

func (r fileRows) Put(bucket, key, row []byte) error { return r.tx.Bucket(bucket).Put(key, row) }

func (r fileRows) Remove(bucket, key []byte) error { return r.tx.Bucket(bucket).Delete(key) }

func (r fileRows) Each(bucket []byte, use func(key, row []byte) error) error {
	return r.tx.Bucket(bucket).ForEach(use)
}

// isThere returns an error unless a folder has a state, or it is not known.
func isThere(folder string) error {
	_, err := os.Stat(file(folder))
	if os.IsNotExist(err) {
		return fmt.Errorf("%s: %w", file(folder), ErrMissing)
	}
	return err
}
