package guard_test

import (
	"encoding/binary"
	"errors"
	"fmt"
	"os"
	"path/filepath"

	"calvundek.example/service/guard"
	"go.etcd.io/bbolt"
)

// write writes a value into a database of bbolt, in one transaction with its guard.
func write(db *bbolt.DB, pass []byte, value string) (turn uint64, err error) {
	err = db.Update(func(tx *bbolt.Tx) error {
		bucket, err := tx.CreateBucketIfNotExists([]byte("orders"))
		if err != nil {
			return err
		}
		state := bucket.Get([]byte("guard"))
		if state == nil { // made with what it protects
			state = guard.New()
		}
		next, admitted, err := guard.Admit(state, pass)
		if err != nil {
			return err // nothing is written
		}
		turn = admitted
		if err := bucket.Put([]byte("guard"), next); err != nil {
			return err
		}
		return bucket.Put([]byte("value"), []byte(value))
	})
	return turn, err
}

// pass returns a pass with these grants of two voters. A program takes that of locks.Held.Token.
func pass(first, second uint64) []byte {
	p := make([]byte, guard.PassBytes)
	binary.LittleEndian.PutUint64(p, first)
	binary.LittleEndian.PutUint64(p[8:], second)
	return p
}

// A database of bbolt that keeps late writes out.
func ExampleAdmit() {
	folder, err := os.MkdirTemp("", "guard")
	if err != nil {
		fmt.Println(err)
		return
	}
	defer os.RemoveAll(folder)
	db, err := bbolt.Open(filepath.Join(folder, "orders.db"), 0o600, nil)
	if err != nil {
		fmt.Println(err)
		return
	}
	defer db.Close()
	fmt.Println(write(db, pass(1, 1), "first"))
	fmt.Println(write(db, pass(2, 3), "second"))
	_, err = write(db, pass(1, 1), "late")
	fmt.Println(errors.Is(err, guard.ErrOlder))
	// Output:
	// 1 <nil>
	// 2 <nil>
	// true
}
