package voter

import (
	"encoding/json"
	"fmt"
	"os"
	"time"

	"calvundek.example/service/internal/config"
	"calvundek.example/service/qlock"
	"go.etcd.io/bbolt"
)

// oldBlock is how many grants a lock had for each loss of a voter's state in format 1.
const oldBlock = uint64(1) << 35

// Upgrade makes a state of this format of one of format 1, beside which it stays as voter.db.1. All voters and clients of
// the cluster have to be stopped: nobody has a vote any more. Grants go on above all that the old state may have given, so
// guards go on, too, and so do stamps.
func Upgrade(own *config.Voter, cluster *config.Cluster) (Meta, error) {
	path := file(own.Data)
	meta, known, err := readFormat1(path, Owner(own, cluster), cluster.Generation)
	if err != nil {
		return meta, named(path, err)
	}
	if meta.Identity, err = config.Nonce(); err != nil {
		return meta, err
	}
	meta.Made = time.Now().UTC()
	second := path + ".new"
	if err := os.RemoveAll(second); err != nil {
		return meta, err
	}
	if err := write(second, meta, NewGenerations(cluster), known.sessions, known.ceiling); err != nil {
		return meta, err
	}
	if err := os.Link(path, path+".1"); err != nil {
		return meta, err
	}
	if err := os.Rename(second, path); err != nil {
		return meta, err
	}
	return meta, syncFolders(own.Data)
}

// format1 is what a state of format 1 keeps for the next one.
type format1 struct {
	sessions Knows
	ceiling  uint64
}

// readFormat1 reads a state of format 1, whose rows but votes had no checksums.
func readFormat1(path string, want Meta, generation uint64) (meta Meta, known format1, err error) {
	db, err := bbolt.Open(path, 0o600, &bbolt.Options{Timeout: lockTimeout, ReadOnly: true})
	if err != nil {
		return meta, known, err
	}
	defer db.Close()
	known.sessions.Sessions = map[int]Session{}
	err = db.View(func(tx *bbolt.Tx) error {
		if tx.Bucket(metaBucket) == nil || tx.Bucket(sessionBucket) == nil || !isOldFormat(rowsOfFile(tx)) {
			return fmt.Errorf("%w: only one of format 1 can be upgraded", ErrFormat)
		}
		var old struct {
			Meta
			Block uint64 `json:"block"` // how often the state was lost
		}
		if err := json.Unmarshal(tx.Bucket(metaBucket).Get(metaBucket), &old); err != nil || old.Format != 1 {
			return fmt.Errorf("%w: only one of format 1 can be upgraded", ErrFormat)
		}
		if old.owner() != want.owner() {
			return fmt.Errorf("%w: of %s, not of %s", ErrOther, old.owner(), want.owner())
		}
		var plans Generations
		if err := json.Unmarshal(tx.Bucket(metaBucket).Get(plansKey), &plans); err != nil || plans.Number != generation {
			return fmt.Errorf("%w: of another plan than that of the cluster's file", ErrOther)
		}
		meta, known.ceiling = want, (old.Block+1)*oldBlock
		return tx.Bucket(sessionBucket).ForEach(func(key, value []byte) error {
			var row Session
			if err := json.Unmarshal(value, &row); err != nil || len(key) != 1 || key[0] >= qlock.MaxClients {
				return fmt.Errorf("session %x: %w", key, ErrDamaged)
			}
			known.sessions.Sessions[int(key[0])] = Session{Epoch: row.Epoch, Base: row.Reserved, Reserved: row.Reserved}
			return nil
		})
	})
	return meta, known, err
}
