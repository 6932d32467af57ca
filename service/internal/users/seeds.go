package users

import (
	"bytes"
	"errors"
	"fmt"
	"os"
	"path/filepath"

	"github.com/nats-io/nkeys"
)

// Seeds are the seeds of users in a folder, NAME.nk for each.
type Seeds struct{ Folder string }

// Show says by which public key the server knows a user. It makes a seed for a user that has none.
func (s Seeds) Show(name string) (string, error) {
	path := filepath.Join(s.Folder, name+".nk")
	pair, err := readSeed(path)
	if errors.Is(err, os.ErrNotExist) {
		pair, err = makeSeed(path)
	}
	if err != nil {
		return "", fmt.Errorf("%s: %w", path, err)
	}
	public, err := pair.PublicKey()
	if err != nil || !nkeys.IsValidPublicUserKey(public) {
		return "", fmt.Errorf("%s: this is no seed of a user", path)
	}
	return fmt.Sprintf("nkey: %s", public), nil
}

// readSeed reads a seed that is there.
func readSeed(path string) (nkeys.KeyPair, error) {
	text, err := os.ReadFile(path)
	if err != nil {
		return nil, err
	}
	return nkeys.FromSeed(bytes.TrimSpace(text))
}

// makeSeed makes a seed. It writes over no file.
func makeSeed(path string) (nkeys.KeyPair, error) {
	pair, err := nkeys.CreateUser()
	if err != nil {
		return nil, err
	}
	seed, err := pair.Seed()
	if err != nil {
		return nil, err
	}
	if err := os.MkdirAll(filepath.Dir(path), 0o700); err != nil {
		return nil, err
	}
	file, err := os.OpenFile(path, os.O_WRONLY|os.O_CREATE|os.O_EXCL, 0o600)
	if err != nil {
		return nil, err
	}
	_, err = file.Write(append(seed, '\n'))
	if closed := file.Close(); err == nil {
		err = closed
	}
	return pair, err
}
