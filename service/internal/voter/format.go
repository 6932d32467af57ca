package voter

import (
	"encoding/json"
	"fmt"

	"calvundek.example/service/internal/level"
)

// How the form of a state changes.
//
// The format of a state is that of the cluster's level, as the voter knows it. A program reads the
// formats of the levels that it knows, and writes that of the level. So the older program may be put
// back until the level is raised. Then the file changes in the transaction that saves the new level. From
// then on the older program says that a newer one made the state.

// The formats. Format 1 had checksums of votes alone. Only Upgrade reads it.
const (
	firstFormat  = 2
	floorFormat  = 3 // has floors of shards
	raisedFormat = 4 // has own.Raised. As level.Greets it is for trials of an upgrade alone
)

// formatOf returns the format of a state at a level of the cluster.
func formatOf(of uint64) int {
	switch {
	case of >= level.Greets:
		return raisedFormat
	case of >= level.Floors:
		return floorFormat
	}
	return firstFormat
}

// checkFormat returns an error unless this program reads a state's format, and knows its level.
func (s *store) checkFormat() error {
	oldest, newest := formatOf(level.Oldest), formatOf(level.Newest)
	switch {
	case s.meta.Format > newest:
		return fmt.Errorf("%w: it has format %d, and this one reads formats up to %d", ErrNewer, s.meta.Format, newest)
	case s.own.level() > level.Newest:
		return fmt.Errorf("%w: it has level %d, and this one knows levels up to %d", ErrNewer, s.own.level(), level.Newest)
	case s.meta.Format < oldest:
		return fmt.Errorf("%w: it has format %d, and this one reads formats from %d on", ErrFormat, s.meta.Format, oldest)
	}
	return nil
}

// putMeta saves whose state it is, and its format.
func (b *batch) putMeta(meta Meta) error {
	value, err := json.Marshal(meta)
	if err != nil {
		return err
	}
	return b.put(metaBucket, metaBucket, value)
}
