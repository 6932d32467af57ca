package voter

import (
	"errors"
	"fmt"
	"strconv"

	"calvundek.example/service/internal/event"
	"calvundek.example/service/internal/level"
)

// ErrLevel is returned where other voters are at a level that this program does not know.
var ErrLevel = errors.New("the cluster is at a level of newer programs")

// level returns the cluster's level, as this voter knows it.
func (o own) level() uint64 {
	if o.Level == 0 {
		return level.Oldest
	}
	return o.Level
}

// Levelled is the reply to `level N` and `would-level N`.
type Levelled struct {
	Level  uint64 `json:"level"`
	Newest uint64 `json:"newest"` // that this program knows
}

// raiseLevel obeys `level N`, or only says whether it would.
func (d *Daemon) raiseLevel(number string, does bool) interface{} {
	wanted, err := strconv.ParseUint(number, 10, 64)
	if err == nil {
		err = d.mayLevel(wanted)
	}
	if err != nil {
		return Refused{err.Error()}
	}
	if does && wanted != d.store.own.level() {
		d.setLevel(wanted)
	}
	return Levelled{d.store.own.level(), level.Newest}
}

// mostOlder is how many sessions a reply names that are too old.
const mostOlder = 10

// mayLevel returns an error unless this voter and all its sessions may go to a level.
func (d *Daemon) mayLevel(wanted uint64) error {
	switch now := d.store.own.level(); {
	case wanted == now:
		return nil
	case wanted != now+1:
		return fmt.Errorf("the level is %d: levels are raised one by one", now)
	case wanted > level.Newest:
		return fmt.Errorf("this program knows levels up to %d: install a newer one first", level.Newest)
	}
	var older []string
	count := 0
	for _, s := range d.inTurn {
		s.seats.each(func(number int, seat *seat) {
			if !seat.marks.has(isOpen) || uint64(seat.level) >= wanted || s.isDead(number) {
				return
			}
			if count++; count <= mostOlder {
				older = append(older, d.cluster.NumberOf(s.key(number)))
			}
		})
	}
	switch {
	case count > mostOlder:
		return fmt.Errorf("%d sessions of older programs, or not heard yet: %v and others", count, older)
	case count > 0:
		return fmt.Errorf("sessions of older programs, or not heard yet: %v", older)
	}
	return nil
}

// setLevel notes the cluster's level. It is saved before anything leaves, in the format of the level.
func (d *Daemon) setLevel(now uint64) {
	d.store.own.Level, d.newOwn = now, true
	if formatOf(now) >= raisedFormat {
		d.store.own.Raised = d.store.own.Start
	}
	d.log.Write(event.Info, "level", "level", now)
}

// learnsLevel takes the level that another voter knows.
func (d *Daemon) learnsLevel(theirs uint64) error {
	if theirs > level.Newest {
		return fmt.Errorf("%w: %d, and this one knows levels up to %d", ErrLevel, theirs, level.Newest)
	}
	if theirs > d.store.own.level() {
		d.setLevel(theirs)
	}
	return nil
}
