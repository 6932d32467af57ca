// Package moment keeps times in eight bytes: a time.Time takes 24.
package moment

import "time"

// Moment is a time, as how long it is after this program began. So a change of the clock on the wall does not move it.
type Moment time.Duration

// Never is before all times.
const Never Moment = -1 << 62

var begun = time.Now()

// Of returns the moment of a time.
func Of(t time.Time) Moment { return Moment(t.Sub(begun)) }

// Time returns the time of a moment.
func (m Moment) Time() time.Time { return begun.Add(time.Duration(m)) }
