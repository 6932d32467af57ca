package voter

import (
	"encoding/json"
	"strconv"
	"time"

	"calvundek.example/service/internal/wire"
	"calvundek.example/service/qlock"
	"calvundek.example/service/transport"
)

// What a voter shows of all its sessions and votes comes in pages, each of which says from where on the next one begins. One is made within
// the loop, so it is short.
const (
	mostPage      = 128 << 10 // bytes of a page, but for the last thing in it
	numbersOfPage = 1 << 16   // that one page looks at
)

// page is a part of a list, as JSON.
type page []byte

// beginPage begins a page of a list.
func beginPage(list string) page { return page(`{"` + list + `":[`) }

// add adds one more to the list.
func (p *page) add(view interface{}) {
	text, err := json.Marshal(view)
	if err != nil {
		return // never: a view has nothing that is not written
	}
	if last := (*p)[len(*p)-1]; last != '[' {
		*p = append(*p, ',')
	}
	*p = append(*p, text...)
}

// isFull returns whether a page has no room for more.
func (p page) isFull() bool { return len(p) >= mostPage }

// end ends a page, and says from where on the next one begins, 0 if this is the last one.
func (p page) end(next int) page {
	return append(strconv.AppendInt(append(p, `],"next":`...), int64(next), 10), '}')
}

// pageOfSessions returns a page of the open sessions, from a key on.
func (d *Daemon) pageOfSessions(from int) page {
	p, end := beginPage("sessions"), d.cluster.Numbers()
	if from < 0 {
		from = end
	}
	next := from
	for ; next < end && next-from < numbersOfPage && !p.isFull(); next++ {
		s, number := d.shards[next/qlock.MaxClients], next%qlock.MaxClients
		if s == nil {
			next += qlock.MaxClients - 1 - number
		} else if seat := s.seats.at(number); seat != nil && seat.marks.has(isOpen) {
			p.add(d.viewOf(s, number))
		}
	}
	if next >= end {
		next = 0
	}
	return p.end(next)
}

// pageOfVotes returns a page of the votes that somebody has or waits for: those before a place, or the first page if that is 0. Who reads
// all pages sees each vote that stays, and some twice.
func (d *Daemon) pageOfVotes(from int, now time.Time) page {
	p, all := beginPage("votes"), pass{from}
	if from < 0 || len(d.busy.all) == 0 {
		return p.end(0)
	}
	for isEnd := false; !isEnd && !p.isFull(); {
		isEnd = all.share(&d.busy, 1, func(v *vote) { p.add(d.view(v, now)) })
	}
	return p.end(all.place)
}

// What those who only look may ask.
const (
	mostQuestions   = 16                     // that wait
	questionsOfUser = 4                      // of one user that wait
	rest            = 9                      // no answer begins for so many times as long as the last one took
	longestRest     = 250 * time.Millisecond // on a busy machine the loop may have stood still
)

// questions are those that wait, of users who only look.
type questions struct {
	waiting []transport.Message
	next    time.Time // when the next one may be answered
}

// put puts a question behind the others, and returns false if there is no room: who asks repeats it.
func (q *questions) put(m transport.Message) bool {
	ofUser := 0
	for _, one := range q.waiting {
		if one.Sender() == m.Sender() {
			ofUser++
		}
	}
	if len(q.waiting) >= mostQuestions || ofUser >= questionsOfUser {
		return false
	}
	q.waiting = append(q.waiting, m)
	return true
}

// question takes a question of somebody who only looks. Another voter's is answered at once: it starts, and waits for that.
func (d *Daemon) question(m transport.Message) {
	if wire.IsVoter(m.Sender()) {
		d.operate(m, false, d.now())
	} else if !d.questions.put(m) {
		d.noRoom.Add(m.Sender())
	}
}

// answerNext answers the next question of somebody who only looks, so that all of these take a tenth of the loop's time at most.
func (d *Daemon) answerNext() {
	if len(d.questions.waiting) == 0 {
		return
	}
	now := d.now()
	if now.Before(d.questions.next) {
		return
	}
	asked := d.questions.waiting[0]
	d.questions.waiting = d.questions.waiting[1:]
	d.operate(asked, false, now)
	ended := d.now()
	d.questions.next = ended.Add(sooner(rest*ended.Sub(now), longestRest))
}
