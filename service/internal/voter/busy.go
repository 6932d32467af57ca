package voter

// kind is a kind of list of votes. A vote is in one list of each kind at most.
type kind int

const (
	inBusy  kind = iota // those that somebody has or waits for
	inShard             // those of a shard
	inSoon              // those that each round looks at
	inOld               // those whose grant is from before the start
	kinds
)

// voteList is a list of votes, in an order that depends on nothing but what came: a map would hand them out by chance, and whom a voter
// reminds first would differ from run to run. The zero value has none.
type voteList struct{ all []*vote }

// put adds a vote to a list of a kind, or takes it out.
func (l *voteList) put(v *vote, in kind, isIn bool) {
	if isIn {
		l.add(v, in)
	} else {
		l.remove(v, in)
	}
}

// add adds a vote to a list of a kind, unless it is there.
func (l *voteList) add(v *vote, in kind) {
	if v.places[in] == 0 {
		l.all = append(l.all, v)
		v.places[in] = int32(len(l.all))
	}
}

// remove takes a vote out, if it is there. The last one takes its place.
func (l *voteList) remove(v *vote, in kind) {
	place := v.places[in]
	if place == 0 {
		return
	}
	last := len(l.all) - 1
	moved := l.all[last]
	l.all[place-1], moved.places[in] = moved, place
	l.all[last] = nil
	l.all, v.places[in] = l.all[:last], 0
}

// each hands all votes to a function, which may remove the one that it gets.
func (l *voteList) each(use func(*vote)) {
	for i := len(l.all) - 1; i >= 0; i-- {
		use(l.all[i])
	}
}

// pass goes over a list downwards, a share at a time. A vote that is taken out is replaced by the last one: so those that stay are all
// handed out, and some twice. The zero value begins.
type pass struct{ place int }

// share hands the next votes to a function, so many at most, which may remove the one that it gets. It returns whether the pass ended.
func (p *pass) share(of *voteList, most int, use func(*vote)) (isEnd bool) {
	if p.place == 0 || p.place > len(of.all) {
		p.place = len(of.all)
	}
	for n := 0; n < most && p.place > 0; n++ {
		p.place--
		use(of.all[p.place])
	}
	return p.place == 0
}
