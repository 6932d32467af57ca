package voter

import (
	"crypto/sha256"
	"encoding/hex"
	"strconv"
	"strings"

	"calvundek.example/service/internal/wire"
	"calvundek.example/service/qlock"
)

// Names of sessions, and hashes of these, as bytes.
//
// What others see of a session is its user and 32 hexadecimal digits, a hash of its name. Nearly all names are a user and digits, too. In a
// cluster with shards the number of the shard, which its table knows, takes the place of the last six. A seat keeps the bytes that the
// digits say. A text that is not made so is kept as it is, among the rarities.

// digits are the bytes that hexadecimal digits say.
type digits [16]byte

// digitsOfShard is how many of the bytes a name has in which the number of its shard comes first.
const digitsOfShard = 13

// read reads digits into the first bytes, and returns whether a text is those of so many bytes, in lower case.
func (d *digits) read(text string, bytes int) bool {
	if len(text) != 2*bytes {
		return false
	}
	var said digits
	for i := 0; i < len(text); i++ {
		digit := text[i] - '0'
		if digit > 9 {
			if digit = text[i] - 'a' + 10; digit < 10 || digit > 15 {
				return false
			}
		}
		said[i/2] = said[i/2]<<4 | digit
	}
	*d = said
	return true
}

// over returns how a proved row names a session whose hash has these digits. Of sessions of other users with the same name it has another
// name.
func (d digits) over(mask digits) (session qlock.Session) {
	for i := range d {
		session[i] = d[i] ^ mask[i]
	}
	return session
}

// maskOf returns what makes the sessions of a user differ from those of others.
func maskOf(user string) (mask digits) {
	sum := sha256.Sum256([]byte(user))
	copy(mask[:], sum[:])
	return mask
}

// hashed returns what a voter keeps and shows of a session: its user, and a part of the SHA-256 of its name.
func hashed(session string) string {
	user, name, _ := strings.Cut(session, ".")
	sum := sha256.Sum256([]byte(name))
	return wire.SessionName(user, hex.EncodeToString(sum[:16]))
}

// readHash returns the user and the digits of a hash, and whether it has them.
func readHash(hash string) (user string, d digits, ok bool) {
	user, word, _ := strings.Cut(hash, ".")
	ok = d.read(word, len(d))
	return user, d, ok
}

// sessionOf returns how a proved row names a session of this hash.
func sessionOf(hash string) (session qlock.Session) {
	if user, d, ok := readHash(hash); ok {
		return d.over(maskOf(user))
	}
	sum := sha256.Sum256([]byte(hash))
	copy(session[:], sum[:])
	return session
}

// mostHash is how long a hash is of which a text needs no memory, where it is only looked at.
const mostHash = 96

// appendHash appends the hash in the row of a number.
func (t *table) appendHash(text []byte, number int) []byte {
	seat := t.seats.at(number)
	if seat == nil || !seat.marks.has(hashInDigits) {
		return append(text, t.rare(number).hash...)
	}
	var room [2 * len(digits{})]byte
	hex.Encode(room[:], seat.hash[:])
	return append(append(append(text, seat.roll.user...), '.'), room[:]...)
}

// hash returns the hash in the row of a number.
func (t *table) hash(number int) string {
	var room [mostHash]byte
	return string(t.appendHash(room[:0], number))
}

// hasHash returns whether the row of a number has this hash.
func (t *table) hasHash(number int, hash string) bool {
	var room [mostHash]byte
	return string(t.appendHash(room[:0], number)) == hash
}

// setHash notes that a number has the session of a hash, "" for none, of which nothing else is known yet.
func (t *table) setHash(number int, hash string) {
	seat := t.seat(number)
	user, d, ok := readHash(hash)
	seat.hash = d
	seat.marks &^= nameInDigits | nameInShard | isBundled | isNoted
	seat.marks.set(hashInDigits, ok)
	if hash == "" {
		t.join(seat, nil)
	} else {
		t.join(seat, t.roll(user, ""))
	}
	rare := t.rare(number)
	if rare.hash, rare.name, rare.process, rare.note = hash, "", "", ""; ok {
		rare.hash = ""
	}
	t.keep(number, rare)
}

// user returns the user of the session that a number has, "" if it has none.
func (t *table) user(number int) string {
	if seat := t.seats.at(number); seat != nil && seat.roll != nil {
		return seat.roll.user
	}
	return ""
}

// called is a session by its name.
type called struct {
	name, user string
	nonce      digits
	as         marks // how the digits say the name: nameInDigits, nameInShard, or 0 if they do not
}

// called returns the session that has a name.
func (t *table) called(name string) called {
	user, word, _ := strings.Cut(name, ".")
	shard, rest, _ := strings.Cut(word, "-")
	one := called{name: name, user: user}
	switch {
	case one.nonce.read(word, len(digits{})):
		one.as = nameInDigits
	case t.isNumber(shard) && one.nonce.read(rest, digitsOfShard):
		one.as = nameInShard
	}
	return one
}

// isNumber returns whether a word is the number of the shard.
func (t *table) isNumber(word string) bool {
	var room [20]byte
	return string(strconv.AppendInt(room[:0], int64(t.number), 10)) == word
}

// isOf returns whether a session was heard in this run, and has a number.
func (t *table) isOf(number int, one called) bool {
	seat := t.seats.at(number)
	if seat != nil && seat.marks.has(one.as) {
		return seat.nonce == one.nonce && seat.roll.user == one.user
	}
	return one.name != "" && one.name == t.rare(number).name
}

// numbersOf returns the numbers that a session has which was heard in this run, as bits.
func (t *table) numbersOf(one called) (numbers uint64) {
	if one.as == 0 {
		for number := range t.rarities {
			if t.isOf(number, one) {
				numbers |= 1 << number
			}
		}
		return numbers
	}
	t.seats.each(func(number int, seat *seat) {
		if seat.nonce == one.nonce && seat.marks.has(one.as) && seat.roll.user == one.user {
			numbers |= 1 << number
		}
	})
	return numbers
}

// isHeard returns whether the session of a number was heard in this run, so that it has a name.
func (t *table) isHeard(number int) bool {
	seat := t.seats.at(number)
	return seat != nil && seat.marks.has(nameInDigits|nameInShard) || t.rare(number).name != ""
}

// name returns the name of a number's session, "" if it was not heard in this run. Nothing can be sent to others.
func (t *table) name(number int) string {
	seat := t.seats.at(number)
	switch {
	case seat != nil && seat.marks.has(nameInDigits):
		return wire.SessionName(seat.roll.user, hex.EncodeToString(seat.nonce[:]))
	case seat != nil && seat.marks.has(nameInShard):
		return wire.SessionName(seat.roll.user, strconv.Itoa(t.number)+"-"+hex.EncodeToString(seat.nonce[:digitsOfShard]))
	}
	return t.rare(number).name
}

// setName notes the name of a number's session, of which there is the hash.
func (t *table) setName(number int, one called) {
	seat := t.seat(number)
	seat.nonce, seat.marks = one.nonce, seat.marks&^(nameInDigits|nameInShard)|one.as
	rare := t.rare(number)
	if rare.name = ""; one.as == 0 {
		rare.name = one.name
	}
	t.keep(number, rare)
}
