package voter

import (
	"encoding/binary"
	"errors"
	"testing"
)

// listed are the rows of one bucket, whatever its name.
type listed struct {
	Rows
	keys, rows [][]byte
}

func (l *listed) Each(_ []byte, use func(key, row []byte) error) error {
	for i := range l.keys {
		if err := use(l.keys[i], l.rows[i]); err != nil {
			return err
		}
	}
	return nil
}

// listOf returns so many rows, each with its number as key and value.
func listOf(count int) *listed {
	l := &listed{}
	for i := 0; i < count; i++ {
		key := binary.BigEndian.AppendUint32(nil, uint32(i))
		l.keys, l.rows = append(l.keys, key), append(l.rows, rowOf(voteBucket, key, key))
	}
	return l
}

// All rows are read, and handed on in their order. The first one that can't be read, or not taken, or that is damaged, ends that.
func TestAllRowsAreReadInTheirOrder(t *testing.T) {
	wrong := errors.New("wrong")
	for _, count := range []int{0, 1, 3, mostRead, mostRead + 1, 3*mostRead + 5} {
		for _, end := range []int{-1, 0, count / 2, count - 1} {
			for _, how := range []string{"read", "take", "damage"} {
				l, taken := listOf(count), 0
				if how == "damage" && end >= 0 && end < count {
					l.rows[end][len(l.rows[end])-1] ^= 1
				}
				err := readAll(l, voteBucket, func(_, value []byte) (int, error) {
					number := int(binary.BigEndian.Uint32(value))
					if how == "read" && number == end {
						return number, wrong
					}
					return number, nil
				}, func(number int) error {
					if how == "take" && number == end {
						return wrong
					}
					if number != taken {
						t.Fatalf("row %d comes behind row %d", number, taken-1)
					}
					taken++
					return nil
				})
				switch isEnded := end >= 0 && end < count; {
				case !isEnded && (err != nil || taken != count):
					t.Fatalf("%d of %d rows: %v", taken, count, err)
				case isEnded && (taken != end || !errors.Is(err, wrong) && !errors.Is(err, ErrDamaged)):
					t.Fatalf("%s: %d of %d rows are taken up to row %d: %v", how, taken, count, end, err)
				}
			}
		}
	}
}
