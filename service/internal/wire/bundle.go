package wire

import "bytes"

// emptyLine is what is between two messages of a bundle, with the end of the line before.
const emptyLine = "\n\n"

// MostBundled is how many messages a bundle may have. Whoever reads one drops those behind.
const MostBundled = 256

// Bundle is several messages in one, for one mailbox. Behind each message but the last one is an empty line. No line of a message is
// empty, as each has the name of a lock or a dot in front, so it is plain where a message ends: also behind a line of a lock that is
// called "qlock2", as the first word of a header is. Whoever takes a bundle takes its messages as if each had come alone.
type Bundle struct {
	bytes []byte
	count int
}

// HasRoom returns whether a message may be added: the bundle is no longer than a message may be then. One that is empty has room for any.
func (b *Bundle) HasRoom(message []byte) bool {
	return b.count == 0 || b.count < MostBundled && len(b.bytes)+1+len(message) <= MostBytes
}

// Add adds a message, which ends with the end of a line.
func (b *Bundle) Add(message []byte) {
	if b.count > 0 {
		b.bytes = append(b.bytes, '\n')
	}
	b.bytes = append(b.bytes, message...)
	b.count++
}

// Count returns how many messages there are.
func (b *Bundle) Count() int { return b.count }

// Take returns what there is to send, and empties the bundle.
func (b *Bundle) Take() []byte {
	bytes := b.bytes
	*b = Bundle{}
	return bytes
}

// Messages hands the messages of a bundle to a function, in their order. One that came alone is a bundle of one. It returns whether these
// were all: more than MostBundled are not handed out. Of several each is a copy, so who keeps one does not keep the whole bundle.
func Messages(bundle []byte, use func(message []byte)) (all bool) {
	for count := 0; count < MostBundled; count++ {
		end := bytes.Index(bundle, []byte(emptyLine))
		switch {
		case end < 0 && count == 0:
			use(bundle)
			return true
		case end < 0:
			use(append([]byte(nil), bundle...))
			return true
		}
		use(append([]byte(nil), bundle[:end+1]...))
		bundle = bundle[end+len(emptyLine):]
	}
	return false
}

// addressee is what is in front of the name of a session in the first line of a message to it, within a bundle for its process.
const addressee = ". to "

// AddressTo returns a message with a first line that says to which session it is.
func AddressTo(session string, message []byte) []byte {
	behind := bytes.IndexByte(message, '\n') + 1
	out := make([]byte, 0, len(message)+len(addressee)+len(session)+1)
	out = append(append(append(out, message[:behind]...), addressee...), session...)
	return append(append(out, '\n'), message[behind:]...)
}

// Addressee takes the line off that says to which session a message is, from the lines behind its header. It returns "" if there is none.
func Addressee(lines []byte) (session string, rest []byte) {
	if !bytes.HasPrefix(lines, []byte(addressee)) {
		return "", lines
	}
	name, rest, found := bytes.Cut(lines[len(addressee):], []byte("\n"))
	if !found || !IsID(name) {
		return "", lines
	}
	return string(name), rest
}
