package qlockd

import (
	"bufio"
	"bytes"
	"context"
	"encoding/hex"
	"encoding/json"
	"errors"
	"fmt"
	"io"
	"net"
	"net/http"
	"net/url"
	"os"
	"strings"
	"time"

	"calvundek.example/service/internal/boot"
	"calvundek.example/service/internal/bounded"
	"calvundek.example/service/internal/view"
	"calvundek.example/service/locks"
	"calvundek.example/service/qlock"
	"calvundek.example/service/transport"
	"github.com/prometheus/client_golang/prometheus/promhttp"
	"golang.org/x/sys/unix"
)

// mostBody is how long the body of a request may be.
const mostBody = 1 << 12

// bodyTime is how long it may take to come.
var bodyTime = bounded.Brief

// tryFor is how long a try waits for votes if nobody says.
const tryFor = 10 * time.Second

// fault is why a request was refused. Its word stays the same from version to version.
type fault struct {
	Status int    `json:"-"`
	Word   string `json:"fault"`
	Why    string `json:"why"`

	Holder  *view.Holder `json:"holder,omitempty"`  // who has the lock that was tried, if that is known
	Waiting *int         `json:"waiting,omitempty"` // how many sessions wait for a number before the agent's, if voters said so
}

// faults are the errors that have a word of their own.
var faults = []struct {
	err    error
	status int
	word   string
}{
	{locks.ErrName, http.StatusBadRequest, "name"},
	{errRequest, http.StatusBadRequest, "request"},
	{errOther, http.StatusForbidden, "other"},
	{transport.ErrRefused, http.StatusForbidden, "denied"},
	{errUnknown, http.StatusNotFound, "unknown"},
	{errMethod, http.StatusMethodNotAllowed, "method"},
	{errTimeout, http.StatusRequestTimeout, "timeout"},
	{locks.ErrHeld, http.StatusConflict, "held"},
	{locks.ErrLapsed, http.StatusGone, "lost"},
	{errClosing, http.StatusServiceUnavailable, "closing"},
	{errGone, http.StatusRequestTimeout, "gone"},
	{locks.ErrNumbers, http.StatusTooManyRequests, "numbers"},
	{errNoNumber, http.StatusTooManyRequests, "numbers"},
	{errNoSession, http.StatusGatewayTimeout, "unreachable"},
	{errNoTurn, http.StatusGatewayTimeout, "unreachable"},
	{locks.ErrNoQuorum, http.StatusGatewayTimeout, "unreachable"},
	{locks.ErrFull, http.StatusInsufficientStorage, "full"},
}

var (
	errRequest  = errors.New("the request can't be read")
	errMethod   = errors.New("there is no such call")
	errTimeout  = errors.New("the lock was not to be had in time")
	errNoNumber = errors.New("no client number was to be had in time")
	errClosing  = errors.New("the agent ends")
	errGone     = errors.New("the connection ended before there was an answer")
	errNoTurn   = errors.New("some voter that has to tell the lock's turn did not")
)

// faultOf returns what is said of an error.
func faultOf(err error) fault {
	why := strings.Replace(err.Error(), "locks: ", "", 1)
	f := fault{Status: http.StatusInternalServerError, Word: "internal", Why: why, Holder: holderOf(err)}
	if none := (&locks.NoNumber{}); errors.As(err, &none) {
		f.Waiting = &none.Ahead
	}
	for _, one := range faults {
		if errors.Is(err, one.err) {
			f.Status, f.Word = one.status, one.word
			break
		}
	}
	return f
}

// refuse answers a request with why it is refused.
func (a *Agent) refuse(w http.ResponseWriter, err error) {
	f := faultOf(err)
	a.counts.add(f.Word)
	w.Header().Set("Content-Type", "application/json")
	w.WriteHeader(f.Status)
	_ = json.NewEncoder(w).Encode(f)
}

// answer answers a request.
func answer(w http.ResponseWriter, what interface{}) {
	w.Header().Set("Content-Type", "application/json")
	_ = json.NewEncoder(w).Encode(what)
}

// handler returns what answers requests.
func (a *Agent) handler() http.Handler {
	mux := http.NewServeMux()
	a.show(mux)
	mux.HandleFunc("/v1/status", a.only(http.MethodGet, func(w http.ResponseWriter, r *http.Request) { answer(w, a.status()) }))
	mux.HandleFunc("/v1/locks", a.only(http.MethodGet, func(w http.ResponseWriter, r *http.Request) { a.answerList(w, "") }))
	mux.HandleFunc("/v1/who", a.only(http.MethodGet, a.answerAll))
	mux.HandleFunc("/", func(w http.ResponseWriter, r *http.Request) {
		a.refuse(w, fmt.Errorf("%w: %s", errUnknownPath, r.URL.Path))
	})
	byName := map[string]func(w http.ResponseWriter, r *http.Request, name string){"/v1/locks/": a.answerLock,
		"/v1/who/": a.onlyGet(a.answerWho), "/v1/watch/": a.onlyGet(a.watchHolder)}
	return http.HandlerFunc(func(w http.ResponseWriter, r *http.Request) {
		for prefix, f := range byName { // a mux would lead to another path for a name with dots
			if name := strings.TrimPrefix(r.URL.Path, prefix); name != r.URL.Path {
				f(w, r, name)
				return
			}
		}
		mux.ServeHTTP(w, r)
	})
}

// readsFirst reads the body of each request, within a time, and then answers it: a connection's end is seen from then on. Package http
// would wait for a body that nobody reads before it replies, and a time for whole requests would end a lock that is held.
func readsFirst(next http.Handler, refuse func(w http.ResponseWriter, err error)) http.Handler {
	return http.HandlerFunc(func(w http.ResponseWriter, r *http.Request) {
		limit := func(time.Time) {}
		if c, is := r.Context().Value(callerKey{}).(*caller); is {
			limit = func(until time.Time) { _ = c.connection.SetReadDeadline(until) }
		}
		limit(time.Now().Add(bodyTime))
		body, err := io.ReadAll(http.MaxBytesReader(w, r.Body, mostBody))
		if err != nil { // the rest has no more time
			w.Header().Set("Connection", "close")
			refuse(w, fmt.Errorf("%w: %v", errRequest, err))
			return
		}
		limit(time.Time{})
		r.Body = io.NopCloser(bytes.NewReader(body))
		next.ServeHTTP(w, r)
	})
}

// answerLock answers what is about one lock of this agent.
func (a *Agent) answerLock(w http.ResponseWriter, r *http.Request, name string) {
	switch r.Method {
	case http.MethodPost:
		a.lock(w, r, name)
	case http.MethodGet:
		a.answerList(w, name)
	case http.MethodDelete:
		a.delete(w, r, name)
	default:
		a.refuse(w, fmt.Errorf("%w: %s", errMethod, r.Method))
	}
}

// onlyGet answers the method GET of a path with a name.
func (a *Agent) onlyGet(f func(w http.ResponseWriter, r *http.Request, name string)) func(http.ResponseWriter, *http.Request, string) {
	return func(w http.ResponseWriter, r *http.Request, name string) {
		a.only(http.MethodGet, func(w http.ResponseWriter, r *http.Request) { f(w, r, name) })(w, r)
	}
}

func (a *Agent) answerList(w http.ResponseWriter, name string) {
	answer(w, map[string][]listed{"locks": a.list(name)})
}

// show answers what shows how the agent is.
func (a *Agent) show(mux *http.ServeMux) {
	mux.HandleFunc("/healthz", a.only(http.MethodGet, a.health))
	mux.Handle("/metrics", promhttp.HandlerFor(a.registry, promhttp.HandlerOpts{}))
}

// errUnknownPath is returned for a path that nothing answers.
var errUnknownPath = fmt.Errorf("%w, and there is no such path", errUnknown)

// only answers one method.
func (a *Agent) only(method string, f http.HandlerFunc) http.HandlerFunc {
	return func(w http.ResponseWriter, r *http.Request) {
		if r.Method != method {
			a.refuse(w, fmt.Errorf("%w: %s", errMethod, r.Method))
			return
		}
		f(w, r)
	}
}

// Status is what the agent says of itself.
type Status struct {
	Version string   `json:"version"`
	Cluster string   `json:"cluster,omitempty"`
	TTL     int64    `json:"ttl_ms,omitempty"`
	Session *int     `json:"session"` // the client number that the voters gave it, null if there is none
	Since   int64    `json:"for_ms,omitempty"`
	Why     string   `json:"why,omitempty"` // why there is no session
	Silent  []string `json:"silent"`        // the voters that are not heard
	Held    int      `json:"held"`
	Waiting int      `json:"waiting"`
}

func (a *Agent) status() Status {
	sizes := a.sizes()
	status := Status{Version: qlock.Version(), Held: sizes[holding] + sizes[losing], Waiting: sizes[waiting], Silent: []string{}}
	s, why, _ := a.current()
	if s == nil {
		status.Why = fmt.Sprint(why)
		return status
	}
	if number := s.Number(); number >= 0 {
		status.Session = &number
	}
	status.Cluster, status.TTL = s.cluster.ID, s.ttl().Milliseconds()
	status.Since, status.Silent = time.Since(s.since).Milliseconds(), append(status.Silent, s.Silent()...)
	return status
}

// health has status 200 if there is a session, and a quorum of voters is heard.
func (a *Agent) health(w http.ResponseWriter, _ *http.Request) {
	if s, why, _ := a.current(); s == nil {
		a.refuse(w, fmt.Errorf("%w: %v", errNoSession, why))
	} else if s.IsCutOff() {
		a.refuse(w, fmt.Errorf("%w that reaches a quorum: these voters are silent: %s", errNoSession, strings.Join(s.Silent(), ", ")))
	} else {
		answer(w, a.status())
	}
}

// asked is a request for a lock.
type asked struct {
	name  string
	tries bool
	wait  time.Duration // 0 for as long as the connection lasts
	turns bool          // it wants the lock's turn, too
	idle  time.Duration // within which its client has to write a line, again and again, 0 if it need not
	whom  locks.For     // what others see of who has the lock
}

// readTime reads a time of a query, as for how long to wait.
func readTime(key, text string) (time.Duration, error) {
	read, err := time.ParseDuration(text)
	if err != nil || read <= 0 {
		return 0, fmt.Errorf("%w: %s is %q, and has to be a time above 0, as 10s", errRequest, key, text)
	}
	return read, nil
}

// readNote reads the body of a request for a lock, and whether it has a note. It may be empty.
func readNote(body []byte) (note string, isThere bool, err error) {
	if len(body) == 0 {
		return "", false, nil
	}
	words := json.NewDecoder(bytes.NewReader(body))
	if begin, err := words.Token(); err != nil || begin != json.Delim('{') {
		return "", false, fmt.Errorf("%w: the body is no object of JSON", errRequest)
	}
	for words.More() {
		key, _ := words.Token()
		if key != "note" {
			return "", false, fmt.Errorf("%w: there is no %q in a body", errRequest, key)
		} else if isThere {
			return "", false, errTwice
		}
		value, _ := words.Token()
		if note, isThere = value.(string); !isThere {
			return "", false, fmt.Errorf("%w: the note in the body is no text", errRequest)
		}
	}
	if end, err := words.Token(); err != nil || end != json.Delim('}') {
		return "", false, fmt.Errorf("%w: the body is no object of JSON", errRequest)
	}
	if _, err := words.Token(); err != io.EOF {
		return "", false, fmt.Errorf("%w: something is behind the object in the body", errRequest)
	}
	return note, isThere, nil
}

// errTwice is returned if a request has two notes.
var errTwice = fmt.Errorf("%w: there is a note twice", errRequest)

// readAsked reads a request, and its body. A word that nothing reads is refused.
func readAsked(r *http.Request, body []byte, name string) (asked, error) {
	of := asked{name: name}
	query, err := url.ParseQuery(r.URL.RawQuery)
	if err != nil {
		return of, fmt.Errorf("%w: %v", errRequest, err)
	}
	for key, values := range query {
		switch value := values[len(values)-1]; key {
		case "wait":
			if of.wait, err = readTime(key, value); err != nil {
				return of, err
			}
		case "idle":
			if of.idle, err = readTime(key, value); err != nil {
				return of, err
			}
		case "try":
			if of.tries = value == "1"; !of.tries && value != "0" {
				return of, fmt.Errorf("%w: try is %q, and has to be 0 or 1", errRequest, value)
			}
		case "turn":
			if of.turns = value == "1"; !of.turns && value != "0" {
				return of, fmt.Errorf("%w: turn is %q, and has to be 0 or 1", errRequest, value)
			}
		case "note":
			of.whom.Note = value
		default:
			return of, fmt.Errorf("%w: there is no %q", errRequest, key)
		}
	}
	if of.tries && of.wait == 0 {
		of.wait = tryFor
	}
	note, isThere, err := readNote(body)
	if count := len(query["note"]); err == nil && (count > 1 || count == 1 && isThere) {
		err = errTwice
	}
	if isThere {
		of.whom.Note = note
	}
	return of, err
}

// within returns the context of a request: it ends with the connection, the time to wait if that is not 0, or the agent.
func (a *Agent) within(connection context.Context, wait time.Duration) (ctx context.Context, cancel context.CancelFunc) {
	if wait > 0 {
		ctx, cancel = context.WithTimeout(connection, wait)
	} else {
		ctx, cancel = context.WithCancel(connection)
	}
	go func() {
		defer cancel()
		select {
		case <-a.closing:
		case <-ctx.Done():
		}
	}()
	return ctx, cancel
}

// lock takes a lock, and keeps it as long as the connection lasts.
func (a *Agent) lock(w http.ResponseWriter, r *http.Request, name string) {
	came := boot.Uptime()
	body, err := io.ReadAll(r.Body)
	if err != nil {
		a.refuse(w, fmt.Errorf("%w: %v", errRequest, err))
		return
	}
	of, err := readAsked(r, body, name)
	if err != nil {
		a.refuse(w, err)
		return
	}
	p := a.enter(name, peerIn(r.Context()))
	if p == nil {
		a.refuse(w, errClosing)
		return
	}
	defer a.leave(p)
	p.asked = came
	of.whom.Pid, of.whom.Login = p.peer.Pid, p.peer.login()
	if of.whom.Note == "" {
		of.whom.Note = p.peer.Command
	}
	p.note = of.whom.Note
	if of.idle > 0 {
		p.idles = make(chan struct{})
	}
	connection, ignore := attend(r.Context())
	defer ignore()
	ctx, cancel := a.within(connection, of.wait)
	s, err := a.take(ctx, p, of)
	if err != nil && ctx.Err() != nil {
		err = a.explain(connection, s, of, err)
	}
	cancel()
	if errors.Is(err, locks.ErrHeld) {
		err = a.heldHere(name, err)
	}
	if err != nil {
		a.refuse(w, err)
		return
	}
	a.counts.add("none")
	if of.idle > 0 {
		a.streamWhileAlive(w, connection, ignore, p, of.idle)
		return
	}
	a.stream(linesTo(w), connection, p)
}

// explain says why the time of a request ended before it got its lock.
func (a *Agent) explain(connection context.Context, s *session, of asked, err error) error {
	if ended := a.hasEnded(connection); ended != nil {
		return ended
	}
	if s == nil {
		return err
	}
	of.wait = rounded(of.wait)
	if errors.Is(err, locks.ErrNumbers) {
		return fmt.Errorf("%s: %w", of.name, err)
	}
	silent := ""
	if names := s.Silent(); len(names) > 0 {
		silent = "; these voters are silent: " + strings.Join(names, ", ")
	}
	if s.IsCutOff() {
		return fmt.Errorf("%s: %w that reaches a quorum%s", of.name, errNoSession, silent)
	}
	if errors.Is(err, errNoTurn) {
		return fmt.Errorf("%s: %w, for %v%s", of.name, errNoTurn, of.wait, silent)
	}
	if errors.Is(err, locks.ErrNoQuorum) {
		return fmt.Errorf("%s: %w, for %v%s", of.name, locks.ErrNoQuorum, of.wait, silent)
	}
	if !s.HasNumber(of.name) {
		return fmt.Errorf("%s: %w, for %v%s", of.name, errNoNumber, of.wait, silent)
	}
	return fmt.Errorf("%s: %w, for %v%s", of.name, errTimeout, of.wait, silent)
}

// rounded returns a time as people read it: clients say to the nanosecond how long they wait.
func rounded(wait time.Duration) time.Duration {
	if wait < time.Second {
		return wait.Round(time.Millisecond)
	}
	return wait.Round(100 * time.Millisecond)
}

func isClosed(c <-chan struct{}) bool {
	select {
	case <-c:
		return true
	default:
		return false
	}
}

// left is how long a lock lasts if no voter is heard any more. Until is the end of that by CLOCK_BOOTTIME, which all
// processes of a host share, but for those in another time namespace.
type left struct {
	Left  int64 `json:"left_ms"`
	Until int64 `json:"until_ms"`
}

func leftOf(held *locks.Held) left {
	now := boot.Uptime()
	most := held.Left()
	return left{most.Milliseconds(), (now + most).Milliseconds()}
}

// first is the first line of a stream.
type first struct {
	Held bool   `json:"held"`
	Lock string `json:"lock"`
	ID   string `json:"id"`
	Pass string `json:"pass"`
	Turn uint64 `json:"turn,string,omitempty"` // a text: not all readers of JSON have whole numbers of 64 bits
	TTL  int64  `json:"ttl_ms"`
	// when the request came, by the clock of Until: so a client with another clock knows by how much that differs
	Asked int64 `json:"asked_ms"`
	left
}

// The last line of a stream says that the lock was given back, or that it may have been lost, and why.
type last struct {
	Unlocked bool   `json:"unlocked,omitempty"`
	Lost     bool   `json:"lost,omitempty"`
	Why      string `json:"why,omitempty"`
}

// Why a lock may be somebody else's.
const (
	leaseEnded   = "lease"    // voters were not heard for 0.8 TTL, or let the lock go
	sessionEnded = "session"  // the session is over
	givenBack    = "unlocked" // another process gave it back
	clientIdle   = "idle"     // its client wrote no line in time
	agentEnds    = "closing"
)

// linesTo begins a reply of lines, and returns what writes one, at once, and says whether it could.
func linesTo(w http.ResponseWriter) func(line interface{}) bool {
	w.Header().Set("Content-Type", "application/x-ndjson")
	w.Header().Set("Cache-Control", "no-store")
	flusher, _ := w.(http.Flusher)
	return func(line interface{}) bool {
		if json.NewEncoder(w).Encode(line) != nil {
			return false
		}
		flusher.Flush()
		return true
	}
}

// headOfLines is the head of a reply of lines, on a connection that was taken over.
const headOfLines = "HTTP/1.1 200 OK\r\nContent-Type: application/x-ndjson\r\nCache-Control: no-store\r\nConnection: close\r\n\r\n"

// streamWhileAlive is stream for a client that has to write a line within a time, again and again. Package http does not read while it
// replies, so the connection is taken over from it. The function that it gets ends the context.
func (a *Agent) streamWhileAlive(w http.ResponseWriter, ctx context.Context, ends context.CancelFunc, p *place, idle time.Duration) {
	hijacker, is := w.(http.Hijacker)
	if !is {
		a.refuse(w, errors.New("the connection can't be taken over"))
		return
	}
	connection, said, err := hijacker.Hijack()
	if err != nil {
		a.refuse(w, err)
		return
	}
	defer connection.Close()
	go p.readLines(connection, behind(connection, said.Reader), idle, ends)
	lines := json.NewEncoder(connection)
	if _, err := io.WriteString(connection, headOfLines); err == nil {
		a.stream(func(line interface{}) bool { return lines.Encode(line) == nil }, ctx, p)
	}
}

// behind returns what is read of a connection that was taken over: what package http read already, and then the connection itself. A reader
// of that package would take a time that is over for the end of the connection.
func behind(connection net.Conn, read *bufio.Reader) *bufio.Reader {
	begin, _ := read.Peek(read.Buffered())
	return bufio.NewReader(io.MultiReader(bytes.NewReader(begin), connection))
}

// readLines reads the lines of a client until its connection ends. Once none came in time it is idle.
func (p *place) readLines(connection net.Conn, lines *bufio.Reader, idle time.Duration, ends func()) {
	defer ends()
	for {
		err := readLineWithin(connection, lines, idle)
		if errors.Is(err, os.ErrDeadlineExceeded) {
			close(p.idles)
			break
		} else if err != nil {
			return
		}
	}
	_ = connection.SetReadDeadline(time.Time{})
	_, _ = io.Copy(io.Discard, lines)
}

// catchUp is for how long a line may still come as its time is over: it may have come while the agent stood still.
const catchUp = 100 * time.Millisecond

// readLineWithin reads a line of any length, and fails with os.ErrDeadlineExceeded if none comes in time.
func readLineWithin(connection net.Conn, lines *bufio.Reader, most time.Duration) (err error) {
	for _, most := range []time.Duration{most, catchUp} {
		_ = connection.SetReadDeadline(time.Now().Add(most))
		for err = bufio.ErrBufferFull; err == bufio.ErrBufferFull; {
			_, err = lines.ReadSlice('\n')
		}
		if !errors.Is(err, os.ErrDeadlineExceeded) {
			return err
		}
	}
	return err
}

// stream writes a line when the lock is held, then at intervals for how long it lasts, and a last one. The lock is given
// back once the connection ends, or half of it.
func (a *Agent) stream(say func(line interface{}) bool, ctx context.Context, p *place) {
	ticker := time.NewTicker(p.session.ttl() / 4)
	defer ticker.Stop()
	line := interface{}(first{true, p.name, p.id, hex.EncodeToString(p.held.Token()), p.turn, p.session.ttl().Milliseconds(), p.asked.Milliseconds(),
		leftOf(p.held)})
	for says := true; says && say(line); {
		select {
		case <-ticker.C:
			line = leftOf(p.held)
		case <-p.lost:
			says = false
		case <-ctx.Done():
			says = false
		}
	}
	isTold := isClosed(p.lost) && say(last{Lost: true, Why: p.why})
	if isTold {
		a.await(ctx, p)
	}
	if a.awaitDeath(ctx, p); isTold {
		return
	}
	if a.unlock(p, ""); isClosed(p.lost) {
		say(last{Lost: true, Why: p.why})
	} else {
		say(last{Unlocked: true})
	}
}

// dies is for how long a lock is kept of which the connection was closed, and not only shut down by who gives the lock back: its process may
// have died. The kernel closes the files of a process first, and then sends its children the signal that they asked for at its death. So the
// program of a command that was killed is killed meanwhile, too. What that program started lives on, and so does who asked for no signal.
const dies = 50 * time.Millisecond

// awaitDeath waits while a process may die whose connection was closed.
func (a *Agent) awaitDeath(ctx context.Context, p *place) {
	if c, is := ctx.Value(callerKey{}).(*caller); !is || !events(c.connection, unix.POLLHUP) {
		return
	}
	select {
	case <-p.ended:
	case <-time.After(dies):
	}
}

// await waits until a client that has to stop ends its connection, or a TTL is over. What is left of the votes keeps others
// out until then.
func (a *Agent) await(ctx context.Context, p *place) {
	select {
	case <-ctx.Done():
	case <-p.ended:
	}
}

// delete gives a lock back by its id.
func (a *Agent) delete(w http.ResponseWriter, r *http.Request, name string) {
	if err := a.giveBack(name, r.URL.Query().Get("id"), peerIn(r.Context())); err != nil {
		a.refuse(w, err)
		return
	}
	answer(w, last{Unlocked: true})
}
