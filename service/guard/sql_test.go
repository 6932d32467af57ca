package guard_test

import (
	"bytes"
	"fmt"
	"math/rand"
	"os"
	"os/exec"
	"path/filepath"
	"strings"
	"testing"

	"calvundek.example/service/guard"
)

// dialect is how a database is asked.
type dialect struct {
	program []string
	admit   string // with the pass in hexadecimal
	state   string // writes one line: the turn, and the sum of what was seen
}

// isGreat returns whether a pass has a grant of 2^62 or more.
func isGreat(pass []byte) bool {
	for voter := 0; len(pass) == guard.PassBytes && voter < 64; voter++ {
		if pass[8*voter+7] >= 1<<6 {
			return true
		}
	}
	return false
}

// judge lets a database and the guard of this package admit the same passes. The states have to be the same after each
// one, and so has the number of refusals.
func judge(t *testing.T, d dialect) {
	t.Helper()
	random, state, refused := rand.New(rand.NewSource(2)), guard.New(), 0
	var script, want strings.Builder
	for n := 0; n < 400; n++ {
		pass := randomPass(random, 5+59*(n%2))
		if isGreat(pass) {
			continue // a grant that no voter gives
		}
		next, _, err := guard.Admit(state, pass)
		if err == nil {
			state = next
		} else {
			refused++
		}
		fmt.Fprintf(&script, d.admit+"\n"+d.state+"\n", pass)
		fmt.Fprintln(&want, line(state))
	}
	command := exec.Command(d.program[0], d.program[1:]...)
	var out, complaints bytes.Buffer
	command.Stdin, command.Stdout, command.Stderr = strings.NewReader(script.String()), &out, &complaints
	_ = command.Run() // sqlite3 has status 1 after any error
	if out.String() != want.String() {
		t.Errorf("%s\ninstead of\n%s%s", &out, want.String(), &complaints)
	}
	if got := strings.Count(complaints.String(), "qlock: "); got != refused || refused == 0 {
		t.Errorf("%d passes were refused, not %d", got, refused)
	}
}

// line returns the turn of a guard, and the sum of its grants.
func line(state []byte) string {
	var sum uint64
	for i := 8; i < len(state); i += 8 {
		for j := 0; j < 8; j++ {
			sum += uint64(state[i+j]) << (8 * j)
		}
	}
	turn, _ := guard.Turn(state)
	return fmt.Sprintf("%d|%d", turn, sum)
}

// newSQLite makes a database with a guard, and returns the program and the database.
func newSQLite(t *testing.T, name string) (path, db string) {
	t.Helper()
	path, err := exec.LookPath("sqlite3")
	if err != nil {
		t.Skip("apt-get install sqlite3")
	}
	db = filepath.Join(t.TempDir(), "guard.db")
	text, err := os.ReadFile("sql/sqlite.sql")
	if err != nil {
		t.Fatal(err)
	}
	if out, err := shell(path, db, string(text)+"INSERT INTO qlock_guard (name) VALUES ('"+name+"');"); err != nil {
		t.Fatalf("%v: %s", err, out)
	}
	return path, db
}

// shell gives a script to sqlite3, and returns all that it wrote.
func shell(path, db, script string) (string, error) {
	command := exec.Command(path, db)
	command.Stdin = strings.NewReader(script)
	out, err := command.CombinedOutput()
	return string(out), err
}

// shows returns a pass that shows one grant of the first voter.
func shows(grant byte) []byte {
	pass := make([]byte, guard.PassBytes)
	pass[0] = grant
	return pass
}

func TestSQLite(t *testing.T) {
	path, db := newSQLite(t, "g")
	var digits []string // hexadecimal digits as a number
	for i := 0; i < 16; i++ {
		digits = append(digits, fmt.Sprintf("((instr('0123456789ABCDEF', substr(grant_number, %d, 1)) - 1) << %d)", i+1, 60-4*i))
	}
	judge(t, dialect{[]string{path, db}, "INSERT INTO qlock_admit (name, pass) VALUES ('g', x'%x');",
		"SELECT turn, (SELECT coalesce(sum(" + strings.Join(digits, " + ") + "), 0) FROM qlock_seen) FROM qlock_guard;"})
}

// Whatever the statement says of conflicts, a newer pass is admitted and an older one refused.
func TestSQLitePolicies(t *testing.T) {
	for _, policy := range []string{"", "OR IGNORE", "OR ROLLBACK", "OR ABORT", "OR FAIL", "OR REPLACE"} {
		path, db := newSQLite(t, "g")
		for _, one := range []struct {
			grant   byte
			refused string
			turn    string
		}{{5, "", "1"}, {7, "", "2"}, {7, "", "2"}, {5, "qlock: older grant", "2"}, {0, "qlock: no pass", "2"}} {
			out, err := shell(path, db,
				fmt.Sprintf("INSERT %s INTO qlock_admit (name, pass) VALUES ('g', x'%x');", policy, shows(one.grant)))
			if (err != nil) != (one.refused != "") || !strings.Contains(out, one.refused) {
				t.Errorf("INSERT %s of the grant %d: %v %s", policy, one.grant, err, out)
			}
			if turn, err := shell(path, db, "SELECT turn FROM qlock_guard;"); err != nil || turn != one.turn+"\n" {
				t.Errorf("INSERT %s of the grant %d: %v, and the turn is %s", policy, one.grant, err, turn)
			}
		}
	}
}

// Whoever follows the head of the file writes with a pass that is admitted, and reads its turn, also if another client
// follows at once. With an older one nothing is written.
func TestSQLiteRecipe(t *testing.T) {
	path, db := newSQLite(t, "orders")
	text, err := os.ReadFile("sql/sqlite.sql")
	if err != nil {
		t.Fatal(err)
	}
	var recipe strings.Builder
	for _, line := range strings.Split(string(text), "\n") {
		if step := strings.TrimPrefix(line, "--     "); step != line {
			fmt.Fprintln(&recipe, step)
		}
	}
	if out, err := shell(path, db, "CREATE TABLE orders (writer INTEGER); INSERT INTO orders VALUES (0);"); err != nil {
		t.Fatalf("%v: %s", err, out)
	}
	for _, one := range []struct {
		grant          byte
		refused        bool
		writes, writer string
	}{{5, false, "1\n", "5\n"}, {7, false, "3\n", "7\n"}, {5, true, "qlock: older grant", "7\n"}, {9, false, "5\n", "9\n"}} {
		filled := strings.NewReplacer(
			":pass", fmt.Sprintf("x'%x'", shows(one.grant)),
			"SET ...", fmt.Sprintf("SET writer = %d", one.grant),
			"COMMIT;", fmt.Sprintf("COMMIT; INSERT INTO qlock_admit (name, pass) VALUES ('orders', x'%x');", shows(one.grant+1)))
		out, err := shell(path, db, filled.Replace(recipe.String()))
		if (err != nil) != one.refused || !strings.Contains(out, one.writes) || !one.refused && out != one.writes {
			t.Errorf("the grant %d: %v %s", one.grant, err, out)
		}
		if writer, err := shell(path, db, "SELECT writer FROM orders;"); err != nil || writer != one.writer {
			t.Errorf("the grant %d: %v, and the writer is %s", one.grant, err, writer)
		}
	}
}

// QLOCK_PGHOST names the folder of the socket of a PostgreSQL server on which this user may make tables.
func TestPostgreSQL(t *testing.T) {
	host := os.Getenv("QLOCK_PGHOST")
	if host == "" {
		t.Skip("QLOCK_PGHOST is not set; guard/sql/check.sh starts a server and sets it")
	}
	program := []string{"psql", "-X", "-q", "-A", "-t", "-h", host, "-U", "postgres", "postgres"}
	text, err := os.ReadFile("sql/postgresql.sql")
	if err != nil {
		t.Fatal(err)
	}
	made := exec.Command(program[0], program[1:]...)
	made.Stdin = strings.NewReader(string(text) + "INSERT INTO qlock_guard (name) VALUES ('g');")
	if out, err := made.CombinedOutput(); err != nil || len(out) > 0 {
		t.Fatalf("%v: %s", err, out)
	}
	judge(t, dialect{program, "DO $$ BEGIN PERFORM qlock_admit('g', '\\x%x'); END $$;",
		"SELECT turn, (SELECT sum(s) FROM unnest(seen) AS s) FROM qlock_guard WHERE name = 'g';"})
}

// Whoever may write may show passes, and neither read nor reset a guard, nor put another one in its
// place.
func TestPostgreSQLWriters(t *testing.T) {
	host := os.Getenv("QLOCK_PGHOST")
	if host == "" {
		t.Skip("QLOCK_PGHOST is not set; guard/sql/check.sh starts a server and sets it")
	}
	text, err := os.ReadFile("sql/postgresql.sql")
	if err != nil {
		t.Fatal(err)
	}
	psql := func(user, database, script string) string {
		command := exec.Command("psql", "-X", "-q", "-A", "-t", "-h", host, "-U", user, database)
		command.Stdin = strings.NewReader(script)
		out, err := command.CombinedOutput()
		if err != nil {
			t.Fatalf("%v: %s", err, out)
		}
		return strings.TrimSpace(string(out))
	}
	if said := psql("postgres", "postgres", "CREATE DATABASE writers; CREATE ROLE writer LOGIN;"); said != "" {
		t.Fatal(said)
	}
	if said := psql("postgres", "writers",
		string(text)+"INSERT INTO qlock_guard (name) VALUES ('orders');"); said != "" {
		t.Fatal(said)
	}
	admit := func(grant byte) string { return fmt.Sprintf("SELECT qlock_admit('orders', '\\x%x');", shows(grant)) }
	for _, one := range []struct{ what, script, want string }{
		{"a stranger shows a pass", admit(5), "permission denied"},
		{"granted", "", ""},
		{"a writer shows a pass", admit(5), "1"},
		{"a writer resets the guard", "UPDATE qlock_guard SET turn = 0;", "permission denied"},
		{"a writer removes the guard", "DELETE FROM qlock_guard;", "permission denied"},
		{"a writer shows an older pass", admit(4), "older grant"},
		{"a writer has a guard of his own", "CREATE TEMP TABLE qlock_guard (name text, turn bigint, seen bigint[]); " +
			"INSERT INTO qlock_guard VALUES ('orders', 0, array_fill(0::bigint, ARRAY[64])); " + admit(4),
			"older grant"},
		{"a writer shows a newer pass", admit(6), "2"},
	} {
		if one.what == "granted" {
			psql("postgres", "writers", "GRANT EXECUTE ON FUNCTION qlock_admit(text, bytea) TO writer;")
			continue
		}
		if said := psql("writer", "writers", one.script); !strings.Contains(said, one.want) {
			t.Errorf("%s: %s", one.what, said)
		}
	}
}

// A guard is made only in a schema where nobody else makes functions: one with a better match would
// run with the owner's rights.
func TestPostgreSQLSharedSchema(t *testing.T) {
	host := os.Getenv("QLOCK_PGHOST")
	if host == "" {
		t.Skip("QLOCK_PGHOST is not set; guard/sql/check.sh starts a server and sets it")
	}
	text, err := os.ReadFile("sql/postgresql.sql")
	if err != nil {
		t.Fatal(err)
	}
	make := func(grant string) string {
		command := exec.Command("psql", "-X", "-q", "-A", "-t", "-h", host, "-U", "postgres", "postgres")
		command.Stdin = strings.NewReader("CREATE SCHEMA shared; SET search_path = shared;\n" + grant + string(text) +
			"SELECT qlock_admit('orders', '');\nDROP SCHEMA shared CASCADE;")
		out, _ := command.CombinedOutput()
		return string(out)
	}
	if said := make(""); !strings.Contains(said, "qlock: no pass") {
		t.Error(said)
	}
	for _, grant := range []string{"GRANT CREATE ON SCHEMA shared TO PUBLIC;",
		"CREATE ROLE another; GRANT CREATE ON SCHEMA shared TO another;"} {
		if said := make(grant); !strings.Contains(said, "others may create functions") ||
			!strings.Contains(said, "qlock_admit(unknown, unknown) does not exist") {
			t.Errorf("%s: %s", grant, said)
		}
	}
}
