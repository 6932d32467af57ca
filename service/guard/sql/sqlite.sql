-- The guard of libqlock for SQLite, which has no functions of its own: a row that is inserted into a view is a call.
-- Admit and write in one transaction:
--
--     .bail on
--     BEGIN IMMEDIATE;
--     INSERT INTO qlock_admit (name, pass) VALUES ('orders', :pass);    -- after an error: ROLLBACK, and no write
--     UPDATE orders SET ...;
--     SELECT turn FROM qlock_guard WHERE name = 'orders';               -- after COMMIT it may be another client's
--     COMMIT;
--
-- A refusal is an error of the INSERT. It undoes this statement alone. The transaction stays open, and COMMIT would keep
-- what was written after it. `.bail on` is for a script of the shell sqlite3: then the shell ends at an error, and keeps
-- nothing, and without it the shell goes on. A program has no such line, and rolls back itself.
--
-- A guard is made once, before: INSERT INTO qlock_guard (name) VALUES ('orders').
--
-- A pass has 512 bytes: for each of 64 voters the number of a grant, 8 bytes, the lowest first (locks.Held.Token). Bind it
-- as a blob. A script has it as x'$QLOCK_PASS'.

CREATE TABLE qlock_guard (
    name TEXT PRIMARY KEY,
    turn INTEGER NOT NULL DEFAULT 0            -- the turn of the last pass that was admitted
);

-- The newest grant of each voter that a guard saw, as hexadecimal digits with the highest first: so texts compare as numbers.
CREATE TABLE qlock_seen (
    name TEXT NOT NULL REFERENCES qlock_guard (name),
    voter INTEGER NOT NULL,
    grant_number TEXT NOT NULL,
    PRIMARY KEY (name, voter)
);

CREATE VIEW qlock_voters AS
    WITH RECURSIVE voters (v) AS (SELECT 0 UNION ALL SELECT v + 1 FROM voters WHERE v < 63) SELECT v FROM voters;

CREATE VIEW qlock_admit AS SELECT name, x'' AS pass FROM qlock_guard;

CREATE TRIGGER qlock_admit_insert INSTEAD OF INSERT ON qlock_admit
BEGIN
    SELECT RAISE(ABORT, 'qlock: no guard')
        WHERE NOT EXISTS (SELECT 1 FROM qlock_guard WHERE name = NEW.name);
    SELECT RAISE(ABORT, 'qlock: no pass')
        WHERE typeof(NEW.pass) <> 'blob' OR length(NEW.pass) <> 512 OR NEW.pass = zeroblob(512);
    SELECT RAISE(ABORT, 'qlock: older grant')
        WHERE EXISTS (
            SELECT 1 FROM qlock_seen AS s WHERE s.name = NEW.name
                AND substr(NEW.pass, 8 * s.voter + 1, 8) <> zeroblob(8)
                AND hex(substr(NEW.pass, 8 * s.voter + 8, 1)) || hex(substr(NEW.pass, 8 * s.voter + 7, 1))
                 || hex(substr(NEW.pass, 8 * s.voter + 6, 1)) || hex(substr(NEW.pass, 8 * s.voter + 5, 1))
                 || hex(substr(NEW.pass, 8 * s.voter + 4, 1)) || hex(substr(NEW.pass, 8 * s.voter + 3, 1))
                 || hex(substr(NEW.pass, 8 * s.voter + 2, 1)) || hex(substr(NEW.pass, 8 * s.voter + 1, 1)) < s.grant_number);
    -- one turn more if the pass shows a grant that was not seen
    UPDATE qlock_guard SET turn = turn + 1
        WHERE name = NEW.name AND EXISTS (
            SELECT 1 FROM qlock_voters WHERE substr(NEW.pass, 8 * v + 1, 8) <> zeroblob(8) AND NOT EXISTS (
                SELECT 1 FROM qlock_seen AS s WHERE s.name = NEW.name AND s.voter = v AND s.grant_number =
                    hex(substr(NEW.pass, 8 * v + 8, 1)) || hex(substr(NEW.pass, 8 * v + 7, 1))
                 || hex(substr(NEW.pass, 8 * v + 6, 1)) || hex(substr(NEW.pass, 8 * v + 5, 1))
                 || hex(substr(NEW.pass, 8 * v + 4, 1)) || hex(substr(NEW.pass, 8 * v + 3, 1))
                 || hex(substr(NEW.pass, 8 * v + 2, 1)) || hex(substr(NEW.pass, 8 * v + 1, 1))));
    -- not INSERT OR REPLACE: if the statement that fires this trigger has a policy for conflicts, SQLite takes that one
    DELETE FROM qlock_seen WHERE name = NEW.name AND substr(NEW.pass, 8 * voter + 1, 8) <> zeroblob(8);
    INSERT INTO qlock_seen (name, voter, grant_number)
        SELECT NEW.name, v,
                    hex(substr(NEW.pass, 8 * v + 8, 1)) || hex(substr(NEW.pass, 8 * v + 7, 1))
                 || hex(substr(NEW.pass, 8 * v + 6, 1)) || hex(substr(NEW.pass, 8 * v + 5, 1))
                 || hex(substr(NEW.pass, 8 * v + 4, 1)) || hex(substr(NEW.pass, 8 * v + 3, 1))
                 || hex(substr(NEW.pass, 8 * v + 2, 1)) || hex(substr(NEW.pass, 8 * v + 1, 1))
        FROM qlock_voters WHERE substr(NEW.pass, 8 * v + 1, 8) <> zeroblob(8);
END;
