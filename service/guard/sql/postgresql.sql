-- The guard of libqlock for PostgreSQL. Admit and write in one transaction:
--
--     BEGIN;
--     SELECT qlock_admit('orders', decode(:pass, 'hex'));      -- the turn, or an error that ends the transaction
--     UPDATE orders SET ...;
--     COMMIT;
--
-- A pass has 512 bytes: for each of 64 voters the number of a grant, 8 bytes, the lowest first (locks.Held.Token).
--
-- Run this as the owner of the guards, in a schema where nobody else may create anything. Who writes the data needs no right but
-- to call qlock_admit, which runs with the owner's rights:
--
--     INSERT INTO qlock_guard (name) VALUES ('orders');        -- once, by the owner
--     GRANT EXECUTE ON FUNCTION qlock_admit(text, bytea) TO writer;
--
-- So whoever may write can't reset a guard.

BEGIN;
CREATE TABLE qlock_guard (
    name text PRIMARY KEY,
    turn bigint NOT NULL DEFAULT 0,              -- the turn of the last pass that was admitted
    seen bigint[] NOT NULL DEFAULT array_fill(0::bigint, ARRAY[64])    -- the newest grant of each voter
);

-- Returns the number at a place of a pass, 0 to 63. Grants are at most 2^62, so they fit.
CREATE FUNCTION qlock_grant(pass bytea, voter integer) RETURNS bigint
LANGUAGE sql IMMUTABLE STRICT AS $$
    SELECT sum(get_byte(pass, 8 * voter + i)::bigint << (8 * i))::bigint FROM generate_series(0, 7) AS i
$$;

-- Admits a pass, and returns its turn: the same for all shows of one pass, and greater for each later one, as long as only
-- passes are shown that clients had. The row is locked until the transaction ends, so two writers come one after the other.
CREATE FUNCTION qlock_admit(guard text, pass bytea) RETURNS bigint
LANGUAGE plpgsql SECURITY DEFINER AS $$
DECLARE
    last qlock_guard;
    shown bigint[];
    newest bigint[];
BEGIN
    IF length(pass) <> 512 THEN
        RAISE EXCEPTION 'qlock: no pass' USING ERRCODE = 'QL002';
    END IF;
    SELECT array_agg(qlock_grant(pass, v) ORDER BY v) INTO shown FROM generate_series(0, 63) AS v;
    IF NOT EXISTS (SELECT 1 FROM unnest(shown) AS g WHERE g <> 0) OR EXISTS (SELECT 1 FROM unnest(shown) AS g WHERE g < 0) THEN
        RAISE EXCEPTION 'qlock: no pass' USING ERRCODE = 'QL002';
    END IF;
    SELECT * INTO STRICT last FROM qlock_guard WHERE name = guard FOR UPDATE;
    IF EXISTS (SELECT 1 FROM unnest(shown, last.seen) AS u(g, s) WHERE g <> 0 AND g < s) THEN
        RAISE EXCEPTION 'qlock: older grant' USING ERRCODE = 'QL001';
    END IF;
    SELECT array_agg(greatest(g, s) ORDER BY v) INTO newest
        FROM unnest(shown, last.seen) WITH ORDINALITY AS u(g, s, v);
    IF newest = last.seen THEN
        RETURN last.turn;
    END IF;
    UPDATE qlock_guard SET seen = newest, turn = last.turn + 1 WHERE name = guard;
    RETURN last.turn + 1;
END
$$;

-- The function looks for what it names here, whatever its caller's path, and never among the caller's temporary tables. Who may
-- create functions here could make one that is called in place of one of PostgreSQL's, with the owner's rights.
DO $$
BEGIN
    IF EXISTS (SELECT 1 FROM pg_namespace, aclexplode(nspacl) AS a WHERE nspname = current_schema() AND a.privilege_type = 'CREATE'
            AND a.grantee NOT IN (nspowner, current_user::regrole)) THEN
        RAISE EXCEPTION 'qlock: others may create functions in schema %', current_schema()
            USING HINT = 'Make a schema for the guards: CREATE SCHEMA qlock; SET search_path = qlock;';
    END IF;
    EXECUTE format('ALTER FUNCTION qlock_admit(text, bytea) SET search_path = pg_catalog, %I, pg_temp', current_schema());
END
$$;
REVOKE ALL ON qlock_guard FROM PUBLIC;
REVOKE ALL ON FUNCTION qlock_admit(text, bytea) FROM PUBLIC;
COMMIT;
