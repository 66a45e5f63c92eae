\echo Use "CREATE EXTENSION serialcheck" to load this file. \quit

CREATE FUNCTION serialcheck(data bytea, filter text, strict boolean DEFAULT false, anywhere boolean DEFAULT false) RETURNS boolean
    AS 'MODULE_PATHNAME', 'pg_serialcheck' LANGUAGE C IMMUTABLE STRICT PARALLEL SAFE COST 100;
COMMENT ON FUNCTION serialcheck IS 'whether the bytes are one Java serialization stream that the filter admits';

CREATE FUNCTION serialcheck_answer(data bytea, filter text DEFAULT '', strict boolean DEFAULT false, anywhere boolean DEFAULT false) RETURNS text
    AS 'MODULE_PATHNAME', 'pg_serialcheck_answer' LANGUAGE C IMMUTABLE STRICT PARALLEL SAFE COST 100;
COMMENT ON FUNCTION serialcheck_answer IS 'the line that serialcheck check prints of the bytes, and the class name that was refused';
