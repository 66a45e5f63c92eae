# The rows of a test in bash: which are wanted, and how many passed. `tools/test -k WORD` sets ROWS, and then a row counts only
# where its name has that word.
passed=0
failed=0

wanted() { [[ $1 == *"${ROWS:-}"* ]]; }
pass() { if wanted "$1"; then passed=$((passed + 1)); fi; }
# fail NAME FOUND..: prints what was found
fail() {
    wanted "$1" || return 0
    failed=$((failed + 1))
    local name=$1
    shift
    echo "$name: $*"
}
# same NAME WANTED FOUND: two files have the same bytes
same() {
    if cmp -s "$2" "$3"; then
        pass "$1"
    else
        fail "$1" "$(diff "$2" "$3" | head -n 5)"
    fi
}
# prints NAME WANTED WORDS..: a command prints this text
prints() {
    local name=$1 text=$2 found
    shift 2
    wanted "$name" || return 0
    found=$("$@" 2>&1)
    if [ "$found" = "$text" ]; then pass "$name"; else fail "$name" "$found; wanted: $text"; fi
}
# Prints the last line, and ends with status 0 where all rows passed, and where none was named, at least one.
finish() {
    echo "$passed passed, $failed failed"
    [ "$failed" = 0 ] && { [ "$passed" -gt 0 ] || [ -n "${ROWS:-}" ]; }
    exit
}
# The wrapper takes the prebuilt program or builds one, where none is in place, and says so: once, before its rows are compared.
put_program_in_place() { env -u SERIALCHECK_PROGRAM ./serialcheck check tests/streams/empty.ser >/dev/null </dev/null || exit 1; }
