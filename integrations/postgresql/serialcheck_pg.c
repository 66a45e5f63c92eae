/* serialcheck in PostgreSQL: what a Java object serialization stream in a bytea holds, for CHECK constraints, triggers and queries. */
#include "postgres.h"

#include "fmgr.h"
#include "lib/stringinfo.h"
#include "utils/builtins.h"

#include "serialcheck.h"

PG_MODULE_MAGIC;

/* The most bytes of an answer's line, as the header has them. */
enum { LINE = 128 };

/* The filter of a call site, with the text and the flags that it was made of. It is read once for all rows of a statement. */
typedef struct {
    serialcheck_filter filter;
    MemoryContextCallback end;
    uint32_t flags;
    Size len;
    char *text;
} Kept;

static void let_go(void *kept)
{
    serialcheck_filter_free(&((Kept *) kept)->filter);
}

/* What this call site keeps: nothing at its first call. It is let go with the memory of the statement. */
static Kept *kept_by(FmgrInfo *site)
{
    if (site->fn_extra == NULL) {
        Kept *kept = MemoryContextAllocZero(site->fn_mcxt, sizeof *kept);

        kept->end.func = let_go;
        kept->end.arg = kept;
        MemoryContextRegisterResetCallback(site->fn_mcxt, &kept->end);
        site->fn_extra = kept;
    }
    return site->fn_extra;
}

static void stop_without_memory(void)
{
    ereport(ERROR, (errcode(ERRCODE_OUT_OF_MEMORY), errmsg("serialcheck: out of memory")));
}

/* The line that the program prints of an answer, without its line feed, in this room; its length. */
static int line_of(const serialcheck_answer *answer, char line[LINE])
{
    serialcheck_answer told;

    if (serialcheck_line(answer, (uint8_t *) line, LINE, &told) != SERIALCHECK_YES)
        stop_without_memory();
    return (int) told.bytes - 1;
}

/* Tells what is wrong with a filter. */
static void stop_at_fault(const serialcheck_answer *fault)
{
    char line[LINE];
    int len = line_of(fault, line);

    ereport(ERROR, (errcode(ERRCODE_INVALID_PARAMETER_VALUE), errmsg("serialcheck: %.*s", len, line)));
}

/* Has the call site keep the filter of this text; a faulty one is an error. A guard reads it as a filter's file, in which more
 * is a fault, and wants a pattern in it. */
static void read_filter(Kept *kept, MemoryContext room, const text *filter, uint32_t flags)
{
    bool is_guard = flags & SERIALCHECK_NEED_PATTERN;
    const char *words = VARDATA_ANY(filter);
    Size len = VARSIZE_ANY_EXHDR(filter);
    serialcheck_answer answer;
    uint32_t status;

    if (kept->text != NULL && kept->flags == flags && kept->len == len && memcmp(kept->text, words, len) == 0)
        return;
    if (kept->text != NULL) {
        pfree(kept->text);
        kept->text = NULL;
    }
    status = (is_guard ? serialcheck_filter_read : serialcheck_filter_new)((const uint8_t *) words, len, (const uint8_t *) "", 0, flags,
                                                                           &answer, &kept->filter);
    if (status == SERIALCHECK_MISUSE)
        stop_at_fault(&answer);
    if (status != SERIALCHECK_YES)
        stop_without_memory();
    kept->text = MemoryContextAlloc(room, len + 1);
    memcpy(kept->text, words, len);
    kept->len = len;
    kept->flags = flags;
}

/* The answer for these bytes, under the filter of the other arguments and these flags. */
static serialcheck_answer answer_of(FunctionCallInfo fcinfo, const bytea *data, uint32_t flags)
{
    Kept *kept = kept_by(fcinfo->flinfo);
    serialcheck_answer answer;

    flags |= (PG_GETARG_BOOL(2) ? SERIALCHECK_STRICT : 0) | (PG_GETARG_BOOL(3) ? SERIALCHECK_ANYWHERE : 0);
    read_filter(kept, fcinfo->flinfo->fn_mcxt, PG_GETARG_TEXT_PP(1), flags);
    if (serialcheck_filter_check(&kept->filter, (const uint8_t *) VARDATA_ANY(data), VARSIZE_ANY_EXHDR(data), &answer) == SERIALCHECK_NO_MEMORY)
        stop_without_memory();
    return answer;
}

PG_FUNCTION_INFO_V1(pg_serialcheck);

/* Whether the bytes are one stream that the filter admits. It guards a table, so the filter must have a pattern. */
Datum pg_serialcheck(PG_FUNCTION_ARGS)
{
    PG_RETURN_BOOL(answer_of(fcinfo, PG_GETARG_BYTEA_PP(0), SERIALCHECK_NEED_PATTERN).status == SERIALCHECK_YES);
}

/* Appends the class name that was refused, quoted, if the answer has one. */
static void append_class(StringInfo text, const serialcheck_answer *answer, const bytea *data)
{
    Size room = 6 * (answer->name_to - answer->name_from) + 2;
    uint8_t *name;
    serialcheck_answer told;

    if (answer->name_to == 0)
        return;
    name = palloc(room);
    switch (serialcheck_class((const uint8_t *) VARDATA_ANY(data), VARSIZE_ANY_EXHDR(data), answer, name, room, &told)) {
    case SERIALCHECK_YES:
        appendStringInfoChar(text, ' ');
        appendBinaryStringInfo(text, (const char *) name, told.bytes);
        break;
    case SERIALCHECK_SPENT:
        break;
    default:
        stop_without_memory();
    }
    pfree(name);
}

PG_FUNCTION_INFO_V1(pg_serialcheck_answer);

/* The line that `serialcheck check` prints of the bytes, and behind a refusal the class name that was refused. */
Datum pg_serialcheck_answer(PG_FUNCTION_ARGS)
{
    bytea *data = PG_GETARG_BYTEA_PP(0);
    serialcheck_answer answer = answer_of(fcinfo, data, 0);
    char line[LINE];
    StringInfoData text;

    initStringInfo(&text);
    appendBinaryStringInfo(&text, line, line_of(&answer, line));
    append_class(&text, &answer, data);
    PG_RETURN_TEXT_P(cstring_to_text_with_len(text.data, text.len));
}
