/* serialcheck: whether bytes are one Java object serialization stream that a filter admits. No class is loaded or run.
 *
 * What the caller owes, in every call:
 *   - A pointer is to as many bytes as its length says; where that is 0, it may be NULL. A length is at most PTRDIFF_MAX.
 *   - What a call writes (answer, handle, room) overlaps nothing that it reads, and the bytes that it reads do not change
 *     meanwhile.
 *   - A handle is zero before its first call (SERIALCHECK_NONE), is written by these calls alone, and is not copied. A filter's
 *     handle is read by any number of calls at once (serialcheck_filter_check, serialcheck_stream_new), of any threads, while
 *     no call fills or frees it. A stream's handle is used by one call at a time. What fills, frees or uses it next is
 *     ordered after that by a lock, a join or an atomic.
 *   - No call comes from a signal handler, or from the forked child of a process with threads.
 * Calls on different handles, and calls without one, may run at once. Memory comes from malloc, realloc and free.
 *
 * Every call returns the status that it also writes into the answer. Only SERIALCHECK_YES is a yes. */
#ifndef SERIALCHECK_H
#define SERIALCHECK_H

#include <stdbool.h>
#include <stddef.h>
#include <stdint.h>

#ifdef __cplusplus
extern "C" {
#endif

/* The status of an answer. */
enum {
    SERIALCHECK_YES = 0,       /* accepted; or what was asked for was done */
    SERIALCHECK_NO = 1,        /* refused: reason, from and to say why */
    SERIALCHECK_MISUSE = 2,    /* a faulty filter, table of modules or flag: reason is the cause, from the piece or line */
    SERIALCHECK_NO_MEMORY = 3, /* memory ran out */
    SERIALCHECK_MORE = 4,      /* nothing is decided yet: more bytes are wanted */
    SERIALCHECK_SPENT = 5,     /* the handle holds nothing; or there is no such text */
    SERIALCHECK_SMALL = 6      /* the text is longer than the room */
};

/* The flags of a filter. */
enum {
    SERIALCHECK_STRICT = 1,      /* refuse a class that no pattern matches */
    SERIALCHECK_ANYWHERE = 2,    /* ask the filter about every class name that can be read at any place of the bytes */
    SERIALCHECK_NEED_PATTERN = 4 /* a filter without a pattern, which would let each class pass, is a MISUSE: for guards */
};

/* The reasons of a refusal, numbered from 1: docs/REFUSALS.md explains each. */
#define SERIALCHECK_REASONS(X) \
    X(BytesExceeded) X(BadHeader) X(BadTag) X(ExceptionTag) X(ResetInside) X(BadText) X(NegativeLength) X(BadTypeCode) \
    X(FieldOrder) X(BadFlags) X(NullClass) X(NoSuchHandle) X(WrongKind) X(OpenDescriptor) X(BadArrayName) X(WrongClass) \
    X(ExternalRaw) X(NotSerializable) X(ClassRejected) X(ClassUnmatched) X(DepthExceeded) X(RefsExceeded) X(ArrayExceeded) \
    X(Truncated) X(HandleSpace) X(HiddenName)

/* The causes of SERIALCHECK_MISUSE, numbered from 1: six of the filter's text, three of the table of modules, one of the flags,
 * three of a line of a filter's file, one of that file, and one of a filter that needs a pattern. */
#define SERIALCHECK_CAUSES(X) \
    X(UnknownLimit) X(BadLimit) X(ModuleMissing) X(NameMissing) X(PackageMissing) X(FilterIsNoText) \
    X(BadLine) X(PackageTwice) X(ModulesAreNoText) X(UnknownFlag) \
    X(ByteOrderMark) X(NumberSign) X(WhiteSpace) X(FilterFileIsNoText) X(NoPattern)

/* What a call answers. What the status does not speak of is 0. */
typedef struct {
    uint32_t status;
    uint32_t reason;   /* of NO the reason, of MISUSE the cause */
    uint64_t from;     /* of NO the offset of the faulty token, of MISUSE the faulty piece or line, from 0 */
    uint64_t to;       /* of NO how many bytes decide: no admitted stream begins with these (of Truncated: all, which are none) */
    uint64_t bytes;    /* of YES the counts of the stream: its bytes, */
    uint64_t contents; /* its top-level contents, */
    uint64_t refs;     /* its places, as maxrefs counts them: values and superclasses, */
    uint64_t depth;    /* its depth, */
    uint64_t handles;  /* and its handles */
    uint64_t name_from; /* of NO where the bytes of the class name stand that was refused (ClassRejected, ClassUnmatched), */
    uint64_t name_to;   /* or the place of a hidden name (HiddenName): that of `72` or `7D`, and the end of its text. Of an empty
                         * name both are the same; name_to is 0 where there is no name */
    uint64_t whole;    /* of a check (YES, NO, MORE) how many of the bytes that came are whole contents: the length of their longest
                        * front that the filter admits, or 0; ANYWHERE is not asked. So streams one after another can be cut.
                        * Pieces that come after a HiddenName do not count */
} serialcheck_answer;

/* A filter that was read once. Threads share it: no call that reads it changes it. */
typedef struct {
    void *at;
    bool is_open;
} serialcheck_filter;

#define SERIALCHECK_NONE {0, false}

/* A stream that is being checked, in pieces of any sizes. */
typedef struct {
    void *at;
    bool is_open;
} serialcheck_stream;

/* Checks bytes under the filter of a text, which is read each time. YES, NO, MISUSE or NO_MEMORY. */
uint32_t serialcheck_check(const uint8_t *bytes, size_t len, const uint8_t *filter, size_t filter_len, uint32_t flags,
                           serialcheck_answer *answer);

/* Reads a filter's text and a table of modules (lines `package=module`, or none). YES: the handle holds the filter, and what
 * it held before is let go. MISUSE or NO_MEMORY: the handle is as it was. */
uint32_t serialcheck_filter_new(const uint8_t *text, size_t len, const uint8_t *modules, size_t modules_len, uint32_t flags,
                                serialcheck_answer *answer, serialcheck_filter *filter);

/* The same of the bytes of a filter's file: its lines are pieces of a filter, or several with `;`, and a line that begins with `#`
 * is a comment. */
uint32_t serialcheck_filter_read(const uint8_t *file, size_t len, const uint8_t *modules, size_t modules_len, uint32_t flags,
                                 serialcheck_answer *answer, serialcheck_filter *filter);

/* Checks bytes under the filter of a handle. YES, NO or NO_MEMORY; SPENT where the handle holds nothing. */
uint32_t serialcheck_filter_check(const serialcheck_filter *filter, const uint8_t *bytes, size_t len, serialcheck_answer *answer);

/* Lets the filter go, if the handle holds one; then it holds nothing. */
void serialcheck_filter_free(serialcheck_filter *filter);

/* Begins a stream under the filter of a handle, which may be let go before the stream. MORE: the stream's handle holds it, and
 * what it held before is let go. NO_MEMORY, or SPENT where the filter's handle holds nothing: the stream's handle is as it was. */
uint32_t serialcheck_stream_new(const serialcheck_filter *filter, serialcheck_answer *answer, serialcheck_stream *stream);

/* The same under the filter of a text with a table of modules. MORE, MISUSE or NO_MEMORY. */
uint32_t serialcheck_stream_new_text(const uint8_t *text, size_t len, const uint8_t *modules, size_t modules_len, uint32_t flags,
                                     serialcheck_answer *answer, serialcheck_stream *stream);

/* Takes the next bytes. MORE: they decide nothing. NO: a byte of them decides, whatever comes after it. NO_MEMORY. After NO and
 * NO_MEMORY each call answers the same again. SPENT where the handle holds nothing. */
uint32_t serialcheck_stream_feed(serialcheck_stream *stream, const uint8_t *bytes, size_t len, serialcheck_answer *answer);

/* Writes the class name for which a stream was refused into a room, as `serialcheck_class` does, after `serialcheck_stream_feed` has
 * answered NO for one: no byte of the stream has to be kept. The stream stays as it is, and keeps its memory until it is ended
 * or let go. SPENT where none was refused, and where the
 * handle holds nothing. Six times the length of the name and two bytes are room enough. */
uint32_t serialcheck_stream_class(serialcheck_stream *stream, uint8_t *room, size_t room_len, serialcheck_answer *told);

/* The end of the stream: answers what a check of all its bytes at once would, and lets the stream go. SPENT where the handle
 * holds nothing. */
uint32_t serialcheck_stream_end(serialcheck_stream *stream, serialcheck_answer *answer);

/* Lets a stream go that was not ended, if the handle holds one. */
void serialcheck_stream_free(serialcheck_stream *stream);

/* Writes the text of `show` of a stream into a room, or as many of its first bytes as the room has. The answer's `bytes` is the
 * length of the whole text. YES: all of it is in the room. SMALL: the room is full. NO: the bytes are no stream. NO_MEMORY.
 * A small hostile stream can have gigabytes of text, so no more than `most` bytes are made: of a longer text the first of these
 * are in the room, as many as it has, the answer is SMALL, and `bytes` is 0. That takes up to `most` bytes of memory. */
uint32_t serialcheck_show(const uint8_t *bytes, size_t len, size_t most, uint8_t *room, size_t room_len, serialcheck_answer *answer);

/* Writes the text of `list` of a stream in the same way: a line for each class name, with how often the stream has it and what
 * the filter of a text, with a table of modules, says of it. The filter refuses nothing. YES, SMALL, NO, MISUSE or NO_MEMORY.
 * Names are counted under a key from the system's source of random numbers; where that gives none, the answer is NO_MEMORY. */
uint32_t serialcheck_list(const uint8_t *bytes, size_t len, const uint8_t *filter, size_t filter_len, const uint8_t *modules,
                          size_t modules_len, size_t most, uint8_t *room, size_t room_len, serialcheck_answer *answer);

/* The version of the library: its three numbers, in eight bits each; 0x000100 is 0.1.0. */
uint32_t serialcheck_version(void);

/* Writes the line that `serialcheck check` prints of an answer into a room, with its line feed, or as many of its first bytes as
 * the room has: of YES, NO, MISUSE and NO_MEMORY. `told` says YES or SMALL, and its `bytes` is the length of the line; SPENT where
 * the answer has no line; NO_MEMORY. 128 bytes are room enough. `answer` and `told` are different places. */
uint32_t serialcheck_line(const serialcheck_answer *answer, uint8_t *room, size_t room_len, serialcheck_answer *told);

/* Writes the class name that an answer to a check of these bytes says was refused or hidden, quoted as the program prints it, in
 * the same way: other units than printable ASCII are `\u` and four digits, and an empty name is `""`. SPENT where the answer has no
 * such name, or the bytes do not have it at that place: then they are others. Of a stream that came in pieces `bytes` are all of them up to `name_to`.
 * Six times the length of the name and two bytes are room enough. */
uint32_t serialcheck_class(const uint8_t *bytes, size_t len, const serialcheck_answer *answer, uint8_t *room, size_t room_len,
                           serialcheck_answer *told);

/* Writes the name of a reason, what a reason means in a sentence, or the name of a cause of MISUSE, in the same way. SPENT where
 * none has the number. 32 bytes are room enough for a name, 160 for a sentence. */
uint32_t serialcheck_reason_name(uint32_t reason, uint8_t *room, size_t room_len, serialcheck_answer *told);
uint32_t serialcheck_reason_text(uint32_t reason, uint8_t *room, size_t room_len, serialcheck_answer *told);
uint32_t serialcheck_cause_name(uint32_t cause, uint8_t *room, size_t room_len, serialcheck_answer *told);

#ifdef __cplusplus
}
#endif

#endif
