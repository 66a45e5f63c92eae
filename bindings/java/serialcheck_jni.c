/* The native calls of serialcheck.Native. Bytes are copied before they are checked: no other thread changes the copy. A handle of
 * Java is the address of a handle of the library, or 0. */
#include "serialcheck.h"

#include <jni.h>
#include <stdbool.h>
#include <stdlib.h>

#define CALL(type, name) JNIEXPORT type JNICALL Java_serialcheck_Native_##name

enum { WORDS = 12, SMALL_ROOM = 8192, MOST_TEXT = 255, FIRST_ROOM = 65536 };

static void hand_out(JNIEnv *env, jlongArray out, const serialcheck_answer *a) {
    const jlong words[WORDS] = {(jlong)a->status, (jlong)a->reason, (jlong)a->from, (jlong)a->to, (jlong)a->bytes, (jlong)a->contents, (jlong)a->refs, (jlong)a->depth, (jlong)a->handles,
                                (jlong)a->name_from, (jlong)a->name_to, (jlong)a->whole};
    (*env)->SetLongArrayRegion(env, out, 0, WORDS, words);
}

/* A copy of a part of an array, in `room` if it fits there, which may be NULL for no bytes; NULL too where there is no memory. */
static uint8_t *copied(JNIEnv *env, jbyteArray bytes, jint from, jsize len, uint8_t *room, size_t room_len) {
    uint8_t *copy = (size_t)len <= room_len ? room : malloc((size_t)len);
    if (copy) (*env)->GetByteArrayRegion(env, bytes, from, len, (jbyte *)copy);
    return copy;
}

/* The text that a call has written into a room, which has a byte more for its end; NULL where it has written none. */
static jstring text_of(JNIEnv *env, uint8_t *room, const serialcheck_answer *told) {
    if (told->status != SERIALCHECK_YES) return NULL;
    room[told->bytes] = 0;
    return (*env)->NewStringUTF(env, (const char *)room);
}

/* The class name that an answer says was refused, of these bytes or of a stream, as the program prints it without its quotes, or
 * NULL. */
static jstring class_of(JNIEnv *env, const uint8_t *bytes, size_t len, serialcheck_stream *stream, const serialcheck_answer *answer) {
    const size_t most = 6 * (size_t)(answer->name_to - answer->name_from) + 2;
    uint8_t *quoted = answer->name_to > 0 ? malloc(most) : NULL;
    serialcheck_answer told;
    jstring name = NULL;
    if (quoted && (stream ? serialcheck_stream_class(stream, quoted, most, &told) : serialcheck_class(bytes, len, answer, quoted, most, &told)) == SERIALCHECK_YES
        && told.bytes >= 2) {
        quoted[told.bytes - 1] = 0;
        name = (*env)->NewStringUTF(env, (const char *)quoted + 1);
    }
    free(quoted);
    return name;
}

CALL(jint, words)(JNIEnv *env, jclass class) {
    (void)env;
    (void)class;
    return WORDS;
}

CALL(jint, version)(JNIEnv *env, jclass class) {
    (void)env;
    (void)class;
    return (jint)serialcheck_version();
}

CALL(jstring, line)(JNIEnv *env, jclass class, jlongArray from) {
    (void)class;
    jlong w[WORDS];
    (*env)->GetLongArrayRegion(env, from, 0, WORDS, w);
    const serialcheck_answer answer = {(uint32_t)w[0], (uint32_t)w[1], (uint64_t)w[2], (uint64_t)w[3], (uint64_t)w[4], (uint64_t)w[5], (uint64_t)w[6], (uint64_t)w[7], (uint64_t)w[8],
                                       (uint64_t)w[9], (uint64_t)w[10], (uint64_t)w[11]};
    uint8_t room[MOST_TEXT + 1];
    serialcheck_answer told;
    serialcheck_line(&answer, room, MOST_TEXT, &told);
    return text_of(env, room, &told);
}

CALL(jstring, reasonName)(JNIEnv *env, jclass class, jint reason) {
    (void)class;
    uint8_t room[MOST_TEXT + 1];
    serialcheck_answer told;
    serialcheck_reason_name((uint32_t)reason, room, MOST_TEXT, &told);
    return text_of(env, room, &told);
}

CALL(jstring, reasonText)(JNIEnv *env, jclass class, jint reason) {
    (void)class;
    uint8_t room[MOST_TEXT + 1];
    serialcheck_answer told;
    serialcheck_reason_text((uint32_t)reason, room, MOST_TEXT, &told);
    return text_of(env, room, &told);
}

/* Makes a filter by a call that reads it: serialcheck_filter_new or serialcheck_filter_read. */
static jlong filter_by(__typeof__(serialcheck_filter_new) *read, JNIEnv *env, jbyteArray filter, jbyteArray modules, jint flags, jlongArray out) {
    serialcheck_answer answer = {.status = SERIALCHECK_NO_MEMORY};
    serialcheck_filter *handle = calloc(1, sizeof *handle);
    const jsize len = (*env)->GetArrayLength(env, filter), modules_len = (*env)->GetArrayLength(env, modules);
    uint8_t *text = copied(env, filter, 0, len, NULL, 0), *table = copied(env, modules, 0, modules_len, NULL, 0);
    if (handle && (text || !len) && (table || !modules_len))
        read(text, (size_t)len, table, (size_t)modules_len, (uint32_t)flags, &answer, handle);
    free(text);
    free(table);
    hand_out(env, out, &answer);
    if (answer.status == SERIALCHECK_YES) return (jlong)(intptr_t)handle;
    free(handle);
    return 0;
}

CALL(jlong, filterNew)(JNIEnv *env, jclass class, jbyteArray text, jbyteArray modules, jint flags, jlongArray out) {
    (void)class;
    return filter_by(serialcheck_filter_new, env, text, modules, flags, out);
}

CALL(jlong, filterRead)(JNIEnv *env, jclass class, jbyteArray file, jbyteArray modules, jint flags, jlongArray out) {
    (void)class;
    return filter_by(serialcheck_filter_read, env, file, modules, flags, out);
}

CALL(jstring, filterCheck)(JNIEnv *env, jclass class, jlong filter, jbyteArray bytes, jint from, jint len, jlongArray out) {
    (void)class;
    serialcheck_answer answer = {.status = SERIALCHECK_SPENT};
    uint8_t room[SMALL_ROOM], *copy = NULL;
    jstring name = NULL;
    if (filter) {
        copy = copied(env, bytes, from, len, room, sizeof room);
        answer.status = SERIALCHECK_NO_MEMORY;
        if (copy) serialcheck_filter_check((serialcheck_filter *)(intptr_t)filter, copy, (size_t)len, &answer);
    }
    hand_out(env, out, &answer); // before the name: where the heap has no room for it, an exception is under way
    if (answer.status == SERIALCHECK_NO) name = class_of(env, copy, (size_t)len, NULL, &answer);
    if (copy != room) free(copy);
    return name;
}

CALL(void, filterFree)(JNIEnv *env, jclass class, jlong filter) {
    (void)env;
    (void)class;
    if (filter) serialcheck_filter_free((serialcheck_filter *)(intptr_t)filter);
    free((void *)(intptr_t)filter);
}

/* What a text is made of: the bytes, and of `list` a filter and a table of modules. */
typedef struct {
    uint8_t *bytes, *filter, *modules;
    size_t len, filter_len, modules_len;
} given;

/* Writes the text of `show` or `list` into a room. */
static void write_text(bool lists, const given *of, size_t most, uint8_t *room, size_t room_len, serialcheck_answer *answer) {
    if (lists)
        serialcheck_list(of->bytes, of->len, of->filter, of->filter_len, of->modules, of->modules_len, most, room, room_len, answer);
    else
        serialcheck_show(of->bytes, of->len, most, room, room_len, answer);
}

static jsize length_of(JNIEnv *env, jbyteArray bytes) { return bytes ? (*env)->GetArrayLength(env, bytes) : 0; }

/* The text of `list`, or where there is no filter that of `show`: as much of it as `most` bytes have. Written into a small room first. */
CALL(jbyteArray, text)(JNIEnv *env, jclass class, jbyteArray bytes, jbyteArray filter, jbyteArray modules, jint most, jlongArray out) {
    (void)class;
    serialcheck_answer answer = {.status = SERIALCHECK_NO_MEMORY};
    const jsize len = length_of(env, bytes), filter_len = length_of(env, filter), modules_len = length_of(env, modules);
    const given of = {copied(env, bytes, 0, len, NULL, 0), filter_len ? copied(env, filter, 0, filter_len, NULL, 0) : NULL, modules_len ? copied(env, modules, 0, modules_len, NULL, 0) : NULL,
                      (size_t)len, (size_t)filter_len, (size_t)modules_len};
    size_t room_len = most < FIRST_ROOM ? (size_t)most : FIRST_ROOM;
    uint8_t *room = malloc(room_len + 1);
    const bool is_given = (of.bytes || !len) && (of.filter || !filter_len) && (of.modules || !modules_len);
    if (room && is_given) write_text(filter != NULL, &of, (size_t)most, room, room_len, &answer);
    if (answer.status == SERIALCHECK_SMALL && room_len < (size_t)most) {
        room_len = answer.bytes ? (size_t)answer.bytes : (size_t)most;
        answer = (serialcheck_answer){.status = SERIALCHECK_NO_MEMORY};
        free(room);
        room = malloc(room_len);
        if (room) write_text(filter != NULL, &of, (size_t)most, room, room_len, &answer);
    }
    free(of.bytes);
    free(of.filter);
    free(of.modules);
    hand_out(env, out, &answer);
    jbyteArray made = NULL;
    if (answer.status == SERIALCHECK_YES || answer.status == SERIALCHECK_SMALL) {
        const jsize written = (jsize)(answer.status == SERIALCHECK_YES ? (size_t)answer.bytes : room_len);
        made = (*env)->NewByteArray(env, written);
        if (made) (*env)->SetByteArrayRegion(env, made, 0, written, (const jbyte *)room);
    }
    free(room);
    return made;
}

CALL(jlong, streamNew)(JNIEnv *env, jclass class, jlong filter, jlongArray out) {
    (void)class;
    serialcheck_answer answer = {.status = SERIALCHECK_SPENT};
    serialcheck_stream *handle = 0;
    if (filter) {
        answer.status = SERIALCHECK_NO_MEMORY;
        handle = calloc(1, sizeof *handle);
        if (handle) serialcheck_stream_new((serialcheck_filter *)(intptr_t)filter, &answer, handle);
    }
    if (answer.status == SERIALCHECK_MORE) return (jlong)(intptr_t)handle;
    if (out) hand_out(env, out, &answer);
    free(handle);
    return 0;
}

/* The status. Of a refusal `streamAnswer` has the rest. */
CALL(jint, streamFeed)(JNIEnv *env, jclass class, jlong stream, jbyteArray bytes, jint from, jint len) {
    (void)class;
    serialcheck_answer answer = {.status = SERIALCHECK_SPENT};
    uint8_t room[SMALL_ROOM];
    if (stream) {
        uint8_t *copy = copied(env, bytes, from, len, room, sizeof room);
        answer.status = SERIALCHECK_NO_MEMORY;
        if (copy) serialcheck_stream_feed((serialcheck_stream *)(intptr_t)stream, copy, (size_t)len, &answer);
        if (copy != room) free(copy);
    }
    return (jint)answer.status;
}

/* The answer of a stream that was refused: it is the same whatever comes next, so also of no bytes. */
CALL(jstring, streamAnswer)(JNIEnv *env, jclass class, jlong stream, jlongArray out) {
    (void)class;
    serialcheck_answer answer = {.status = SERIALCHECK_SPENT};
    serialcheck_stream *handle = (serialcheck_stream *)(intptr_t)stream;
    if (stream) serialcheck_stream_feed(handle, NULL, 0, &answer);
    hand_out(env, out, &answer); // before the name: where the heap has no room for it, an exception is under way
    return answer.status == SERIALCHECK_NO ? class_of(env, NULL, 0, handle, &answer) : NULL;
}

CALL(void, streamEnd)(JNIEnv *env, jclass class, jlong stream, jlongArray out) {
    (void)class;
    serialcheck_answer answer = {.status = SERIALCHECK_SPENT};
    if (stream) serialcheck_stream_end((serialcheck_stream *)(intptr_t)stream, &answer);
    hand_out(env, out, &answer);
}

CALL(void, streamFree)(JNIEnv *env, jclass class, jlong stream) {
    (void)env;
    (void)class;
    if (stream) serialcheck_stream_free((serialcheck_stream *)(intptr_t)stream);
    free((void *)(intptr_t)stream);
}
