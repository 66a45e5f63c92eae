/* A native library for Java of another version: its answers have WORDS words, and it has no call but this one. */
#ifndef WORDS
#define WORDS 1
#endif

int Java_serialcheck_Native_words(void *env, void *class);

int Java_serialcheck_Native_words(void *env, void *class) {
    (void)env;
    (void)class;
    return WORDS;
}
