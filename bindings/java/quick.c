/* The calls of an engine's step, for Java without JNA, which takes longer for each than the call itself. folugben_bind makes
 * the methods of the class Calls these functions, which pass their arguments on to the library. */
#include <jni.h>
#include <stdbool.h>
#include <stddef.h>
#include <stdint.h>

#include "folugben.h"

#define AT(word) ((void *)(intptr_t)(word))
#define OWN __attribute__((unused)) JNIEnv *env, __attribute__((unused)) jclass calls

/* Written by tools/declarations from bindings/calls.toml. */
/* The addresses of the library's calls, each of the type in the header. A call is written once, by folugben_bind. */
static struct {
    __typeof__(asm_begin) *begin;
    __typeof__(asm_get) *get;
    __typeof__(asm_see) *see;
    __typeof__(asm_push) *push;
    __typeof__(asm_extend) *extend;
    __typeof__(asm_commit) *commit;
    __typeof__(asm_commit_recorded) *commit_recorded;
    __typeof__(asm_peek_at) *peek_at;
    __typeof__(asm_get_at) *get_at;
    __typeof__(asm_count_of) *count_of;
    __typeof__(asm_size) *size;
    __typeof__(asm_instruct) *instruct;
    __typeof__(asm_push_move) *push_move;
    __typeof__(asm_extend_move) *extend_move;
    __typeof__(asm_free) *free;
} library;

static jint JNICALL quick_begin(OWN, jlong agent, jlong step, jlong number) {
    return library.begin(AT(agent), AT(step), AT(number));
}

static jint JNICALL quick_get(
    OWN, jlong agent, jlong step, jlong locations, jlong len, jlong out, jlong room, jlong written) {
    return library.get(AT(agent), AT(step), AT(locations), (size_t)len, AT(out), (size_t)room, AT(written));
}

static jint JNICALL quick_see(
    OWN, jlong agent, jlong step, jlong locations, jlong len, jlong out, jlong room, jlong written) {
    return library.see(AT(agent), AT(step), AT(locations), (size_t)len, AT(out), (size_t)room, AT(written));
}

static jint JNICALL quick_push(
    OWN, jlong agent, jlong step, jlong move, jlong len, jlong out, jlong room, jlong written) {
    return library.push(AT(agent), AT(step), AT(move), (size_t)len, AT(out), (size_t)room, AT(written));
}

static jint JNICALL quick_extend(
    OWN, jlong agent, jlong step, jlong move, jlong len, jlong out, jlong room, jlong written) {
    return library.extend(AT(agent), AT(step), AT(move), (size_t)len, AT(out), (size_t)room, AT(written));
}

static jint JNICALL quick_commit(OWN, jlong agent, jlong step, jlong numbers) {
    return library.commit(AT(agent), AT(step), AT(numbers));
}

static jint JNICALL quick_commit_recorded(OWN, jlong agent, jlong step, jlong numbers) {
    return library.commit_recorded(AT(agent), AT(step), AT(numbers));
}

static jint JNICALL quick_peek_at(
    OWN, jlong agent, jlong at, jlong number, jlong value, jlong out, jlong room, jlong written) {
    return library.peek_at(AT(agent), AT(at), AT(number), AT(value), AT(out), (size_t)room, AT(written));
}

static jint JNICALL quick_get_at(
    OWN, jlong agent, jlong step, jlong at, jlong value, jlong out, jlong room, jlong written) {
    return library.get_at(AT(agent), AT(step), AT(at), AT(value), AT(out), (size_t)room, AT(written));
}

static jint JNICALL quick_count_of(
    OWN, jlong agent, jlong step, jlong at, jint kind, jlong number, jlong bytes, jlong len, jlong count) {
    return library.count_of(AT(agent), AT(step), AT(at), kind, number, AT(bytes), (size_t)len, AT(count));
}

static jint JNICALL quick_size(OWN, jlong agent, jlong step, jlong at, jlong size) {
    return library.size(AT(agent), AT(step), AT(at), AT(size));
}

static jint JNICALL quick_instruct(
    OWN, jlong move, jlong at, jint verb, jint kind, jlong number, jlong bytes, jlong len, jint amount) {
    return library.instruct(AT(move), AT(at), verb, kind, number, AT(bytes), (size_t)len, (uint32_t)amount);
}

static jint JNICALL quick_push_move(OWN, jlong agent, jlong step, jlong move, jlong out, jlong room, jlong written) {
    return library.push_move(AT(agent), AT(step), AT(move), AT(out), (size_t)room, AT(written));
}

static jint JNICALL quick_extend_move(OWN, jlong agent, jlong step, jlong move, jlong out, jlong room, jlong written) {
    return library.extend_move(AT(agent), AT(step), AT(move), AT(out), (size_t)room, AT(written));
}

static void JNICALL quick_free(OWN, jlong slot) {
    library.free(AT(slot));
}

/* A method, its function here, and the place of the address of the library's call. */
static const struct {
    JNINativeMethod method;
    void *call;
} bound[] = {
    {{"asm_begin", "(JJJ)I", (void *)quick_begin}, &library.begin},
    {{"asm_get", "(JJJJJJJ)I", (void *)quick_get}, &library.get},
    {{"asm_see", "(JJJJJJJ)I", (void *)quick_see}, &library.see},
    {{"asm_push", "(JJJJJJJ)I", (void *)quick_push}, &library.push},
    {{"asm_extend", "(JJJJJJJ)I", (void *)quick_extend}, &library.extend},
    {{"asm_commit", "(JJJ)I", (void *)quick_commit}, &library.commit},
    {{"asm_commit_recorded", "(JJJ)I", (void *)quick_commit_recorded}, &library.commit_recorded},
    {{"asm_peek_at", "(JJJJJJJ)I", (void *)quick_peek_at}, &library.peek_at},
    {{"asm_get_at", "(JJJJJJJ)I", (void *)quick_get_at}, &library.get_at},
    {{"asm_count_of", "(JJJIJJJJ)I", (void *)quick_count_of}, &library.count_of},
    {{"asm_size", "(JJJJ)I", (void *)quick_size}, &library.size},
    {{"asm_instruct", "(JJIIJJJI)I", (void *)quick_instruct}, &library.instruct},
    {{"asm_push_move", "(JJJJJJ)I", (void *)quick_push_move}, &library.push_move},
    {{"asm_extend_move", "(JJJJJJ)I", (void *)quick_extend_move}, &library.extend_move},
    {{"asm_free", "(J)V", (void *)quick_free}, &library.free},
};
/* End of what tools/declarations writes. */

/* Returns the version of the header, as asm_version returns that of the library. */
JNIEXPORT int32_t folugben_quick_version(void) { return FOLUGBEN_VERSION; }

/* Returns the name of a method that can be bound, from 0 up; null after the last. */
JNIEXPORT const char *folugben_bindable(int32_t index) {
    return (size_t)index < sizeof bound / sizeof *bound ? bound[index].method.name : NULL;
}

/* Returns whether the place has this call; the first call that comes stays there. Class loaders that load this library by its
 * name share it, and each may have a libfolugben of its own, which is unloaded with it. A class keeps only the library of its own
 * calls loaded. So a place that changed would have it call into another one, or to an address without any. */
static bool has(void **place, void *call) {
    void *found = NULL;
    return __atomic_compare_exchange_n(place, &found, call, false, __ATOMIC_ACQ_REL, __ATOMIC_ACQUIRE) || found == call;
}

/* Binds the method to the library's call at this address. Returns 0 if that was done, and 1 if the method is unchanged, since it
 * passes its arguments on to the call of another library. Else an exception is thrown. */
JNIEXPORT int32_t folugben_bind(JNIEnv *env, jclass calls, int32_t index, void *call) {
    return has(bound[index].call, call) ? (*env)->RegisterNatives(env, calls, &bound[index].method, 1) : 1;
}
