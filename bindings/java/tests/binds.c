/* What folugben_bind of quick.c does if two class loaders, each with a library of its own, share it: a method keeps the call
 * of the library that came first. There is no JVM here, only its function that takes the methods. */
#include <jni.h>
#include <stdint.h>
#include <stdio.h>
#include <stdlib.h>
#include <string.h>

#define EXPECT(holds) ((holds) ? (void)0 : fail(#holds, __LINE__))
enum { MOST = 64 };

const char *folugben_bindable(int32_t index);
int32_t folugben_bind(JNIEnv *env, jclass calls, int32_t index, void *call);

static JNINativeMethod taken;
static int times;
static int64_t words[3];

static void fail(const char *what, int line) {
    fprintf(stderr, "binds.c:%d: %s\n", line, what);
    exit(1);
}

static jint JNICALL take(JNIEnv *env, jclass calls, const JNINativeMethod *methods, jint count) {
    EXPECT(env != NULL && calls == NULL && count == 1);
    taken = *methods;
    times++;
    return 0;
}

/* The calls of two libraries, of which only one has a type; of the others the addresses are compared. */
static int32_t commit(void *agent, void *step, void *numbers) {
    words[0] = (intptr_t)agent, words[1] = (intptr_t)step, words[2] = (intptr_t)numbers;
    return 7;
}
static int32_t other_commit(void *agent, void *step, void *numbers) {
    return agent == step || step == numbers ? 8 : 9;
}
static char first[MOST], second[MOST];

int main(void) {
    struct JNINativeInterface_ functions = {.RegisterNatives = take};
    JNIEnv env = &functions;
    jint(JNICALL * bound)(JNIEnv *, jclass, jlong, jlong, jlong) = NULL;
    int32_t count = 0;
    for (const char *name; (name = folugben_bindable(count)) != NULL; count++) {
        EXPECT(count < MOST);
        int is_commit = strcmp(name, "asm_commit") == 0;
        void *call = is_commit ? (void *)commit : &first[count];
        void *other = is_commit ? (void *)other_commit : &second[count];
        EXPECT(folugben_bind(&env, NULL, count, call) == 0 && times == 2 * count + 1);
        EXPECT(strcmp(taken.name, name) == 0);
        void *method = taken.fnPtr;
        /* The class of another library is unchanged; one of the same library is bound too. */
        EXPECT(folugben_bind(&env, NULL, count, other) == 1 && times == 2 * count + 1);
        EXPECT(folugben_bind(&env, NULL, count, call) == 0 && times == 2 * count + 2);
        EXPECT(taken.fnPtr == method);
        if (is_commit)
            bound = (jint(JNICALL *)(JNIEnv *, jclass, jlong, jlong, jlong))method;
    }
    EXPECT(count == 15 && bound != NULL);
    EXPECT(bound(&env, NULL, 1, 2, 3) == 7 && words[0] == 1 && words[1] == 2 && words[2] == 3);
    return 0;
}
