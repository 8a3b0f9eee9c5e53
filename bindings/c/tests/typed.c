/* Gets and puts of one kind: each value as it is, and a value of another kind by its code. */
#include "plain.h"

/* The code and the value of each get at the location; the texts are no longer than the room. */
static void of_number(size_t place, int32_t code, int64_t wanted, int64_t or_seven) {
    int64_t number = 9;
    int32_t code_or = code == ASM_SHAPE && or_seven ? ASM_DONE : code;
    REQUIRE(asm_get_num(&agents[0], &step, &at[place], &number) == code && number == wanted);
    number = 9;
    REQUIRE(asm_get_num_or(&agents[0], &step, &at[place], 7, &number) == code_or);
    REQUIRE(number == or_seven);
}

static void of_truth(size_t place, int32_t code, bool wanted) {
    bool is_true = !wanted;
    REQUIRE(asm_get_bool(&agents[0], &step, &at[place], &is_true) == code && is_true == wanted);
}

static void of_text(size_t place, int32_t code, const char *wanted) {
    size_t room = strlen(wanted), written = 99;
    uint8_t *out = buffer_of(room + 32);
    REQUIRE(asm_get_text(&agents[0], &step, &at[place], out, room + 32, &written) == code);
    REQUIRE(written == room && !memcmp(out, wanted, room));
    if (room) {
        written = 99;
        REQUIRE(asm_get_text(&agents[0], &step, &at[place], out, room - 1, &written) == ASM_SMALL);
        REQUIRE(written == room);
    }
    free(out);
}

static void each_kind_of_get(void) {
    static const size_t others[] = {B, F, L, S, T, W, Y};
    begin_all();
    of_number(N, ASM_DONE, INT64_MIN, INT64_MIN);
    of_number(X, ASM_DONE, 7, 7);
    of_number(U, ASM_SHAPE, 0, 7);
    for (size_t i = 0; i < sizeof others / sizeof *others; i++)
        of_number(others[i], ASM_SHAPE, 0, 0);
    of_truth(F, ASM_DONE, false);
    of_truth(Y, ASM_DONE, true);
    of_text(T, ASM_DONE, "h\xc3\xbc");
    of_text(W, ASM_DONE, "");
    for (size_t place = 0; place < PLACES; place++) {
        if (place != F && place != Y)
            of_truth(place, ASM_SHAPE, false);
        if (place != T && place != W)
            of_text(place, ASM_SHAPE, "");
    }
    end_all();
}

static void each_kind_of_put(void) {
    begin_all();
    REQUIRE(asm_put_num(&move, &at[U], INT64_MIN) == ASM_DONE);
    REQUIRE(asm_put_bool(&move, &at[F], true) == ASM_DONE);
    REQUIRE(asm_put_text(&move, &at[Y], bytes("h\xc3\xbc"), 3) == ASM_DONE);
    REQUIRE(asm_put_undef(&move, &at[T]) == ASM_DONE);
    REQUIRE(asm_inc_num(&move, &at[X], -8) == ASM_DONE);
    REQUIRE(grows(true) == ASM_DONE);
    gets(U, ASM_KIND_NUM, INT64_MIN, "");
    gets(F, ASM_KIND_BOOL, 1, "");
    gets(Y, ASM_KIND_TEXT, 0, "h\xc3\xbc");
    gets(T, ASM_KIND_UNDEF, 0, "");
    gets(X, ASM_KIND_NUM, -1, "");
    REQUIRE(asm_put_text(&move, &at[Y], bytes("\xff"), 1) == ASM_SHAPE);
    end_all();
}

/* What a get returns is tracked, and other codes come through. */
static void gets_are_tracked(void) {
    asm_numbers numbers;
    int64_t number = 9;
    bool is_true = true;
    size_t written = 9;
    begin_all();
    REQUIRE(asm_get_num(&agents[0], &step, &at[X], &number) == ASM_DONE);
    REQUIRE(asm_put_num(&move, &at[U], number) == ASM_DONE && grows(true) == ASM_DONE);
    REQUIRE(asm_try_fire(&agents[1], TEXT("{'fire':[['put',['x'],1]],'reads':[]}"), &numbers) ==
            ASM_DONE);
    REQUIRE(asm_commit(&agents[0], &step, &numbers) == ASM_STALE);
    REQUIRE(asm_get_num(&agents[0], &step, &at[X], &number) == ASM_MOVED && number == 0);
    REQUIRE(asm_get_num_or(&agents[0], &step, &at[X], 7, &number) == ASM_MOVED && number == 0);
    REQUIRE(asm_get_bool(&agents[0], &step, &at[X], &is_true) == ASM_MOVED && !is_true);
    REQUIRE(asm_get_text(&agents[0], &step, &at[X], NULL, 0, &written) == ASM_MOVED);
    REQUIRE(written == 0);
    end_all();
}

int main(void) {
    each_kind_of_get();
    each_kind_of_put();
    gets_are_tracked();
    puts("passed");
    return 0;
}
