/* Calls without text: operands that make no instruction, or are no element. Values, gathered moves, popped and united ones are in
 * bindings/conformance/gathered.jsonl, elements and sizes in steps.jsonl, and slots of other kinds in misuse.c. */
#include "plain.h"

/* Verbs, operands and amounts that don't exist, with a move that is empty and one that isn't. */
static void out_of_range(void) {
    begin_all();
    for (int i = 0; i < 2; i++) {
        refuses(-1, ASM_KIND_NUM, 1, "", 0);
        refuses(6, ASM_KIND_NUM, 1, "", 0);
        refuses(INT32_MIN, ASM_KIND_NUM, 1, "", 0);
        refuses(ASM_PUT, -1, 0, "", 0);
        refuses(ASM_PUT, 7, 0, "", 0);
        refuses(ASM_PUT, ASM_KIND_UNDEF, 1, "", 0);
        refuses(ASM_PUT, ASM_KIND_UNDEF, 0, "u", 0);
        refuses(ASM_PUT, ASM_KIND_BOOL, 2, "", 0);
        refuses(ASM_PUT, ASM_KIND_BOOL, -1, "", 0);
        refuses(ASM_PUT, ASM_KIND_BOOL, 1, "1", 0);
        refuses(ASM_PUT, ASM_KIND_NUM, 1, "1", 0);
        refuses(ASM_PUT, ASM_KIND_TEXT, 1, "1", 0);
        refuses(ASM_PUT, ASM_KIND_NUM, 1, "", 1);
        refuses(ASM_ADD, ASM_KIND_NUM, 1, "", 4294967295);
        refuses(ASM_REMOVE, ASM_KIND_NUM, 1, "", 1);
        refuses(ASM_BAGADD, ASM_KIND_NUM, 1, "", 0);
        refuses(ASM_BAGREMOVE, ASM_KIND_NUM, 1, "", 0);
        refuses(ASM_INC, ASM_KIND_NUM, 1, "", 1);
        refuses(ASM_INC, ASM_KIND_BOOL, 1, "", 0);
        refuses(ASM_INC, ASM_KIND_TEXT, 0, "\xff", 0);
        refuses(ASM_PUT, ASM_KIND_TEXT, 1, "\xff", 0);
        refuses_as(ASM_SHAPE, ASM_PUT, ASM_KIND_TEXT, 0, "a\xff", 0);
        refuses_as(ASM_SHAPE, ASM_BAGADD, ASM_KIND_TEXT, 0, "\xc3", 1);
        REQUIRE(move.slot.full == (i == 1));
        if (i == 0)
            does(X, ASM_INC, ASM_KIND_NUM, 1, "", 0);
    }
    REQUIRE(grows(true) == ASM_DONE);
    gets(X, ASM_KIND_NUM, 8, "");
    end_all();
}

/* If several codes of asm_instruct apply, it returns the first in the header's order. */
static void order_of_codes(void) {
    struct asm_location none = {0};
    struct asm_move most = {0};
    begin_all();
    does(X, ASM_INC, ASM_KIND_NUM, 1, "", 0);
    for (int i = 0; i < 4096; i++)
        REQUIRE(asm_instruct(&most, &at[X], ASM_INC, ASM_KIND_NUM, 1, NULL, 0, 0) == ASM_DONE);
    void *moves[] = {&step, &most, &move}, *locations[] = {&none, &at[X]};
    for (int i = 0; i < 24; i++) {
        void *of = moves[i / 8], *place = locations[i / 4 % 2];
        asm_slot was = slot_of(of);
        bool is_in_range = i / 2 % 2, is_utf8 = i % 2;
        int32_t wanted = of == &step      ? ASM_TAKEN
                         : place == &none ? ASM_EMPTY
                         : !is_in_range   ? ASM_OPERAND
                         : !is_utf8       ? ASM_SHAPE
                         : of == &most    ? ASM_LONG_MOVE
                                          : ASM_DONE;
        REQUIRE(asm_instruct(of, place, ASM_PUT, ASM_KIND_TEXT, is_in_range ? 0 : 1,
                             bytes(is_utf8 ? "a" : "\xff"), 1, 0) == wanted);
        REQUIRE(is_same_slot(slot_of(of), was));
    }
    asm_free_move(&most);
    end_all();
}

/* Bytes that aren't JSON, or of no value of the kind, and values that a verb doesn't accept. */
static void refuses_each(void) {
    static const char *const no_lists[] = {
        "7",
        "null",
        "'list'",
        "[1,2]",
        "{'set':[]}",
        "{'bag':[]}",
        "{}",
        "{'list':1}",
        "{'list':[1.0]}",
        "{'list':[{'set':[]}]}",
        "{'lists':[]}",
        "{'list':[],'set':[]}",
        "{'list':[9223372036854775808]}",
        "{'list':[{'list':[{'list':[{'list':[{'list':[{'list':[{'list':[{'list':[{'list':[]}]}]}]}]"
        "}]}]}]}]}",
    };
    static const char *const no_json[] = {"", "{'list':[", "{'list':[]} 1", "\xff",
                                          "{'list':[1,]}"};
    for (size_t i = 0; i < sizeof no_lists / sizeof *no_lists; i++) {
        refuses_as(ASM_SHAPE, ASM_PUT, ASM_KIND_LIST, 0, no_lists[i], 0);
        refuses_as(ASM_SHAPE, ASM_ADD, ASM_KIND_LIST, 0, no_lists[i], 0);
        refuses_as(ASM_SHAPE, ASM_BAGREMOVE, ASM_KIND_LIST, 0, no_lists[i], 1);
    }
    for (size_t i = 0; i < sizeof no_json / sizeof *no_json; i++)
        for (int32_t kind = ASM_KIND_LIST; kind <= ASM_KIND_BAG; kind++)
            refuses_as(ASM_NOT_JSON, ASM_PUT, kind, 0, no_json[i], 0);
    refuses_as(ASM_SHAPE, ASM_PUT, ASM_KIND_SET, 0, "{'list':[]}", 0);
    refuses_as(ASM_SHAPE, ASM_PUT, ASM_KIND_SET, 0, "{'set':[1,1]}", 0);
    refuses_as(ASM_SHAPE, ASM_PUT, ASM_KIND_SET, 0, "{'set':[{'set':[]}]}", 0);
    refuses_as(ASM_SHAPE, ASM_PUT, ASM_KIND_BAG, 0, "{'set':[]}", 0);
    refuses_as(ASM_SHAPE, ASM_PUT, ASM_KIND_BAG, 0, "{'bag':[['e',0]]}", 0);
    refuses_as(ASM_SHAPE, ASM_PUT, ASM_KIND_BAG, 0, "{'bag':[['e',1],['e',1]]}", 0);
    refuses_as(ASM_SHAPE, ASM_PUT, ASM_KIND_BAG, 0, "{'bag':[['e',4294967296]]}", 0);
    for (int32_t kind = ASM_KIND_SET; kind <= ASM_KIND_BAG; kind++) {
        const char *text = kind == ASM_KIND_SET ? "{'set':[]}" : "{'bag':[]}";
        refuses(ASM_ADD, kind, 0, text, 0);
        refuses(ASM_REMOVE, kind, 0, text, 0);
        refuses(ASM_BAGADD, kind, 0, text, 1);
        refuses(ASM_BAGREMOVE, kind, 0, text, 1);
        refuses(ASM_INC, kind, 0, text, 0);
        refuses(ASM_PUT, kind, 1, text, 0);
        refuses(ASM_PUT, kind, 0, text, 1);
    }
    refuses(ASM_PUT, ASM_KIND_LIST, -1, "{'list':[]}", 0);
    refuses(ASM_PUT, ASM_KIND_LIST, 0, "{'list':[]}", 1);
    refuses(ASM_BAGADD, ASM_KIND_LIST, 0, "{'list':[]}", 0);
    refuses(ASM_INC, ASM_KIND_LIST, 0, "{'list':[]}", 0);
}

/* This holds for an empty move and for one that isn't. */
static void no_values(void) {
    begin_all();
    does(L, ASM_PUT, ASM_KIND_LIST, 0, " {'list' : [2,{'list':[]}]}\n", 0);
    REQUIRE(grows(true) == ASM_DONE);
    gets(L, ASM_KIND_LIST, 0, "{'list':[2,{'list':[]}]}");
    asm_free_move(&move);
    refuses_each();
    REQUIRE(!move.slot.full);
    does(X, ASM_INC, ASM_KIND_NUM, 1, "", 0);
    refuses_each();
    REQUIRE(grows(true) == ASM_DONE);
    gets(X, ASM_KIND_NUM, 8, "");
    end_all();
}

/* What is no element is counted nowhere, and nothing is tracked. */
static void no_elements(void) {
    static const struct {
        int32_t code, kind;
        int64_t number;
        const char *text;
    } rows[] = {
        {ASM_OPERAND, ASM_KIND_UNDEF, 1, ""},           {ASM_OPERAND, ASM_KIND_UNDEF, 0, "u"},
        {ASM_OPERAND, ASM_KIND_BOOL, 2, ""},            {ASM_OPERAND, ASM_KIND_NUM, 1, "1"},
        {ASM_OPERAND, ASM_KIND_TEXT, 1, "t"},           {ASM_OPERAND, ASM_KIND_LIST, 1, "{'list':[]}"},
        {ASM_OPERAND, ASM_KIND_SET, 0, "{'set':[]}"},   {ASM_OPERAND, ASM_KIND_BAG, 0, "{'bag':[]}"},
        {ASM_OPERAND, 7, 0, ""},                        {ASM_OPERAND, -1, 0, ""},
        {ASM_NOT_JSON, ASM_KIND_LIST, 0, ""},           {ASM_SHAPE, ASM_KIND_LIST, 0, "{'set':[]}"},
        {ASM_SHAPE, ASM_KIND_TEXT, 0, "\xc3"},
    };
    begin_all();
    for (size_t i = 0; i < sizeof rows / sizeof *rows; i++) {
        uint32_t count = 99;
        bool has = true;
        const char *text = json(rows[i].text);
        const uint8_t *element = *text ? bytes(text) : NULL;
        size_t len = strlen(text);
        REQUIRE(asm_count_of(&agents[0], &step, &at[S], rows[i].kind, rows[i].number, element, len, &count) == rows[i].code);
        REQUIRE(asm_has(&agents[0], &step, &at[S], rows[i].kind, rows[i].number, element, len, &has) == rows[i].code);
        REQUIRE(count == 0 && !has);
    }
    WRITES(ASM_DONE, "{'fire':[],'reads':[]}", asm_offer(&step, OUT));
    end_all();
}

int main(void) {
    out_of_range();
    order_of_codes();
    no_values();
    no_elements();
    puts("passed");
    return 0;
}
