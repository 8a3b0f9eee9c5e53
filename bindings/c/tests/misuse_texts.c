/* The calls of misuse on audits, journals and texts, and on moves without an agent. */
#include "misuse.h"

/* An audit accepts the beginning of a line, and no line feed. */
void audits(unsigned at) {
    account *a = &accounts[at];
    asm_audit_numbers audited = {9, 9, 9};
    size_t len = below(3), taken = 9;
    bool has_room = a->kind == NOTHING || a->kind == AUDIT;
    REQUIRE(asm_audit(ANY(at), len ? (const uint8_t *)"{\"" : NULL, len, &taken, &audited) ==
            (has_room ? ASM_DONE : ASM_TAKEN));
    REQUIRE(taken == (has_room ? len : 0));
    REQUIRE(audited.parts == 0 && audited.calls == 0 && audited.moves == 0);
    if (a->kind == NOTHING)
        *a = (account){.kind = AUDIT};
    if (a->kind == AUDIT)
        a->has_begun |= len > 0;
}

void ends_audit(unsigned at) {
    const account *a = &accounts[at];
    asm_audit_numbers audited = {9, 9, 9};
    buffer b = any_buffer();
    REQUIRE(asm_audited(ANY(at), &audited) == (a->kind != AUDIT ? ASM_EMPTY
                                               : a->has_begun   ? ASM_NOT_JSON
                                                                : ASM_CUT));
    REQUIRE(audited.parts == 0 && audited.moves == 0);
    REQUIRE(audited.calls == (a->kind == AUDIT && a->has_begun));
    is_written(asm_audit_state(ANY(at), OUT(b)),
               (struct outcome){a->kind == AUDIT ? ASM_NO_PART : ASM_EMPTY, NULL}, &b);
}

void aggregates(void) {
    const text *state = any_text(), *t = any_text();
    world w = opening_world(state);
    buffer b = any_buffer();
    outcome wanted = {state->state ? state->state : t->move, NULL};
    if (wanted.code == ASM_DONE && !applies_to(t, &w))
        wanted = (outcome){ASM_CLASH, "{\"clash\":[[\"x\"],\"Kind\"]}"};
    else if (wanted.code == ASM_DONE)
        wanted.text = pairs(w, false, t->does == RAISE_X, t->does == PUT_Y);
    is_written(
        asm_aggregate(bytes(state), strlen(state->bytes), bytes(t), strlen(t->bytes), OUT(b)),
        wanted, &b);
}

void composes(void) {
    const text *first = any_text(), *second = any_text();
    int raises = (first->does == RAISE_X) + (second->does == RAISE_X);
    bool puts = first->does == PUT_Y || second->does == PUT_Y;
    char raise[32] = "", composed[ROOM];
    buffer b = any_buffer();
    outcome wanted = {first->move ? first->move : second->move, NULL};
    if (raises)
        snprintf(raise, sizeof raise, "[\"inc\",[\"x\"],%d]", raises);
    snprintf(composed, sizeof composed, "[%s%s%s]", raise, raises && puts ? "," : "",
             puts ? "[\"put\",[\"y\",1],2]" : "");
    if (wanted.code == ASM_DONE)
        wanted.text = composed;
    is_written(asm_compose(bytes(first), strlen(first->bytes), bytes(second), strlen(second->bytes),
                           OUT(b)),
               wanted, &b);
}

/* The explanation of a text is empty exactly if its form is accepted. */
void explains(void) {
    const text *t = any_text();
    uint8_t out[ROOM];
    size_t written = 9, room = below(2) ? sizeof out : 0;
    int32_t form = (int32_t)below(7) - 1;
    int32_t found = form == ASM_FORM_LOCATIONS ? t->locations
                    : form == ASM_FORM_MOVE    ? t->fire
                    : form == ASM_FORM_STATE   ? t->state
                                               : ASM_SHAPE;
    int32_t wanted = form < 0 || form > ASM_FORM_SCRIPT ? ASM_NO_FORM
                     : found == ASM_DONE || room       ? ASM_DONE
                                                       : ASM_SMALL;
    REQUIRE(asm_explain(form, bytes(t), strlen(t->bytes), room ? out : NULL, room, &written) ==
            wanted);
    REQUIRE((written > 0) == (wanted != ASM_NO_FORM && found != ASM_DONE));
    REQUIRE((written == ASM_SENTENCE_LIMIT) == (wanted == ASM_SMALL));
}

/* Checks, replays and traces a journal that is cut off, or has one changed bit. */
static void judges(uint8_t *journal, size_t len) {
    uint8_t state[ROOM];
    size_t cut = below(2) ? len : below((unsigned)len), written;
    uint64_t calls, line;
    uint32_t moves;
    REQUIRE(asm_check(journal, len, &calls, &moves) == ASM_DONE);
    journal[below((unsigned)len)] ^= (uint8_t)(1u << below(8));
    int32_t code = asm_check(journal, cut, &calls, &moves);
    REQUIRE(code == ASM_DONE || (code >= ASM_ILLEGAL && code <= ASM_CUT));
    int32_t left = asm_replay(journal, cut, state, below(2) ? sizeof state : 0, &written, &line);
    if (code == ASM_DONE || code == ASM_ILLEGAL)
        REQUIRE(left == ASM_DONE || left == ASM_SMALL);
    else
        REQUIRE(left == code && written == 0 && (line == calls));
    REQUIRE(asm_trace(journal, cut, state, 0, &written, &line) ==
            (code == ASM_DONE || code == ASM_ILLEGAL ? ASM_SMALL : code));
}

void writes(unsigned at) {
    uint8_t journal[ROOM];
    size_t written = 9, room = below(4) ? sizeof journal : 0;
    bool has_journal = stories[accounts[at].storage].is_closed;
    int32_t wanted = accounts[at].kind != STORAGE ? ASM_EMPTY
                     : has_journal                ? ASM_DONE
                                                  : ASM_NO_JOURNAL;
    int32_t code = asm_journal(ANY(at), room ? journal : NULL, room, &written);
    REQUIRE(code == wanted || (wanted == ASM_DONE && code == ASM_SMALL && written > room));
    REQUIRE((written > 0) == (wanted == ASM_DONE));
    if (code == ASM_DONE)
        judges(journal, written);
}
