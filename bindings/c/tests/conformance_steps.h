/* Calls of steps, of prepared locations and of gathered moves, for the test of conformance. */
#ifndef CONFORMANCE_STEPS_H
#define CONFORMANCE_STEPS_H

#include "conformance_calls.h"

/* A commit that fires ends the step, and is counted; any other leaves the step and the count. */
static int32_t commit(void) {
    asm_numbers its = {9, 9, 9};
    uint32_t won = asm_won(agent(0)), depth = asm_depth(step(0));
    int32_t code = (is_recording ? asm_commit_recorded : asm_commit)(agent(0), step(0), &its);
    bool has_fired = code == ASM_DONE;
    if (has_fired && (step(0)->slot.full || step(0)->slot.at || asm_seen(agent(0)) != its.fired))
        fail("a commit that has fired");
    if (asm_won(agent(0)) != won + has_fired || asm_depth(step(0)) != (has_fired ? 0 : depth))
        fail("what a commit has changed");
    return numbered(code, its);
}

/* The kind of a value, by its JSON. */
static int32_t kind_of(struct word value) {
    switch (value.at[0]) {
    case 'n':
        return ASM_KIND_UNDEF;
    case 't':
    case 'f':
        return ASM_KIND_BOOL;
    case '"':
        return ASM_KIND_TEXT;
    case '{':
        return value.at[2] == 'l' ? ASM_KIND_LIST : value.at[2] == 's' ? ASM_KIND_SET : ASM_KIND_BAG;
    default:
        return ASM_KIND_NUM;
    }
}

static int64_t number_of(struct word value) {
    int32_t kind = kind_of(value);
    return kind == ASM_KIND_NUM ? strtoll(value.at, NULL, 10) : kind == ASM_KIND_BOOL && value.at[0] == 't';
}

static struct word bytes_of(struct word *value) {
    int32_t kind = kind_of(*value);
    return kind == ASM_KIND_TEXT ? *unquoted(value) : kind > ASM_KIND_TEXT ? *value : (struct word){0};
}

static int32_t prepare(struct word place, struct asm_location *at) {
    int32_t code = asm_location(BYTES(place), at);
    if (code == ASM_SHAPE || code == ASM_NOT_JSON) {
        static char list[LINE];
        int len = snprintf(list, sizeof list, "[%.*s]", (int)place.len, place.at);
        explain(ASM_FORM_LOCATIONS, (const uint8_t *)list, (size_t)len);
    }
    return code;
}

static int32_t gather_one(struct word instruction) {
    static const char *const verbs[] = {"\"put\"", "\"add\"", "\"remove\"", "\"bagadd\"", "\"bagremove\"", "\"inc\""};
    struct asm_location at = {0};
    struct word its[4] = {0}, rest = items_of(instruction);
    int32_t verb = 0;
    for (size_t i = 0; i < 4 && next_item(&rest, &its[i]);)
        i++;
    while (strncmp(verbs[verb], its[0].at, its[0].len))
        verb++;
    int32_t code = prepare(its[1], &at);
    if (code != ASM_DONE)
        return code;
    int32_t kind = kind_of(its[2]);
    int64_t number = number_of(its[2]);
    struct word bytes = bytes_of(&its[2]);
    uint32_t amount = its[3].len ? (uint32_t)strtoul(its[3].at, NULL, 10) : 0;
    code = asm_instruct(move_at(0), &at, verb, kind, number, BYTES(bytes), amount);
    asm_free_location(&at);
    return code;
}

static int32_t gather(void) {
    struct word rest = items_of(words[1]), instruction;
    int32_t code = ASM_DONE;
    while (code == ASM_DONE && next_item(&rest, &instruction))
        code = gather_one(instruction);
    return write_null(code);
}

/* Writes the value that a call at a prepared location has returned. */
static void write_value(asm_value value) {
    struct word bytes = {(char *)out, written};
    bool has_number = value.kind == ASM_KIND_NUM || value.kind == ASM_KIND_BOOL;
    char *quoted;
    if ((!has_number && value.number) || (value.kind > ASM_KIND_TEXT && value.kind != kind_of(bytes)))
        fail("a value of another kind");
    switch (value.kind) {
    case ASM_KIND_UNDEF:
        reply("null");
        break;
    case ASM_KIND_BOOL:
        reply(value.number ? "true" : "false");
        break;
    case ASM_KIND_NUM:
        reply("%" PRId64, value.number);
        break;
    case ASM_KIND_TEXT:
        quoted = slot(6 * bytes.len + 3);
        written = quote(quoted, bytes.at, bytes.len);
        free(out);
        out = (uint8_t *)quoted;
    }
}

/* Writes each instruction of the move. */
static int32_t list_move(void) {
    static const char *const verbs[] = {"put", "add", "remove", "bagadd", "bagremove", "inc"};
    struct word all = {slot(LINE), 0};
    uint32_t length = asm_move_length(move_at(0)), place = 0;
    int32_t code = ASM_DONE;
    for (;; place++) {
        asm_instruction its = {9, 9, 9, 9, 9};
        code = WRITES(asm_move_at(move_at(0), place, &its, OUT));
        if (code != ASM_DONE) {
            if (its.verb || its.amount || its.kind || its.number || its.place)
                fail("the instruction of a refused call");
            break;
        }
        all.len += (size_t)sprintf(all.at + all.len, "%c[\"%s\",%.*s,", place ? ',' : '[', verbs[its.verb], (int)its.place, (char *)out);
        written -= its.place;
        memmove(out, out + its.place, written);
        write_value((asm_value){its.kind, its.number});
        all.len += (size_t)sprintf(all.at + all.len, "%.*s", (int)written, (char *)out);
        if (its.amount)
            all.len += (size_t)sprintf(all.at + all.len, ",%" PRIu32, its.amount);
        all.at[all.len++] = ']';
    }
    if (place != length || code != (move_at(0)->slot.full ? ASM_NO_INSTRUCTION : ASM_EMPTY))
        fail("the length of a move");
    give_room(all.len + 3);
    written = (size_t)sprintf((char *)out, "%s%.*s]", place ? "" : "[", (int)all.len, all.at);
    free(all.at);
    return ASM_DONE;
}

/* Counts the element of the third word in the set or the bag at the location of the second one, by both calls. */
static int32_t count_of(uint32_t *count) {
    struct asm_location at = {0};
    int32_t code = prepare(words[1], &at);
    if (code != ASM_DONE)
        return code;
    int32_t kind = kind_of(words[2]);
    int64_t number = number_of(words[2]);
    struct word bytes = bytes_of(&words[2]);
    bool has = true;
    code = asm_count_of(agent(0), step(0), &at, kind, number, BYTES(bytes), count);
    if (asm_has(agent(0), step(0), &at, kind, number, BYTES(bytes), &has) != code || has != (*count > 0))
        fail("asm_has");
    asm_free_location(&at);
    return code;
}

static int32_t size_of(uint64_t *size) {
    struct asm_location at = {0};
    int32_t code = prepare(words[1], &at);
    if (code == ASM_DONE)
        code = asm_size(agent(0), step(0), &at, size);
    asm_free_location(&at);
    return code;
}

/* What the step asks of a set or a bag. */
static int32_t count(bool is_size, bool is_has) {
    uint32_t found = 9;
    uint64_t size = 9;
    int32_t code = is_size ? size_of(&size) : count_of(&found);
    if (code != ASM_DONE && (is_size ? size : found))
        fail("the count of a refused call");
    if (code != ASM_DONE)
        return code;
    if (!is_has)
        return write_number(is_size ? size : found);
    reply(found ? "true" : "false");
    return code;
}

/* What the step asks of a function without listing it. */
static int32_t count_function(bool is_any) {
    struct word *name = text(1);
    uint32_t any = 9;
    uint64_t found = 9;
    int32_t code = is_any ? asm_any(agent(0), step(0), BYTES(*name), &any) : asm_count(agent(0), step(0), BYTES(*name), &found);
    if (code != ASM_DONE && (is_any ? any : found))
        fail("the count of a refused call");
    if (code != ASM_DONE)
        return code;
    if (!is_any)
        return write_number(found);
    reply(any ? "true" : "false");
    return code;
}

static int32_t at_prepared(bool gets) {
    asm_value value = {9, 9};
    struct asm_location at = {0};
    uint32_t found = 0;
    int32_t code = prepare(words[1], &at);
    if (code != ASM_DONE)
        return code;
    code = gets ? WRITES(asm_get_at(agent(0), step(0), &at, &value, OUT)) : WRITES(asm_peek_at(agent(0), &at, &found, &value, OUT));
    asm_free_location(&at);
    if (code != ASM_DONE && (value.kind || value.number))
        fail("the value of a refused call");
    if (code != ASM_DONE)
        return code;
    write_value(value);
    if (gets)
        return code;
    struct word its = {slot(written), written};
    memcpy(its.at, out, written);
    give_room(written + 64);
    written = (size_t)sprintf((char *)out, "{\"number\":%" PRIu32 ",\"values\":[%.*s]}", found, (int)its.len, its.at);
    free(its.at);
    return code;
}

#define IS(name) !strcmp(call, name)

/* A call of a step, or of a move that is gathered. */
static int32_t of_step(const char *call) {
    uint32_t found = 0;
    if (IS("begin")) {
        int32_t code = asm_begin(agent(0), step(0), &found);
        return code == ASM_DONE ? write_number(found) : code;
    }
    if (IS("get")) return values(WRITES(asm_get(agent(0), step(0), BYTES(words[1]), OUT)));
    if (IS("see")) return values(WRITES(asm_see(agent(0), step(0), BYTES(words[1]), OUT)));
    if (IS("get_at")) return at_prepared(true);
    if (IS("get_all")) {
        struct word *name = text(1);
        return WRITES(asm_step_scan(agent(0), step(0), BYTES(*name), OUT));
    }
    if (IS("any") || IS("count")) return count_function(IS("any"));
    if (IS("has")) return count(false, true);
    if (IS("count_of")) return count(false, false);
    if (IS("size")) return count(true, false);
    if (IS("push")) return of_move(WRITES(asm_push(agent(0), step(0), BYTES(words[1]), OUT)));
    if (IS("extend")) return of_move(WRITES(asm_extend(agent(0), step(0), BYTES(words[1]), OUT)));
    if (IS("push_move")) return or_refusal(WRITES(asm_push_move(agent(0), step(0), move_at(1), OUT)));
    if (IS("extend_move")) return or_refusal(WRITES(asm_extend_move(agent(0), step(0), move_at(1), OUT)));
    if (IS("pop_move")) return write_null(asm_pop_move(step(0), move_at(1)));
    if (IS("pop")) return write_null(asm_pop(step(0)));
    if (IS("depth")) return write_number(asm_depth(step(0)));
    if (IS("offer")) return WRITES(asm_offer(step(0), OUT));
    if (IS("step_stands")) return or_refusal(WRITES(asm_step_stands(agent(0), step(0), OUT)));
    if (IS("commit")) return commit();
    if (IS("gather")) return gather();
    if (IS("length")) return write_number(asm_move_length(move_at(0)));
    if (IS("instructions")) return list_move();
    if (IS("unite")) return write_null(asm_unite(move_at(0), move_at(1)));
    if (IS("drop")) {
        asm_free_move(move_at(0));
        return write_null(ASM_DONE);
    }
    fail(call);
    return 0;
}

#endif
