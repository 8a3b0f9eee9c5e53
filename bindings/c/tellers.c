/* Two tellers on threads each add 10 to one balance, a hundred times, and no deposit is lost. */
#include <folugben.h>

#include <inttypes.h>
#include <pthread.h>
#include <stdio.h>
#include <stdlib.h>
#include <string.h>

#define TEXT(text) (const uint8_t *)(text), strlen(text)
#define DONE(call) require((call) == ASM_DONE, #call)

static void require(bool holds, const char *what) {
    if (!holds) {
        fprintf(stderr, "failed: %s\n", what);
        exit(1);
    }
}

static void *teller(void *agent) {
    struct asm_location at = {0};
    struct asm_step step = {0};
    struct asm_move move = {0};
    asm_numbers numbers;
    int64_t balance;
    uint32_t number;
    size_t length;
    DONE(asm_location(TEXT("[\"balance\"]"), &at));
    for (int done = 0; done < 100;) {
        DONE(asm_begin(agent, &step, &number)); /* what follows reads one state */
        DONE(asm_get_num(agent, &step, &at, &balance));
        DONE(asm_put_num(&move, &at, balance + 10));
        DONE(asm_push_move(agent, &step, &move, NULL, 0, &length));
        asm_free_move(&move);
        int32_t code = asm_commit(agent, &step, &numbers);
        require(code == ASM_DONE || code == ASM_STALE || code == ASM_BUSY, "asm_commit");
        done += code == ASM_DONE; /* else a conflict, so begin again */
    }
    asm_free_step(&step);
    asm_free_location(&at);
    return NULL;
}

int main(void) {
    struct asm_storage storage = {0};
    struct asm_agent agents[2] = {0};
    struct asm_location at = {0};
    asm_value balance;
    uint32_t number, missing;
    size_t length;
    pthread_t other;
    DONE(asm_open(TEXT("[[[\"balance\"],0]]"), 1000, &storage));
    DONE(asm_agents(&storage, agents, 2)); /* one for each thread */
    require(!pthread_create(&other, NULL, teller, &agents[1]), "pthread_create");
    teller(&agents[0]);
    pthread_join(other, NULL);

    DONE(asm_location(TEXT("[\"balance\"]"), &at));
    DONE(asm_follow(&agents[0], &number));
    DONE(asm_peek_at(&agents[0], &at, &number, &balance, NULL, 0, &length));
    DONE(asm_give(&storage, &agents[0]));
    DONE(asm_give(&storage, &agents[1]));
    DONE(asm_close(&storage, &missing)); /* then asm_journal writes the journal */
    printf("%" PRIu32 " moves, balance %" PRId64 "\n", number, balance.number);
    asm_free_location(&at);
    asm_free_storage(&storage);
    return 0;
}
