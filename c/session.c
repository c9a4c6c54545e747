/*
 * A session in C: a verifier that hands out its coins one by one, and a prover that answers each. The circuit is small:
 * p = 13, two inputs, and two outputs, their product and their sum. The honest prover is accepted; one that claims
 * another product is refused at its first message.
 *
 *     tools/build kidlothe
 *     gcc -std=c99 -Wall -Wextra -o target/session c/session.c target/staticlib/libkidlothe.a && target/session
 */
#include "kidlothe.h"

#include <inttypes.h>
#include <stdio.h>

enum { CIRCUIT_WORDS = 10, INPUT_WORDS = 2, OUTPUTS = 2, COINS = 4 };

static const uint32_t circuit[CIRCUIT_WORDS] = {13, 1, 1, 1, 2, 0, 1, 1, 0, 1};
static const uint32_t input[INPUT_WORDS] = {3, 5};

/* The verifier's own. A real one draws them at random, below p, once it has the outputs, and keeps them from the prover
 * until they are handed out. */
static const uint32_t coins[COINS] = {10, 4, 6, 9};

/* What the prover knows: the coins that were handed out to it. */
struct prover {
    uint32_t handed_out[COINS];
    size_t count;
};

static void hand_out(struct prover *prover, uint32_t coin)
{
    prover->handed_out[prover->count] = coin;
    prover->count += 1;
}

/* The prover's next message, from the coins that it knows. Answers its length, 0 where there is none. */
static size_t next_message(const struct prover *prover, uint32_t message[KIDLOTHE_MAX_ONE_MESSAGE])
{
    kidlothe_written written = kidlothe_prove_one(
        circuit, CIRCUIT_WORDS, input, INPUT_WORDS, prover->handed_out, prover->count, message, KIDLOTHE_MAX_ONE_MESSAGE);
    return written.refusal == KIDLOTHE_NONE ? written.words : 0;
}

/* Sends messages until the session ends. Answers 0 where the outputs were accepted, else the refusal. */
static uint32_t run_steps(struct prover *prover, uint32_t session[KIDLOTHE_SESSION_WORDS])
{
    for (size_t number = 1;; number++) {
        uint32_t message[KIDLOTHE_MAX_ONE_MESSAGE];
        size_t length = next_message(prover, message);
        kidlothe_step_answer answer = kidlothe_step(
            circuit, CIRCUIT_WORDS, input, INPUT_WORDS, coins, COINS, session, message, length);
        if (answer.refusal != KIDLOTHE_NONE || answer.accepted) {
            return answer.refusal;
        }
        printf("  message %zu passed, coin %" PRIu32 "\n", number, answer.coin);
        hand_out(prover, answer.coin);
    }
}

/* Opens a session about these outputs, hands out the coins that come before any message, and runs its steps. Answers 0
 * where the outputs were accepted, else the refusal. */
static uint32_t open_and_run(const uint32_t outputs[OUTPUTS])
{
    uint32_t session[KIDLOTHE_SESSION_WORDS];
    struct prover prover = {{0}, 0};
    kidlothe_opening opening =
        kidlothe_open(circuit, CIRCUIT_WORDS, input, INPUT_WORDS, outputs, OUTPUTS, coins, COINS, session);
    if (opening.refusal != KIDLOTHE_NONE) {
        return opening.refusal;
    }
    for (size_t i = 0; i < opening.coins.count; i++) {
        printf("  opened, coin %" PRIu32 "\n", opening.coins.words[i]);
        hand_out(&prover, opening.coins.words[i]);
    }
    return run_steps(&prover, session);
}

/* A session about claimed outputs, told line by line. Answers 0 where they were accepted, else the refusal. */
static uint32_t run_session(const uint32_t outputs[OUTPUTS])
{
    printf("outputs %" PRIu32 " %" PRIu32 "\n", outputs[0], outputs[1]);
    uint32_t refusal = open_and_run(outputs);
    if (refusal == KIDLOTHE_NONE) {
        printf("  accepted\n");
    } else {
        printf("  refused %" PRIu32 "\n", refusal);
    }
    return refusal;
}

int main(void)
{
    static const uint32_t true_outputs[OUTPUTS] = {2, 8}, false_outputs[OUTPUTS] = {3, 8};
    uint32_t honest = run_session(true_outputs);
    uint32_t lying = run_session(false_outputs);
    return honest == KIDLOTHE_NONE && lying == KIDLOTHE_ROUND_DIFFERS ? 0 : 1;
}
