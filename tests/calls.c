/*
 * What a C program relies on beside the answers, which the comparison in rust/compare holds against another
 * implementation: how the answers' fields lie, that a refusal leaves all of them 0, lists without words given as NULL,
 * words around a session or a buffer that stay as they were, and the header's limits, which are those of the largest
 * circuit that the library takes.
 */
#include "../c/kidlothe.h"

#include <stdio.h>
#include <string.h>

enum { MARK = 0x5a5a5a5a };

static int failures = 0;

static void expect(int holds, const char *what)
{
    if (!holds) {
        printf("calls: %s\n", what);
        failures += 1;
    }
}

/* Whether the list is these words, and 0 past them. */
static int is_list(kidlothe_short_list list, const uint32_t *words, size_t count)
{
    for (size_t i = 0; i < KIDLOTHE_MAX_OUTPUTS; i++)
        if (list.words[i] != (i < count ? words[i] : 0))
            return 0;
    return list.count == count;
}

static int is_empty(kidlothe_short_list list)
{
    return is_list(list, NULL, 0);
}

/* The product of two inputs. */
static const uint32_t circuit[] = {13, 1, 0, 1, 2, 0, 1};
static const uint32_t input[] = {3, 5};
static const uint32_t output[] = {2};
static const uint32_t coins[] = {4, 6, 9};

/* Their product and their sum. */
static const uint32_t pair[] = {13, 1, 1, 1, 2, 0, 1, 1, 0, 1};
static const uint32_t pair_outputs[] = {2, 8};
static const uint32_t pair_coins[] = {10, 4, 6, 9};

static void test_answers(void)
{
    uint32_t values[4] = {MARK, MARK, MARK, MARK};
    kidlothe_evaluation evaluation = kidlothe_evaluate(circuit, 7, input, 2, values, 4);
    expect(evaluation.refusal == 0 && is_list(evaluation.outputs, output, 1), "evaluate answers 2");
    expect(values[0] == 2 && values[1] == 3 && values[2] == 5 && values[3] == MARK, "evaluate writes three values");

    uint32_t messages[10];
    memset(messages, 0x5a, sizeof messages);
    kidlothe_proof proof = kidlothe_prove(circuit, 7, input, 2, coins, 3, messages, 10);
    const uint32_t honest[10] = {2, 8, 3, 0, 5, 12, 11, 4, MARK, MARK}, lie[] = {3};
    expect(proof.refusal == 0 && is_list(proof.outputs, output, 1) && proof.words == 8, "prove answers 2 and 8 words");
    expect(memcmp(messages, honest, sizeof honest) == 0, "prove writes the transcript");
    expect(kidlothe_check(circuit, 7, input, 2, output, 1, coins, 3, messages, 8) == KIDLOTHE_NONE, "the transcript is accepted");
    expect(kidlothe_check(circuit, 7, input, 2, lie, 1, coins, 3, messages, 8) == KIDLOTHE_ROUND_DIFFERS, "3 is refused by 16");

    const uint8_t bytes[] = {0, 0, 0, 2, 0, 0, 0, 7, 1, 2, 3, 4, 0, 0, 0, 0};
    uint32_t words[3] = {MARK, MARK, MARK};
    kidlothe_counts counts = kidlothe_read(bytes, sizeof bytes, 2, words, 3);
    expect(counts.refusal == 0 && counts.first == 2 && counts.second == 0, "read answers 2 and 0");
    expect(counts.third == 0 && counts.fourth == 0, "arrays not called for have no words");
    expect(words[0] == 7 && words[1] == 0x01020304 && words[2] == MARK, "read writes two words");
}

static void test_several_outputs(void)
{
    uint32_t values[5] = {MARK, MARK, MARK, MARK, MARK};
    const uint32_t all[] = {2, 8, 3, 5, MARK};
    kidlothe_evaluation evaluation = kidlothe_evaluate(pair, 10, input, 2, values, 5);
    expect(evaluation.refusal == 0 && is_list(evaluation.outputs, pair_outputs, 2), "evaluate answers 2 and 8");
    expect(memcmp(values, all, sizeof all) == 0, "evaluate writes four values, the outputs first");

    uint32_t messages[8], first[3];
    const uint32_t honest[] = {10, 11, 5, 0, 3, 1, 11, 4};
    kidlothe_proof proof = kidlothe_prove(pair, 10, input, 2, pair_coins, 4, messages, 8);
    expect(proof.refusal == 0 && is_list(proof.outputs, pair_outputs, 2) && proof.words == 8, "prove answers both and 8 words");
    expect(memcmp(messages, honest, sizeof honest) == 0, "prove writes the messages from the first coin on");
    expect(kidlothe_prove_one(pair, 10, input, 2, pair_coins, 1, first, 3).words == 3, "the first message follows the first coin");
    expect(memcmp(first, honest, sizeof first) == 0, "and is that of the transcript");
    expect(kidlothe_check(pair, 10, input, 2, pair_outputs, 2, pair_coins, 4, messages, 8) == KIDLOTHE_NONE, "both are accepted");

    const uint32_t false_sum[] = {2, 9}, long_list[] = {13, 8, 0}, above[] = {2, 13};
    expect(kidlothe_check(pair, 10, input, 2, false_sum, 2, pair_coins, 4, messages, 8) == KIDLOTHE_ROUND_DIFFERS, "9 is refused by 16");
    expect(kidlothe_check(pair, 10, input, 2, long_list, 1, NULL, 0, NULL, 0) == KIDLOTHE_OUTPUT_COUNT, "one output is refused by 21 before 13");
    expect(kidlothe_check(pair, 10, input, 2, long_list, 3, NULL, 0, NULL, 0) == KIDLOTHE_OUTPUT_COUNT, "and so are three");
    expect(kidlothe_check(pair, 10, input, 2, long_list, 2, NULL, 0, NULL, 0) == KIDLOTHE_OUTPUT_WORD, "13 is refused by 13 before 11");
    expect(kidlothe_check(pair, 10, input, 2, above, 2, NULL, 0, NULL, 0) == KIDLOTHE_OUTPUT_WORD, "and so it is as the last word");
}

static void test_refusals(void)
{
    uint32_t buffer[2] = {MARK, MARK};
    kidlothe_evaluation evaluation = kidlothe_evaluate(pair, 10, input, 2, buffer, 2);
    expect(evaluation.refusal == KIDLOTHE_BUFFER_SHORT && is_empty(evaluation.outputs), "a short buffer is refused by 10");
    kidlothe_proof proof = kidlothe_prove(pair, 10, input, 2, pair_coins, 4, buffer, 2);
    expect(proof.refusal == KIDLOTHE_BUFFER_SHORT && is_empty(proof.outputs) && proof.words == 0, "prove refuses it too");
    kidlothe_written written = kidlothe_prove_one(pair, 10, input, 2, pair_coins, 4, buffer, 2);
    expect(written.refusal == KIDLOTHE_COIN_COUNT && written.words == 0, "no message follows all coins");
    written = kidlothe_prove_one(pair, 10, input, 2, NULL, 0, buffer, 2);
    expect(written.refusal == KIDLOTHE_COIN_COUNT && written.words == 0, "nor comes one before the first coin");
    kidlothe_counts counts = kidlothe_read((const uint8_t *)"", 0, 1, buffer, 2);
    expect(counts.refusal == KIDLOTHE_BYTES_UNFIT && counts.first == 0, "no bytes are no array");
    expect(buffer[0] == MARK && buffer[1] == MARK, "a refusal writes nothing");
}

static void test_null(void)
{
    uint32_t message[3], session[KIDLOTHE_SESSION_WORDS];
    expect(kidlothe_load(NULL, 0) == KIDLOTHE_HEADER_SHORT, "no circuit is refused by 1");
    expect(kidlothe_evaluate(circuit, 7, NULL, 0, NULL, 0).refusal == KIDLOTHE_INPUT_COUNT, "no input is refused by 8");
    expect(kidlothe_prove_one(circuit, 7, input, 2, NULL, 0, message, 3).words == 3, "the first message of one output follows no coins");
    expect(kidlothe_check(circuit, 7, input, 2, NULL, 0, coins, 3, NULL, 0) == KIDLOTHE_OUTPUT_COUNT, "no outputs are refused by 21");
    expect(kidlothe_open(circuit, 7, input, 2, NULL, 0, coins, 3, session).refusal == KIDLOTHE_OUTPUT_COUNT, "and by an opening");
    expect(kidlothe_check(circuit, 7, input, 2, output, 1, coins, 3, NULL, 0) == KIDLOTHE_MESSAGE_LENGTH, "no messages are refused by 14");
}

static void test_opening(void)
{
    uint32_t session[KIDLOTHE_SESSION_WORDS] = {MARK, MARK, MARK, MARK};
    const uint32_t above[] = {13, 8};
    kidlothe_opening opening = kidlothe_open(pair, 10, input, 2, above, 1, pair_coins, 3, session);
    expect(opening.refusal == KIDLOTHE_OUTPUT_COUNT && is_empty(opening.coins), "an opening refuses by 21 before 13");
    opening = kidlothe_open(pair, 10, input, 2, above, 2, pair_coins, 3, session);
    expect(opening.refusal == KIDLOTHE_OUTPUT_WORD && is_empty(opening.coins), "by 13 before 11, and hands out no coin");
    opening = kidlothe_open(pair, 10, input, 2, pair_outputs, 2, pair_coins, 3, session);
    expect(opening.refusal == KIDLOTHE_COIN_COUNT && is_empty(opening.coins), "and by 11");
    expect(session[0] == MARK && session[1] == MARK && session[2] == MARK && session[3] == MARK, "a refused opening writes nothing");
    opening = kidlothe_open(pair, 10, input, 2, pair_outputs, 2, pair_coins, 4, session);
    expect(opening.refusal == 0 && is_list(opening.coins, pair_coins, 1), "an opening hands out the first coin alone");
    /* 2 + 10 x (8 - 2) modulo 13. */
    expect(session[0] == 1 && session[1] == 0 && session[2] == 10 && session[3] == 1, "its claim is the outputs' at that coin");
}

static void test_session(void)
{
    uint32_t around[6] = {MARK, MARK, MARK, MARK, MARK, MARK};
    uint32_t *session = around + 1;
    const uint32_t first[] = {2, 8, 3};
    kidlothe_opening opening = kidlothe_open(circuit, 7, input, 2, output, 1, coins, 3, session);
    expect(opening.refusal == 0 && is_empty(opening.coins), "one output opens a session without a coin");
    expect(session[0] == 1 && session[1] == 0 && session[2] == 2 && session[3] == 1, "at layer 1, round 0, claim 2, open");
    kidlothe_step_answer answer = kidlothe_step(circuit, 7, input, 2, coins, 3, session, first, 3);
    expect(answer.refusal == 0 && answer.accepted == 0 && answer.coin == 4, "the first message passes, and gets its coin");
    answer = kidlothe_step(circuit, 7, input, 2, coins, 3, session, first, 2);
    expect(answer.refusal == KIDLOTHE_MESSAGE_LENGTH && answer.accepted == 0 && answer.coin == 0, "a short message is refused by 14");
    expect(session[0] == 1 && session[1] == 1 && session[3] == 0, "and ends the session where it was");
    session[3] = 7;
    answer = kidlothe_step(circuit, 7, input, 2, coins, 3, session, first, 3);
    expect(answer.refusal == KIDLOTHE_RECORD_UNFIT && session[3] == 7, "a fourth word of 7 is an ended session's, and stays");
    expect(around[0] == MARK && around[5] == MARK, "words beside the session stay");
}

static uint32_t largest[KIDLOTHE_MAX_CIRCUIT_WORDS + 1];

/* The circuit of so many layers that all have this width exponent, but for layer 0, which has its own, each gate an
 * addition of two words, in `largest`; its word count, or 0 if it is longer than the header says. */
static size_t build(size_t output_exponent, size_t depth, size_t exponent)
{
    size_t gates = ((size_t)1 << output_exponent) + (depth - 1) * ((size_t)1 << exponent);
    size_t start = 3 + depth, words = start + 3 * gates;
    if (words > KIDLOTHE_MAX_CIRCUIT_WORDS)
        return 0;
    memset(largest, 0, sizeof largest);
    largest[0] = 13;
    largest[1] = (uint32_t)depth;
    largest[2] = (uint32_t)output_exponent;
    for (size_t i = 3; i < start; i++)
        largest[i] = (uint32_t)exponent;
    for (size_t at = start; at < words; at += 3)
        largest[at] = 1;
    return words;
}

/* The largest k_0, the largest depth and the largest exponent that Load takes. */
static size_t most_outputs(void)
{
    size_t exponent = 0;
    while (kidlothe_load(largest, build(exponent + 1, 1, 0)) == KIDLOTHE_NONE)
        exponent += 1;
    return exponent;
}

static size_t deepest(void)
{
    size_t depth = 1;
    while (kidlothe_load(largest, build(0, depth + 1, 0)) == KIDLOTHE_NONE)
        depth += 1;
    return depth;
}

static size_t widest(void)
{
    size_t exponent = 0;
    while (kidlothe_load(largest, build(0, 1, exponent + 1)) == KIDLOTHE_NONE)
        exponent += 1;
    return exponent;
}

static void test_limits(void)
{
    static uint32_t values[KIDLOTHE_MAX_VALUES], messages[KIDLOTHE_MAX_MESSAGE_WORDS];
    static const uint32_t zeros[KIDLOTHE_MAX_VALUES], drawn[KIDLOTHE_MAX_COINS] = {7, 6, 5, 4, 3};
    size_t output_exponent = most_outputs(), depth = deepest(), exponent = widest(), width = (size_t)1 << exponent;
    size_t words = build(output_exponent, depth, exponent);
    uint32_t session[KIDLOTHE_SESSION_WORDS];
    expect(output_exponent == KIDLOTHE_MAX_OUTPUT_EXPONENT, "the header's k_0 is the largest");
    expect(depth == KIDLOTHE_MAX_DEPTH, "the header's depth is the largest");
    expect(exponent == KIDLOTHE_MAX_EXPONENT, "the header's exponent is the largest");
    expect(kidlothe_load(largest, words) == KIDLOTHE_NONE, "the largest circuit is legal");
    expect(words == KIDLOTHE_MAX_CIRCUIT_WORDS, "its words are the header's");
    kidlothe_evaluation evaluation = kidlothe_evaluate(largest, words, zeros, width, values, KIDLOTHE_MAX_VALUES);
    expect(evaluation.refusal == 0, "the header's values hold its own");
    expect(is_list(evaluation.outputs, zeros, KIDLOTHE_MAX_OUTPUTS), "its outputs are as many as the header's");
    expect(kidlothe_evaluate(largest, words, zeros, width, values, KIDLOTHE_MAX_VALUES - 1).refusal == KIDLOTHE_BUFFER_SHORT, "one less is too short");
    kidlothe_proof proof =
        kidlothe_prove(largest, words, zeros, width, drawn, KIDLOTHE_MAX_COINS, messages, KIDLOTHE_MAX_MESSAGE_WORDS);
    expect(proof.refusal == 0, "the header's coins are its own");
    expect(proof.words == KIDLOTHE_MAX_MESSAGE_WORDS, "its message words are the header's");
    expect(kidlothe_prove_one(largest, words, zeros, width, drawn, KIDLOTHE_MAX_COINS - 1, messages, KIDLOTHE_MAX_MESSAGE_WORDS).words
               == KIDLOTHE_MAX_ONE_MESSAGE, "its longest message has the header's words");
    kidlothe_opening opening =
        kidlothe_open(largest, words, zeros, width, zeros, KIDLOTHE_MAX_OUTPUTS, drawn, KIDLOTHE_MAX_COINS, session);
    expect(opening.refusal == 0 && is_list(opening.coins, drawn, KIDLOTHE_MAX_OUTPUT_EXPONENT), "its first coins are the header's");
}

static void test_largest_count(void)
{
    static uint8_t bytes[4 + 4 * (KIDLOTHE_MAX_CIRCUIT_WORDS + 1)];
    static uint32_t read[KIDLOTHE_MAX_CIRCUIT_WORDS + 1];
    for (uint32_t more = 0; more < 2; more++) {
        uint32_t count = KIDLOTHE_MAX_CIRCUIT_WORDS + more;
        bytes[2] = (uint8_t)(count / 256);
        bytes[3] = (uint8_t)(count % 256);
        kidlothe_counts counts = kidlothe_read(bytes, 4 + 4 * (size_t)count, 1, read, count);
        expect(counts.refusal == (more ? KIDLOTHE_BYTES_UNFIT : KIDLOTHE_NONE), "the largest count that is read is the header's");
    }
}

int main(void)
{
    test_limits();
    test_largest_count();
    test_answers();
    test_several_outputs();
    test_refusals();
    test_null();
    test_opening();
    test_session();
    printf("calls: %d failures\n", failures);
    return failures == 0 ? 0 : 1;
}
