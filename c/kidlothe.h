/*
 * Kidlothe: the check of the argued outputs of a layered arithmetic circuit, and what belongs to it.
 *
 * Link with libkidlothe.a (target/staticlib/, written by `tools/build kidlothe`). The library needs nothing
 * else, allocates nothing, keeps no state between calls and may be called from any number of threads.
 *
 * WORDS AND LISTS. A word is a uint32_t. A list is a pointer to its first word and its length in words; a list of
 * no words may have any pointer, NULL too.
 *
 * CIRCUIT. The list p, D, k_0, k_1 to k_D, then three words for each gate (kind, left, right) of the layers 0 to D-1
 * in order. Layer i has 2^k_i gates; those of layer 0 give the outputs; layer D is the input, 2^k_D words. Kind 0 is an
 * empty gate: its value is 0 and its wires are 0 0. Kind 1 adds, kind 2 multiplies and kind 3 is left minus right,
 * modulo p. Left and right name gates of the next layer, from 0 on; left is at most right, but for kind 3.
 *
 * OUTPUTS. A list of 2^k_0 words, in the order of their gates. It is false if one of its words is, or if it has
 * another length.
 *
 * COINS AND MESSAGES. The first k_0 coins come before any message. They are a point, the first coin for the highest bit
 * of an output's index, and the first claim is the value there of the multilinear extension of the outputs. Then, for
 * each layer from 1 to D, with k its exponent, come 2k sum messages of three words, one for each coordinate of the
 * layer's two points u and v, u's first, and then one line message of k + 1 words. The words are coefficients, the
 * constant first. Each message has one coin. So a circuit has n coins, k_0 and the sum of 2 k_i + 1 for the layers from
 * 1 to D, and its messages the sum of 7 k_i + 1 words. A list of coins or of message words has them in this order.
 *
 * WHAT IS PROMISED. For every value of every argument, each function ends, reads nothing outside the lists,
 * writes nothing but what is said below, and answers as the specification's definition of the operation does:
 * that is proved of each function here, by the contract that stands at it in crates/kidlothe_c/src/lib.rt. No list
 * is wrong to give: a list that is not legal is refused by its number.
 *
 * REFUSALS. A refusal is a number from 1 to 21 (the table below); 0 is none. An operation that refuses leaves
 * every lent buffer as it was, and a session's words too, but for the end of a session that kidlothe_step tells
 * of. The other fields of its answer are then 0, all words of a list among them.
 *
 * WHAT THE CALLER SEES TO, since no proof can:
 *  - a pointer with a length above 0 points to that many words (bytes for kidlothe_read), aligned as their type,
 *    and a buffer may be written;
 *  - a session points to four words;
 *  - a buffer or a session overlaps no other argument, and nobody writes any argument while the call runs;
 *  - coins are drawn at random below p, anew for each list of outputs and after the prover has sent that list. It
 *    learns the first k_0 of them before its first message, and each other one only after it has sent the message that
 *    the coin belongs to. The bound on false outputs, at most k_0 + 5 (k_1 + ... + k_D) in p, is a statement about such
 *    coins, and no code can look at a coin and tell;
 *  - a session is kept and stored as is said at KIDLOTHE_SESSION_WORDS.
 */
#ifndef KIDLOTHE_H
#define KIDLOTHE_H

#include <stddef.h>
#include <stdint.h>

#ifdef __cplusplus
extern "C" {
#endif

/* The refusals. */
enum {
    KIDLOTHE_NONE = 0,
    KIDLOTHE_HEADER_SHORT = 1,    /* the circuit has fewer than 3 words */
    KIDLOTHE_PRIME_UNLISTED = 2,  /* p is not 13, 65537, 2147483647 or 4294967291 */
    KIDLOTHE_DEPTH_RANGE = 3,     /* D is not from 1 to KIDLOTHE_MAX_DEPTH */
    KIDLOTHE_EXPONENT_RANGE = 4,  /* the circuit ends before its exponents, k_0 is above KIDLOTHE_MAX_OUTPUT_EXPONENT,
                                   * or another is above KIDLOTHE_MAX_EXPONENT */
    KIDLOTHE_WORD_COUNT = 5,      /* the circuit has not as many words as its exponents call for */
    KIDLOTHE_GATE_KIND = 6,       /* a gate's kind is above 3 */
    KIDLOTHE_GATE_WIRES = 7,      /* a wire outside the next layer, out of order but for kind 3, or at an empty gate */
    KIDLOTHE_INPUT_COUNT = 8,     /* the input has not 2^k_D words */
    KIDLOTHE_INPUT_WORD = 9,      /* an input word is not below p */
    KIDLOTHE_BUFFER_SHORT = 10,   /* a lent buffer is too short */
    KIDLOTHE_COIN_COUNT = 11,     /* the number of coins is wrong */
    KIDLOTHE_COIN_WORD = 12,      /* a coin is not below p */
    KIDLOTHE_OUTPUT_WORD = 13,    /* an output is not below p */
    KIDLOTHE_MESSAGE_LENGTH = 14, /* a message, or all of them, has the wrong length */
    KIDLOTHE_MESSAGE_WORD = 15,   /* a message word is not below p */
    KIDLOTHE_ROUND_DIFFERS = 16,  /* a sum round does not add up to the standing claim */
    KIDLOTHE_LINE_DIFFERS = 17,   /* a line message does not give the standing claim */
    KIDLOTHE_INPUT_DIFFERS = 18,  /* the input does not give the last claim */
    KIDLOTHE_RECORD_UNFIT = 19,   /* the session has ended, or its words do not fit the circuit */
    KIDLOTHE_BYTES_UNFIT = 20,    /* the bytes are not the arrays that were called for */
    KIDLOTHE_OUTPUT_COUNT = 21    /* the output list has not 2^k_0 words */
};

/* The most layers of a circuit, the largest width exponent of a layer from 1 on and that of layer 0, k_0, and lengths
 * that are then enough for every circuit: its outputs, the words of its list, its gate and input values, its coins, the
 * words of all its messages and of one, the longest line. kidlothe_read takes no array of more words than the longest
 * list has. */
enum {
    KIDLOTHE_MAX_DEPTH = 12,
    KIDLOTHE_MAX_EXPONENT = 8,
    KIDLOTHE_MAX_OUTPUT_EXPONENT = 4,
    KIDLOTHE_MAX_OUTPUTS = 1 << KIDLOTHE_MAX_OUTPUT_EXPONENT,
    KIDLOTHE_MAX_CIRCUIT_WORDS =
        3 + KIDLOTHE_MAX_DEPTH + 3 * (KIDLOTHE_MAX_OUTPUTS + ((KIDLOTHE_MAX_DEPTH - 1) << KIDLOTHE_MAX_EXPONENT)),
    KIDLOTHE_MAX_VALUES = KIDLOTHE_MAX_OUTPUTS + (KIDLOTHE_MAX_DEPTH << KIDLOTHE_MAX_EXPONENT),
    KIDLOTHE_MAX_COINS = KIDLOTHE_MAX_OUTPUT_EXPONENT + KIDLOTHE_MAX_DEPTH * (2 * KIDLOTHE_MAX_EXPONENT + 1),
    KIDLOTHE_MAX_MESSAGE_WORDS = KIDLOTHE_MAX_DEPTH * (7 * KIDLOTHE_MAX_EXPONENT + 1),
    KIDLOTHE_MAX_ONE_MESSAGE = KIDLOTHE_MAX_EXPONENT + 1
};

/* A session's record: layer, round, claim, and 1 while it is open. Any other fourth word is an ended session's. It
 * has neither the outputs nor the lists nor the coins: keep these beside it, the same for every call, and release the
 * outputs that the session was opened with.
 *
 * STORING A SESSION. The words may be copied and stored by the verifier alone, and in this order: open or step, write
 * the new words away, an opening's outputs with them, then tell the answer with its coins. Never step from an older
 * copy once the answer to it is out: the prover could send another message for the same round, with the coin known, or
 * try again what was refused. Never open twice on the same coins: those handed out are known. The prover never holds or
 * chooses the words. The library cannot tell words that it gave from others: it refuses by 19 those that do not fit the
 * circuit and judges the message at the place that the others name, and a forged record at the last line can be made to
 * pass, whatever the outputs were. */
enum { KIDLOTHE_SESSION_WORDS = 4 };

/* A list of few words by value: the first count of these words, and the others are 0. */
typedef struct {
    size_t count;
    uint32_t words[KIDLOTHE_MAX_OUTPUTS];
} kidlothe_short_list;

typedef struct {
    uint32_t refusal;
    kidlothe_short_list outputs;
} kidlothe_evaluation;

typedef struct {
    uint32_t refusal;
    uint32_t first;
    uint32_t second;
    uint32_t third;
    uint32_t fourth;
} kidlothe_counts;

typedef struct {
    uint32_t refusal;
    kidlothe_short_list outputs;
    size_t words;
} kidlothe_proof;

typedef struct {
    uint32_t refusal;
    size_t words;
} kidlothe_written;

typedef struct {
    uint32_t refusal;
    kidlothe_short_list coins;
} kidlothe_opening;

typedef struct {
    uint32_t refusal;
    uint32_t accepted;
    uint32_t coin;
} kidlothe_step_answer;

/* Load: whether the list is a legal circuit. Answers 0, or the first of 1 to 7. */
uint32_t kidlothe_load(const uint32_t *circuit, size_t circuit_length);

/* Evaluate: answers the circuit's outputs on this input; the buffer then begins with the values of all gates,
 * layers 0 to D-1 in order, and the input words, and the rest of it is unchanged. Refuses by the first of 1 to 9
 * and 10. */
kidlothe_evaluation kidlothe_evaluate(
    const uint32_t *circuit, size_t circuit_length,
    const uint32_t *input, size_t input_length,
    uint32_t *buffer, size_t buffer_length);

/* Read: the given number, 1 to 4, of arrays of unsigned integers (RFC 4506) that the bytes are made of, with none
 * left over. Answers the count of each, 0 for arrays not called for; the buffer then begins with the words of all
 * arrays in order, and the rest of it is unchanged. Refuses by the first of 20 and 10. */
kidlothe_counts kidlothe_read(
    const uint8_t *bytes, size_t bytes_length,
    uint32_t number,
    uint32_t *buffer, size_t buffer_length);

/* Prove, whole: answers the outputs and how many words the honest messages for these coins have; the buffer then
 * begins with them, one message directly after another, and the rest of it is unchanged. kidlothe_check accepts
 * these outputs with these messages and coins, always. Refuses by the first of 1 to 9, 11, 12 and 10. */
kidlothe_proof kidlothe_prove(
    const uint32_t *circuit, size_t circuit_length,
    const uint32_t *input, size_t input_length,
    const uint32_t *coins, size_t coins_length,
    uint32_t *messages, size_t messages_length);

/* Prove, one message: the honest message that follows the coins handed out so far, the first k_0 among them. Answers
 * how many words it has; the buffer then begins with them, and the rest of it is unchanged. Refuses by the first of
 * 1 to 9, 11, 12 and 10: by 11 for fewer than k_0 coins, and for all n of them or more, which no message follows. */
kidlothe_written kidlothe_prove_one(
    const uint32_t *circuit, size_t circuit_length,
    const uint32_t *input, size_t input_length,
    const uint32_t *prefix, size_t prefix_length,
    uint32_t *buffer, size_t buffer_length);

/* Check, whole: 0 where the outputs are accepted, that is where nothing is refused: the lists are legal and have the
 * lengths called for, the outputs and all message words are below p, and every comparison of the walk holds. Refuses by
 * the first of 1 to 9, 21, 13, 11, 12, 14, and then by the first message that earns one of 15 to 17, or by 18. */
uint32_t kidlothe_check(
    const uint32_t *circuit, size_t circuit_length,
    const uint32_t *input, size_t input_length,
    const uint32_t *outputs, size_t outputs_length,
    const uint32_t *coins, size_t coins_length,
    const uint32_t *messages, size_t messages_length);

/* Open session: answers the first k_0 coins, which may now be told to the prover; the session's words are then those of
 * a session that waits for its first message. Refuses by the first of 1 to 9, 21, 13, 11 and 12. */
kidlothe_opening kidlothe_open(
    const uint32_t *circuit, size_t circuit_length,
    const uint32_t *input, size_t input_length,
    const uint32_t *outputs, size_t outputs_length,
    const uint32_t *coins, size_t coins_length,
    uint32_t session[KIDLOTHE_SESSION_WORDS]);

/* Step: judges the next message. accepted is 1 where it was the last and the outputs are accepted. Where neither
 * refusal nor accepted is set, the session goes on, and coin is the coin of this message, which may now be told to
 * the prover; the last coin is never handed out. Refuses by the first of 1 to 9, 11, 12, 19, 14, 15, 16 or 17, and
 * 18. An acceptance and the refusals 14 to 18 end the session: its fourth word becomes 0 and the others stay. The
 * other refusals leave all four words. From an opening that is not refused, with the same lists at every call: a
 * session on the messages of a transcript of exact length ends as kidlothe_check does, and no answer before the last
 * depends on a coin that is not handed out yet, except the coin it gives. */
kidlothe_step_answer kidlothe_step(
    const uint32_t *circuit, size_t circuit_length,
    const uint32_t *input, size_t input_length,
    const uint32_t *coins, size_t coins_length,
    uint32_t session[KIDLOTHE_SESSION_WORDS],
    const uint32_t *message, size_t message_length);

#ifdef __cplusplus
}
#endif

#endif
