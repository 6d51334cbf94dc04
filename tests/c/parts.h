// The parts of the test. Each ends the program at its first failure.
#ifndef PARTS_H
#define PARTS_H

// In the order in which they run.
#define PARTS(P) \
    /* which refusal comes first where several conditions hold: every set of them, for each function */ \
    P(orders) \
    /* all 256 scheme marks; IDs, keys and credentials of wrong lengths */ \
    P(fixed) \
    /* the test's own AES and DES against published vectors, and DES against the library's registration packages */ \
    P(blocks) \
    /* derivations: the document's examples of each number, marks, lengths and limits */ \
    P(derivations) \
    /* searches of key lists: each place, each node, what stands behind the entry that is met */ \
    P(searches) \
    /* challenges and AES session keys: marks, lengths, rooms, bytes; 1B and 2B with a bit changed */ \
    P(challenges) \
    /* the stored answers of the original Rust: no operation may lack a case */ \
    P(stored) \
    /* buffers of more than 4 GiB */ \
    P(huge) \
    /* forecasts against sizes as sealed */ \
    P(forecasts) \
    /* the padding that sealing tells: of payloads of every length up to 300, in each call; and of no other call */ \
    P(paddings) \
    /* the trimmed opening of each last byte, with each run of it */ \
    P(trims) \
    /* what was sealed opens as what it was */ \
    P(trips) \
    /* both ends of an authentication, from derivation to a sealed command and its response */ \
    P(agreements) \
    /* sealed data with a bit changed, cut, or drawn out */ \
    P(damages) \
    /* payloads, data and packages of every length up to 300, and around the limits: sizes and refusals */ \
    P(lengths) \
    /* derivations with every combination of what can be wrong, and generated ones */ \
    P(crossings) \
    /* sessions: bytes that are none; making, stepping, sealing, opening, telling; orders of refusals; the count up to its end */ \
    P(sessions) \
    /* sessions with a ceiling: makings, each ceiling with the numbers around it, settings and responses past it, how many commands it allows */ \
    P(ceilings) \
    /* random calls with a session, right and wrong responses; two ends with a session each */ \
    P(histories) \
    /* each function was called with each of its numbers */ \
    P(all_called)

#define PART(name) void name(void);
PARTS(PART)
#undef PART

// The files of stored answers, and how many cases were in them.
void stored_files(int count, char **paths);
unsigned long stored_cases(void);

// All of the parts, and a line that counts what was done. Answers 0.
int all_parts(int files, char **paths);

#endif
