/* The monitor for paired controller cards, over lent bytes. Link it with libfirmware.a, which firmware/build makes: an archive for x86-64,
 * where a length (unsigned long) has 64 bits. All of it is proved: crates/firmware/specs says what each function answers and leaves.
 *
 * A pair lives in its owner's store as its image of PAIR_BYTES bytes. Every function takes any bytes and keeps to the lengths that it is
 * given; it keeps no memory of its own, and what is lent is only used during the call. A pointer may not be null, even for a length of 0,
 * and no two lent parts of a call may overlap. */
#ifndef SHELUNDIYI_H
#define SHELUNDIYI_H

#ifdef __cplusplus
extern "C" {
#endif

#define PAIR_BYTES 3444
#define EVENT_BYTES 8
#define ENTRY_BYTES 8

/* What comes back: 0, or why it was refused, and what to do about it. Whatever is refused leaves every lent byte as it was; only
 * pair_retire zeroes its store all the same. */
enum {
    PAIR_TAKEN = 0,             /* done */
    PAIR_MALFORMED = 1,         /* the event is not 8 bytes, or not one of the eleven kinds in its form: mend whatever made it */
    PAIR_DEAD = 2,              /* the first card has stopped for good: nothing more for it; go on with DETECT and the second card */
    PAIR_OUT_OF_TURN = 3,       /* not at this point: the epoch is complete, or is not yet, or B has not entered one: another event is due */
    PAIR_MUST_WAIT = 4,         /* what it needs has not come, or is still on its way: see to LINK, ACK or DETECT, and then again */
    PAIR_UNKNOWN_OPERATION = 5, /* no such operation is outstanding, or its interrupt came before: drop the interrupt */
    PAIR_INBOX_FULL = 6,        /* the second card has yet to read: BSTEP until its epoch is complete, then BEND, and LINK again */
    PAIR_EPOCHS_USED_UP = 7,    /* epoch 65,535 is the last: the pair has come to its end; retire it and set up a fresh one */
    PAIR_BAD_PROGRAM = 8,       /* the program or L is bad, or the program is not as long as the pair's: lend the one it was set up with */
    PAIR_TOO_SHORT = 9,         /* a lent buffer is too short for what is to be stored there: lend a longer one, and call again */
    PAIR_BAD_FILE = 10,         /* not PAIR_BYTES bytes, so no image of a pair: lend exactly those */
    PAIR_UNSOUND = 11           /* bytes that no pair has: the store was damaged or was never set up; retire it, or load a saved image */
};

/* One event (EVENT_BYTES bytes: kind, status, operation 2, word 4) on the pair in the store. It is refused, in this order: 1 for the event; 10
 * for a store that is not PAIR_BYTES long; 11 for a store that holds no sound pair; 8 for a program that is not as long as the pair's; 2 to 7,
 * as the event's kind has it; 8 for the instruction that is to run; and last 9, where an entry is to be stored and entry_length is below
 * ENTRY_BYTES. Refused, neither store nor entry is touched: after a 9 the same event may be given again with room.
 *
 * Taken, the store holds the next pair, and the entry what the devices are shown: operation 2 bytes, device 1, zero 1, word 4. Its operation is
 * never 0. Where nothing is shown the 8 bytes are 0; the entry may then be shorter than ENTRY_BYTES, even of length 0, and as many bytes
 * as it has become 0. Only PSTEP and BSTEP ever show something. Bytes of the entry behind the first 8 stay as they were. */
unsigned char pair_step(const unsigned char *program, unsigned long program_length, unsigned char *store, unsigned long store_length,
                        const unsigned char *event, unsigned long event_length, unsigned char *entry, unsigned long entry_length);

/* Saves the pair in the store into a buffer: 10 or 11 for the store, then 9. A refused save writes nothing; a longer buffer keeps its rest. */
unsigned char pair_save(const unsigned char *store, unsigned long store_length, unsigned char *buffer, unsigned long buffer_length);

/* Whether these bytes are an image that the monitor takes: 0, else 10 (length) or 11 (unsound). Taken, they are a store as they stand. */
unsigned char pair_load(const unsigned char *image, unsigned long image_length);

/* Retires a store under a program and L: 8 for a bad program or L, then 9 for a store below PAIR_BYTES; on both every byte of the store
 * becomes 0. Else the store holds a fresh pair, and zeros behind it. Nothing of what stood there before is left, whatever the answer. */
unsigned char pair_retire(const unsigned char *program, unsigned long program_length, unsigned short l, unsigned char *store,
                          unsigned long store_length);

#ifdef __cplusplus
}
#endif

#endif
