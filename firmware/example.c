/* A card's store is retired and a pair set up in it; then P starts an operation and stops, and B takes over. It prints what the bench prints
 * for examples/case-a.run; then what save, load and retire answer; and last what a refused event answers, and what it leaves. */
#include "shelundiyi.h"

/* From <stdio.h>, which the kit's compiler does not bring. */
int printf(const char *format, ...);

enum { PSTEP = 1, PEND = 4, FAIL = 7, DETECT = 8, BSTEP = 9, BEND = 10 };

static const unsigned char program[] = {1, 1, 0, 7, 17, 1, 2, 3, 8, 4, 5, 6, 7, 4, 0, 2, 7, 0, 0, 1};

static const unsigned char kinds[] = {PSTEP, PSTEP, FAIL, DETECT, BEND, BSTEP, BSTEP, BEND, BSTEP, BSTEP, BEND, BSTEP, BSTEP};

static unsigned char store[PAIR_BYTES];
static unsigned char copy[PAIR_BYTES + 4];

static unsigned number(const unsigned char *bytes, int count)
{
    unsigned n = 0;
    while (count-- > 0)
        n = n * 256 + bytes[count];
    return n;
}

/* One event without status, operation and word, with so much room for its entry. */
static unsigned step(unsigned char kind, unsigned char *entry, unsigned long room)
{
    unsigned char event[EVENT_BYTES] = {kind};
    return pair_step(program, sizeof program, store, sizeof store, event, sizeof event, entry, room);
}

static void play(void)
{
    unsigned taken = 0;
    unsigned answer = 0;
    while (taken < sizeof kinds && answer == 0) {
        unsigned char entry[ENTRY_BYTES];
        answer = step(kinds[taken], entry, sizeof entry);
        if (answer == 0) {
            taken = taken + 1;
            if (number(entry, 2) != 0)
                printf("%u %u %u\n", number(entry, 2), (unsigned)entry[2], number(entry + 4, 4));
        }
    }
    printf("end %u %u\n", answer, taken);
}

/* Whether the store is as it was when it was copied. */
static const char *left(void)
{
    for (unsigned i = 0; i < PAIR_BYTES; i++)
        if (store[i] != copy[i])
            return "store changed";
    return "store untouched";
}

static void save_load_retire(void)
{
    copy[PAIR_BYTES] = 99;
    printf("save %u\n", (unsigned)pair_save(store, sizeof store, copy, sizeof copy));
    printf("save short %u\n", (unsigned)pair_save(store, sizeof store, copy, PAIR_BYTES - 1));
    printf("kept %u\n", (unsigned)copy[PAIR_BYTES]);
    printf("load %u\n", (unsigned)pair_load(copy, PAIR_BYTES));
    printf("load long %u\n", (unsigned)pair_load(copy, sizeof copy));
    copy[PAIR_BYTES - 1] = 1; /* a slot of the inbox that is not in use */
    printf("load with a filled slot %u\n", (unsigned)pair_load(copy, PAIR_BYTES));
    printf("retire short %u\n", (unsigned)pair_retire(program, sizeof program, 2, copy, PAIR_BYTES - 1));
    printf("wiped %u, not lent %u\n", (unsigned)copy[0], (unsigned)copy[PAIR_BYTES - 1]);
}

/* On a fresh pair the first PSTEP shows nothing, and the second is a START, which shows an entry. */
static void refusals(void)
{
    unsigned char entry[ENTRY_BYTES];
    unsigned answer;
    if (pair_retire(program, sizeof program, 2, store, sizeof store) != PAIR_TAKEN)
        return;
    pair_save(store, sizeof store, copy, PAIR_BYTES);
    answer = step(PEND, entry, sizeof entry);
    printf("PEND out of turn %u, %s\n", answer, left());
    answer = step(PSTEP, entry, 0);
    printf("PSTEP that shows nothing, no room for an entry %u, %s\n", answer, left());
    pair_save(store, sizeof store, copy, PAIR_BYTES);
    answer = step(PSTEP, entry, ENTRY_BYTES - 1);
    printf("PSTEP that shows an entry, room for 7 bytes of it %u, %s\n", answer, left());
    answer = step(PSTEP, entry, ENTRY_BYTES);
    printf("the same with room %u, %s\n", answer, left());
    pair_retire(program, 0, 2, store, sizeof store); /* no program: 8, and the store is wiped */
    printf("malformed on a wiped store %u", step(0, entry, sizeof entry));
    printf(", well formed %u\n", step(FAIL, entry, sizeof entry));
}

int main(void)
{
    if (pair_retire(program, sizeof program, 2, store, sizeof store) != PAIR_TAKEN)
        return 1;
    play();
    save_load_retire();
    refusals();
    return 0;
}
