/* What the C tests share: checks that are counted, and memory that is lent to a call. */
#ifndef CHECK_H
#define CHECK_H

#include <saltkernel.h>

/* Counts a check, and says where one failed. */
void check_at(int holds, const char *what, const char *file, int line);
#define CHECK(holds) check_at((holds) != 0, #holds, __FILE__, __LINE__)

/* How many checks held, and how many didn't. */
extern unsigned long checks_passed, checks_failed;

/* Memory lent to a call: exactly as many bytes as said, on the heap, so that valgrind sees a step outside; and a copy of what stood there. */
typedef struct Lent {
    void *at;
    void *was;
    size_t length;
    size_t width;
} Lent;

/* Lends `length` items of `width` bytes, filled with noise; and with zeros. */
Lent lend(size_t length, size_t width);
Lent lend_zeros(size_t length, size_t width);

/* Whether the items from one place on are as they were when lent. */
int unchanged_from(const Lent *lent, size_t from);

/* Frees what was lent. */
void give_back(Lent *lent);

/* A byte of noise, and a float of any bit pattern but a NaN's. */
uint8_t noise(void);
float noise_float(void);

/* Whether two floats have the same bits. */
int same_float(float a, float b);

/* The tests of a group. */
void test_packets(void);
void test_whitener(void);
void test_constellation(void);
void test_pilots(void);
void test_symbols(void);
void test_interleaver(void);
void test_codes(void);
void test_words(void);
void test_frames(void);
void test_session(void);
void test_desk(void);
void test_reports(void);
void test_lengths(void);

#endif
