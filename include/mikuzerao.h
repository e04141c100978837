/* What the turbine's host calls. The bytes are a table's; a null pointer with length 0 is no bytes. No call writes or keeps them.
   A refusal of mark and bound is MIKUZERAO_REFUSED and the number: the reader's 1 to 10, then 15 where the table has no such thread. */
#ifndef MIKUZERAO_H
#define MIKUZERAO_H

#include <stddef.h>
#include <stdint.h>

#ifdef __cplusplus
extern "C" {
#endif

#define MIKUZERAO_REFUSED 100000u
#define MIKUZERAO_NONE 255u

/* The reader's verdict: 0 where the bytes are a legal table, else the refusal, 1 to 10. */
uint32_t mikuzerao_verdict(const uint8_t *bytes, size_t length);

/* Whom a thread's leak mark protects: the first thread in table order that has a lower priority and may not learn of it, 0 to 31;
   MIKUZERAO_NONE where it is not marked; or a refusal. */
uint32_t mikuzerao_mark(const uint8_t *bytes, size_t length, uint32_t thread);

/* A thread's bound in steps, from its budget to its deadline: 0 where it has none, or a refusal. */
uint32_t mikuzerao_bound(const uint8_t *bytes, size_t length, uint32_t thread);

#ifdef __cplusplus
}
#endif

#endif
