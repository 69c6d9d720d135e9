/* The quotient of a square program, from the bytes of a constraint file (.r1cs) and of an assignment file (.wtns). */
#ifndef SAPSHEET_H
#define SAPSHEET_H

#include <stddef.h>
#include <stdint.h>

#ifdef __cplusplus
extern "C" {
#endif

/* The files are over the prime 97 or 12289 and may be of any length and hold any bytes.
 *
 * Answers 0 where every row holds, and then the first 8 (n - 1) bytes of `answer` are the n - 1 coefficients of the quotient, lowest first,
 * each a number below the prime in 8 bytes with the least byte first. Here k is the least power of two that is at least twice the number
 * of public wires, the constant one among them, and n the least that is at least k plus twice the number of rows; n is at most 2048.
 * Bytes behind the coefficients are not changed.
 *
 * Answers the number of a refusal otherwise, and then no byte of `answer` is changed. The first check that fails is the answer:
 *
 *   the constraint file       8  is not laid out as it should be
 *                             9  is over another prime
 *                            10  has a wire or a coefficient that is not below its bound
 *                             1  has more than 2048 wires, 256 public wires or 512 rows
 *                             2  needs a subgroup of the order n that the field has not
 *                             4  has more than 2048 items
 *   the assignment file       8  is not laid out as it should be
 *                             9  is over another prime than the constraint file
 *                            11  has not one value for each wire
 *                            10  does not begin with the value 1, or has a value that is not below the prime
 *   the buffer               13  has fewer than 8 (n - 1) bytes
 *   the rows                  7  do not all hold, so that there is no quotient
 *
 * Each pointer is to as many bytes as its length says, and `answer` overlaps neither file. The call takes about 100 KB of stack and
 * nothing from the heap, keeps no state, and needs nothing but the C library. */
uint32_t sapsheet_quotient(const uint8_t *circuit, size_t circuit_len,
                           const uint8_t *witness, size_t witness_len,
                           uint8_t *answer, size_t answer_len);

#ifdef __cplusplus
}
#endif

#endif
