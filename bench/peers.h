/* Other libraries that factor the same matrices, where they are installed: LAPACK's dpotrf, of doubles, and Arb's arb_mat_cho, of balls, at 64 bits. */
#ifndef PEERS_H
#define PEERS_H

#include "problems.h"

/* Turns the thin problems of a kind into the peers' matrices, which are those of the calls that follow. */
void take_kind(enum kind kind);

/* Whether each is there */
extern const int has_lapack, has_arb;

/* 0 where the factoring ends, else -1. dpotrf works in place: copying the matrix is in it. */
int64_t lapack_cholesky(int64_t n, const struct problem *problem);
int64_t arb_cholesky(int64_t n, const struct problem *problem);

#endif
