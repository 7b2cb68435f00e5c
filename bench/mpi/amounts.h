/* Amounts of computation that are the same in every run: a rank tells SMPI how many operations it would do, in
   place of doing them. So a run on another network differs by its network alone. */
#include <mpi.h>
#include <smpi/smpi.h>

static unsigned long long amounts_state;

/* A different sequence for each rank. */
static void amounts_begin(int rank)
{
  amounts_state = 88172645463325252ULL + 2654435761ULL * (unsigned long long)(rank + 1);
}

/* Computes for least to twice as many operations; at 1 Gflop/s an operation takes 1 ns. */
static void compute(int least)
{
  amounts_state ^= amounts_state << 13;
  amounts_state ^= amounts_state >> 7;
  amounts_state ^= amounts_state << 17;
  smpi_execute_flops((double)(least + (int)(amounts_state % (unsigned long long)least)));
}
