/* Ranks in a row exchange their edges with both neighbours, work on the inside meanwhile, and then add up how much
   has changed. */
#include "amounts.h"

enum { STEPS = 50, EDGE = 500 };

int main(int argc, char **argv)
{
  int rank, ranks;
  static double mine[2 * EDGE], left[EDGE], right[EDGE];
  double change = 1, all;
  MPI_Init(&argc, &argv);
  MPI_Comm_rank(MPI_COMM_WORLD, &rank);
  MPI_Comm_size(MPI_COMM_WORLD, &ranks);
  amounts_begin(rank);
  for (int step = 0; step < STEPS; step++) {
    MPI_Request requests[4];
    int open = 0;
    if (rank > 0) {
      MPI_Irecv(left, EDGE, MPI_DOUBLE, rank - 1, 2, MPI_COMM_WORLD, &requests[open++]);
      MPI_Isend(mine, EDGE, MPI_DOUBLE, rank - 1, 1, MPI_COMM_WORLD, &requests[open++]);
    }
    if (rank < ranks - 1) {
      MPI_Irecv(right, EDGE, MPI_DOUBLE, rank + 1, 1, MPI_COMM_WORLD, &requests[open++]);
      MPI_Isend(mine + EDGE, EDGE, MPI_DOUBLE, rank + 1, 2, MPI_COMM_WORLD, &requests[open++]);
    }
    compute(30000);
    MPI_Waitall(open, requests, MPI_STATUSES_IGNORE);
    compute(4000);
    MPI_Allreduce(&change, &all, 1, MPI_DOUBLE, MPI_MAX, MPI_COMM_WORLD);
    compute(500);
  }
  MPI_Finalize();
  return 0;
}
