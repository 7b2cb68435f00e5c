/* A token goes round the ranks, and each works before it passes it on. */
#include "amounts.h"

enum { ROUNDS = 40, WORDS = 100 };

int main(int argc, char **argv)
{
  int rank, ranks, token[WORDS] = {0};
  MPI_Init(&argc, &argv);
  MPI_Comm_rank(MPI_COMM_WORLD, &rank);
  MPI_Comm_size(MPI_COMM_WORLD, &ranks);
  amounts_begin(rank);
  for (int round = 0; round < ROUNDS; round++) {
    compute(20000);
    if (rank > 0 || round > 0)
      MPI_Recv(token, WORDS, MPI_INT, (rank + ranks - 1) % ranks, round - (rank == 0), MPI_COMM_WORLD,
               MPI_STATUS_IGNORE);
    token[0]++;
    compute(5000);
    if (rank < ranks - 1 || round < ROUNDS - 1)
      MPI_Send(token, WORDS, MPI_INT, (rank + 1) % ranks, round, MPI_COMM_WORLD);
  }
  MPI_Finalize();
  return 0;
}
