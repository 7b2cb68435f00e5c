/* Rank 0 hands out tasks, and gives the next one to whoever answers first. */
#include "amounts.h"

enum { TASKS = 200, TASK = 1, STOP = 2 };

static void lead(int ranks)
{
  int next = 0, open = 0, result;
  MPI_Status status;
  for (int rank = 1; rank < ranks; rank++, next++, open++) {
    compute(1000);
    MPI_Send(&next, 1, MPI_INT, rank, TASK, MPI_COMM_WORLD);
  }
  for (; open > 0; open--) {
    MPI_Recv(&result, 1, MPI_INT, MPI_ANY_SOURCE, MPI_ANY_TAG, MPI_COMM_WORLD, &status);
    compute(1000);
    if (next < TASKS) {
      MPI_Send(&next, 1, MPI_INT, status.MPI_SOURCE, TASK, MPI_COMM_WORLD);
      next++;
      open++;
    } else {
      MPI_Send(&next, 1, MPI_INT, status.MPI_SOURCE, STOP, MPI_COMM_WORLD);
    }
  }
}

static void serve(void)
{
  int task;
  MPI_Status status;
  for (;;) {
    MPI_Recv(&task, 1, MPI_INT, 0, MPI_ANY_TAG, MPI_COMM_WORLD, &status);
    if (status.MPI_TAG == STOP)
      return;
    compute(50000);
    MPI_Send(&task, 1, MPI_INT, 0, TASK, MPI_COMM_WORLD);
  }
}

int main(int argc, char **argv)
{
  int rank, ranks;
  MPI_Init(&argc, &argv);
  MPI_Comm_rank(MPI_COMM_WORLD, &rank);
  MPI_Comm_size(MPI_COMM_WORLD, &ranks);
  amounts_begin(rank);
  if (rank == 0)
    lead(ranks);
  else
    serve();
  MPI_Finalize();
  return 0;
}
