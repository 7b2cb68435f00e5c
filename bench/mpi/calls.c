/* Each kind of call whose links SMPI writes twice or under another number: two ranks exchange by all of them. */
#include "amounts.h"

enum { ROUNDS = 20, WORDS = 16 };

static int out[WORDS], in[2 * WORDS];

static void exchange_by_wait(int other)
{
  MPI_Request requests[2];
  MPI_Irecv(in, WORDS, MPI_INT, other, MPI_ANY_TAG, MPI_COMM_WORLD, &requests[0]);
  MPI_Isend(out, WORDS, MPI_INT, other, 1, MPI_COMM_WORLD, &requests[1]);
  compute(2000);
  MPI_Wait(&requests[0], MPI_STATUS_IGNORE);
  compute(300);
  MPI_Wait(&requests[1], MPI_STATUS_IGNORE);
}

static void exchange_by_wait_for_all(int other)
{
  MPI_Request requests[3];
  MPI_Irecv(in, WORDS, MPI_INT, MPI_ANY_SOURCE, 2, MPI_COMM_WORLD, &requests[0]);
  MPI_Isend(out, WORDS, MPI_INT, other, 2, MPI_COMM_WORLD, &requests[1]);
  MPI_Ibarrier(MPI_COMM_WORLD, &requests[2]);
  compute(2000);
  MPI_Waitall(3, requests, MPI_STATUSES_IGNORE);
}

static void exchange_by_wait_for_any(int other)
{
  MPI_Request requests[2];
  int index;
  MPI_Irecv(in, WORDS, MPI_INT, other, 3, MPI_COMM_WORLD, &requests[0]);
  MPI_Irecv(in + WORDS, WORDS, MPI_INT, other, 4, MPI_COMM_WORLD, &requests[1]);
  MPI_Send(out, WORDS, MPI_INT, other, 3, MPI_COMM_WORLD);
  compute(1000);
  MPI_Send(out, WORDS, MPI_INT, other, 4, MPI_COMM_WORLD);
  do {
    MPI_Waitany(2, requests, &index, MPI_STATUS_IGNORE);
    compute(500);
  } while (index != MPI_UNDEFINED);
}

static void exchange_at_once(int rank, int other)
{
  MPI_Sendrecv(out, WORDS, MPI_INT, other, 5, in, WORDS, MPI_INT, other, 5, MPI_COMM_WORLD, MPI_STATUS_IGNORE);
  compute(700);
  MPI_Sendrecv(out, WORDS, MPI_INT, rank, 6, in, WORDS, MPI_INT, rank, 6, MPI_COMM_WORLD, MPI_STATUS_IGNORE);
}

int main(int argc, char **argv)
{
  int rank;
  MPI_Init(&argc, &argv);
  MPI_Comm_rank(MPI_COMM_WORLD, &rank);
  amounts_begin(rank);
  for (int round = 0; round < ROUNDS; round++) {
    exchange_by_wait(1 - rank);
    exchange_by_wait_for_all(1 - rank);
    exchange_by_wait_for_any(1 - rank);
    exchange_at_once(rank, 1 - rank);
  }
  MPI_Finalize();
  return 0;
}
