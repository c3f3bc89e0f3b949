/* The works of crates/crl_calls_bench by one-sided communication of MPI: ranks in place of threads.
 *
 * usage: mpirun -n RANKS one_sided WORK SECTIONS
 *
 * A write section is an exclusive lock of the window at the region's home, a get of all its bytes, a put of all its
 * bytes, and the unlock. A read section is a shared lock, a get of all its bytes, and the unlock. So it is too where the
 * home is the rank itself. At the end rank 0 prints the work and the sum of the numbers, as the program does.
 * With words that are none of these it prints a usage line, with status 2.
 */

#include <mpi.h>
#include <stdint.h>
#include <stdio.h>
#include <stdlib.h>
#include <string.h>

struct work {
    const char *word;
    int size;   /* of a region, in bytes */
    int shared; /* all ranks use the region of rank 0 */
    int reads;  /* by read sections */
};

static const struct work WORKS[] = {
    {"own", 8, 0, 0},
    {"own64k", 65536, 0, 0},
    {"counter", 8, 1, 0},
    {"reads", 64, 1, 1},
};

static const struct work *work_of(const char *word)
{
    for (size_t i = 0; i < sizeof WORKS / sizeof WORKS[0]; i++)
        if (strcmp(word, WORKS[i].word) == 0)
            return &WORKS[i];
    return NULL;
}

/* The number in the region's first eight bytes. */
static uint64_t number_in(const unsigned char *bytes)
{
    uint64_t number;
    memcpy(&number, bytes, sizeof number);
    return number;
}

/* A write section that adds 1 to the number. */
static void raise_number(MPI_Win window, int home, unsigned char *bytes, int size)
{
    MPI_Win_lock(MPI_LOCK_EXCLUSIVE, home, 0, window);
    MPI_Get(bytes, size, MPI_BYTE, home, 0, size, MPI_BYTE, window);
    MPI_Win_flush(home, window);
    uint64_t raised = number_in(bytes) + 1;
    memcpy(bytes, &raised, sizeof raised);
    MPI_Put(bytes, size, MPI_BYTE, home, 0, size, MPI_BYTE, window);
    MPI_Win_unlock(home, window);
}

/* A read section that shows the number. */
static uint64_t read_number(MPI_Win window, int home, unsigned char *bytes, int size)
{
    MPI_Win_lock(MPI_LOCK_SHARED, home, 0, window);
    MPI_Get(bytes, size, MPI_BYTE, home, 0, size, MPI_BYTE, window);
    MPI_Win_unlock(home, window);
    return number_in(bytes);
}

/* The rank's sections between two barriers, and what they add to the sum of all. */
static uint64_t part(const struct work *work, MPI_Win window, int rank, long each)
{
    static unsigned char bytes[65536];
    int home = work->shared ? 0 : rank;
    uint64_t sum = 0;
    if (work->reads && rank == home)
        raise_number(window, home, bytes, work->size);
    MPI_Barrier(MPI_COMM_WORLD);
    for (long i = 0; i < each; i++)
        if (work->reads)
            sum += read_number(window, home, bytes, work->size);
        else
            raise_number(window, home, bytes, work->size);
    MPI_Barrier(MPI_COMM_WORLD);
    if (!work->reads && rank == home)
        sum = read_number(window, home, bytes, work->size);
    return sum;
}

static void run(const struct work *work, long sections)
{
    int rank, ranks;
    MPI_Comm_rank(MPI_COMM_WORLD, &rank);
    MPI_Comm_size(MPI_COMM_WORLD, &ranks);
    void *memory;
    MPI_Win window;
    MPI_Win_allocate(work->size, 1, MPI_INFO_NULL, MPI_COMM_WORLD, &memory, &window);
    MPI_Win_lock(MPI_LOCK_EXCLUSIVE, rank, 0, window);
    memset(memory, 0, (size_t)work->size);
    MPI_Win_unlock(rank, window);
    MPI_Barrier(MPI_COMM_WORLD);
    uint64_t own = part(work, window, rank, sections / ranks), sum = 0;
    MPI_Reduce(&own, &sum, 1, MPI_UINT64_T, MPI_SUM, 0, MPI_COMM_WORLD);
    MPI_Win_free(&window);
    if (rank == 0)
        printf("%s %llu\n", work->word, (unsigned long long)sum);
}

int main(int argc, char **argv)
{
    const struct work *work = argc == 3 ? work_of(argv[1]) : NULL;
    char *end = NULL;
    long sections = argc == 3 ? strtol(argv[2], &end, 10) : 0;
    if (!work || sections < 0 || *end) {
        puts("usage: mpirun -n RANKS one_sided own|own64k|counter|reads SECTIONS");
        return 2;
    }
    MPI_Init(&argc, &argv);
    run(work, sections);
    MPI_Finalize();
    return 0;
}
