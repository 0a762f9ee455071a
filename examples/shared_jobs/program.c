/* Threads that work through a list of jobs, and count together how many are done. */

static const int jobs[4] = {3, 1, 4, 2};
static int done;

__attribute__((noinline)) static int squared(int n)
{
    return n * n;
}

int work(int count)
{
    int sum = 0;
    for (int i = 0; i < count; i++) {
        sum += squared(jobs[i & 3]);
        __atomic_fetch_add(&done, 1, __ATOMIC_RELAXED);
    }
    return sum;
}

/* Code can't be written: a thread that tries stops. */
void spoil(int count)
{
    *(volatile int *)work = count;
}
