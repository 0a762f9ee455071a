/* A count under a lock, as it runs now. On one processor a lock has nothing to hold. */

struct lock {
};

void take(struct lock *lock);
void leave(struct lock *lock);

static struct lock of_count;
static int count;

int next(void)
{
    take(&of_count);
    int now = ++count;
    leave(&of_count);
    return now;
}
