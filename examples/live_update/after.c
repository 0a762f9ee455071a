/* A till: each thread sells a number of things, and adds up what they cost. */

static unsigned sold;

__attribute__((noinline)) unsigned cost(unsigned amount)
{
    return amount * 5;
}

unsigned sell(unsigned count)
{
    unsigned total = 0;
    for (unsigned amount = 1; amount <= count; amount++) {
        total += cost(amount);
        __atomic_fetch_add(&sold, 1, __ATOMIC_RELAXED);
    }
    return total;
}
