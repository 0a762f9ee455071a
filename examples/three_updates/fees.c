/* A till: each thread sells a number of things, and adds up what they cost, each with a fee. */

static unsigned sold;

__attribute__((noinline)) unsigned cost(unsigned amount)
{
    return amount * 5;
}

__attribute__((noinline)) unsigned fee(unsigned amount)
{
    return amount & 3;
}

unsigned sell(unsigned count)
{
    unsigned total = 0;
    for (unsigned amount = 1; amount <= count; amount++) {
        total += cost(amount) + fee(amount);
        __atomic_fetch_add(&sold, 1, __ATOMIC_RELAXED);
    }
    return total;
}
