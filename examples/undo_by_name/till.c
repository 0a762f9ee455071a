/* A till: each thread sells a number of things, and adds up what they cost, each with its fee. */

unsigned cost(unsigned amount);
unsigned fee(unsigned amount);

unsigned sell(unsigned count)
{
    unsigned total = 0;
    for (unsigned amount = 1; amount <= count; amount++)
        total += cost(amount) + fee(amount);
    return total;
}
