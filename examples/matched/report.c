/* The other unit. Its function `limited` has the same instructions as the first one's. */

unsigned reported;

__attribute__((noinline)) static unsigned limited(unsigned score)
{
    return score > 1000 ? 1000 : score;
}

void report(unsigned score)
{
    reported = limited(score + 1) - 1;
}
