/* The scores of a game: one of the two units of a program, as it runs now. */

void report(unsigned score);

static unsigned best;

__attribute__((noinline)) static unsigned limited(unsigned score)
{
    return score > 1000 ? 1000 : score;
}

void add_score(unsigned score)
{
    score = limited(score);
    if (score > best) {
        best = score;
        report(score);
    }
}

unsigned best_score(void)
{
    return best;
}
