/* Readings over a limit that a user may set, as it runs now. */

int limit = 10;

void set_limit(int value)
{
    limit = value;
}

int is_over(int reading)
{
    return reading > limit;
}
