/* Readings over a limit that a user may set, after a change of the value at the start. */

int limit = 20;

void set_limit(int value)
{
    limit = value;
}

int is_over(int reading)
{
    return reading > limit;
}
