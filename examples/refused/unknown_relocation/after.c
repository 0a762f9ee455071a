/* A count, after a change, compiled as position-independent code (-fpie). */

int count;

int next(void)
{
    return count += 2;
}
