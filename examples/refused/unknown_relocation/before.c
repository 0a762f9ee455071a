/* A count, as it runs now, compiled as position-independent code (-fpie). */

int count;

int next(void)
{
    return ++count;
}
