/* Two functions, as they run now, compiled without -ffunction-sections. */

int twice(int n)
{
    return 2 * n;
}

int half(int n)
{
    return n / 2;
}
