/* Two functions, after a change, compiled without -ffunction-sections. */

int twice(int n)
{
    return n + n + 1;
}

int half(int n)
{
    return n / 2;
}
