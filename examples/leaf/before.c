/* A small unit of functions that call no other, as it runs now. */

unsigned clamp(unsigned value, unsigned low, unsigned high)
{
    if (value < low)
        return low;
    return value > high ? high : value;
}

unsigned count_bits(unsigned word)
{
    unsigned count = 0;
    while (word) {
        count += word & 1;
        word >>= 1;
    }
    return count;
}

unsigned rounded_up(unsigned size)
{
    return (size + 7) & ~7u;
}
