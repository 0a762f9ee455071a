/* A small unit of functions that call no other, after a change: sizes are rounded up to 16 bytes, and parity is new. */

unsigned clamp(unsigned value, unsigned low, unsigned high)
{
    if (value < low)
        return low;
    return value > high ? high : value;
}

unsigned count_bits(unsigned word)
{
    unsigned count = 0;
    while (word) {
        count += word & 1;
        word >>= 1;
    }
    return count;
}

unsigned rounded_up(unsigned size)
{
    return (size + 15) & ~15u;
}

unsigned parity(unsigned word)
{
    word ^= word >> 16;
    word ^= word >> 8;
    word ^= word >> 4;
    return 0x6996 >> (word & 15) & 1;
}
