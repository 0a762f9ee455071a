/* What a thing costs, and the fee on its sale. */

unsigned sold;

unsigned cost(unsigned amount)
{
    sold++;
    return amount * 3;
}

unsigned fee(unsigned amount)
{
    return sold > 4 ? 0 : amount & 1;
}
