/* What a thing costs, and the fee on its sale. */

unsigned cost(unsigned amount)
{
    return amount * 3;
}

unsigned fee(unsigned amount)
{
    return amount & 1;
}
