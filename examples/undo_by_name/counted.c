/* What a thing costs, and the fee on its sale. */

unsigned sold;

unsigned cost(unsigned amount)
{
    sold++;
    return amount * 3;
}

unsigned fee(unsigned amount)
{
    return amount & 1;
}
