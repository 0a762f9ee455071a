/* The orders of a shop: how many pieces each is of, and what is paid for all of them. */

struct order {
    unsigned pieces;
    unsigned paid;
};

struct order orders[8];
unsigned count;

void place_order(unsigned pieces, unsigned price)
{
    orders[count].pieces = pieces;
    orders[count].paid = pieces * price;
    count++;
}

unsigned income(void)
{
    unsigned sum = 0;
    for (unsigned n = 0; n < count; n++)
        sum += orders[n].paid;
    return sum;
}
