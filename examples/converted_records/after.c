/* The orders of a shop: how many pieces each is of, and what is paid for one. */

struct order {
    unsigned pieces;
    unsigned price;
};

struct order orders[8];
unsigned count;

void place_order(unsigned pieces, unsigned price)
{
    orders[count].pieces = pieces;
    orders[count].price = price;
    count++;
}

unsigned income(void)
{
    unsigned sum = 0;
    for (unsigned n = 0; n < count; n++)
        sum += orders[n].pieces * orders[n].price;
    return sum;
}

/* Runs at the update: in the orders that are there, what is paid for all pieces becomes what is paid for one. An order
   of no pieces keeps its 0. */
static void convert(unsigned argument)
{
    for (unsigned n = 0; n < count; n++)
        if (orders[n].pieces != 0)
            orders[n].price /= orders[n].pieces;
}

__attribute__((section(".ksplice_apply"), used)) static void (*const at_the_update[])(unsigned) = { convert };
