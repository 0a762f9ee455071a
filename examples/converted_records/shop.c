/* A shop: the first orders of a day are placed, and their income is summed up. */

void place_order(unsigned pieces, unsigned price);
unsigned income(void);

static const struct {
    unsigned char pieces;
    unsigned char price;
} wanted[] = { { 3, 5 }, { 2, 7 }, { 0, 9 }, { 4, 6 }, { 1, 8 }, { 5, 2 } };

unsigned day(unsigned number)
{
    for (unsigned n = 0; n < number; n++)
        place_order(wanted[n].pieces, wanted[n].price);
    return income();
}
