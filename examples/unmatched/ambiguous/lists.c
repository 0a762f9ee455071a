/* One of the two units of a program, as it runs now. Only a variable has the address of its function `before`. */

static int before(int one, int other)
{
    return one < other;
}

int (*order_of_lists)(int one, int other) = before;
