/* The other unit, with a function `before` that has the same instructions. */

static int before(int one, int other)
{
    return one < other;
}

int (*order_of_trees)(int one, int other) = before;
