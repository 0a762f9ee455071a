/* The mean of two readings, written in another way: the compiler makes the same instructions of it. */

int mean(int first, int second)
{
    return (first + second) / 2;
}
