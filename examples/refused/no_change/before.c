/* The mean of two readings, as it runs now. */

int mean(int left, int right)
{
    int sum = left + right;
    return sum / 2;
}
