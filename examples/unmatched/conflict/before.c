/* Another source than that of the program that runs: one variable counts both. */

unsigned accesses;

void count_read(void)
{
    accesses++;
}

void count_write(void)
{
    accesses++;
}
