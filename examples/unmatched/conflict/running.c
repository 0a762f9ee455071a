/* As it runs: what is read and what is written is counted apart. */

unsigned reads, writes;

void count_read(void)
{
    reads++;
}

void count_write(void)
{
    writes++;
}
