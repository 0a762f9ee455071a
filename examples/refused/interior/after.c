/* Steps of a counter, after a change. A step jumps to the place that a table has for it; steps can be
 * switched off, so the table is a variable. */

int step(unsigned which, int count, int is_off)
{
    static void *places[] = {&&up, &&down, &&twice};

    if (is_off)
        places[which % 3] = &&stay;
    goto *places[which % 3];
up:
    return count + 2;
down:
    return count - 1;
twice:
    return count * 2;
stay:
    return count;
}
