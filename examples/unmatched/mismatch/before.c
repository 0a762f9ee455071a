/* The source of the program that runs, compiled with another flag. */

#include "../../leaf/before.c"
