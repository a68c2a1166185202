/* A function that cc65 compiles, and that a source of bin65 calls. */
#include <stdlib.h>
#include <string.h>

static char line[32];

/* Returns a line of text: a number and its square. */
char* __fastcall__ report (unsigned char number)
{
    char digits[6];

    strcpy (line, "the square of ");
    strcat (line, itoa (number, digits, 10));
    strcat (line, " is ");
    return strcat (line, utoa ((unsigned) number * number, digits, 10));
}
