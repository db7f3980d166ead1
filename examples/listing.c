/* Prints the listing of a letter and a stored profile, both from standard input, as fitlist does. */
#include <inttypes.h>
#include <stdio.h>

#include "fit_listing.h"

static uint8_t input[65536];
static uint8_t output[65536];

int main(void)
{
    size_t length = fread(input, 1, sizeof input, stdin);
    if (ferror(stdin))
        return 1;
    struct fit_answer answer = fit_listing(input, length, output, sizeof output);
    if (answer.number != 0)
        printf("refused %" PRIu32 " %" PRIu64 "\n", answer.number, answer.place);
    else
        fwrite(output, 1, answer.written, stdout);
    return fflush(stdout) == 0 ? 0 : 1;
}
