/* Takes the root of every sample from 0 to 10000 both ways and checks each by the rule of document 02: the greatest
   whole number whose square isn't above 10000 times its place. callgrind counts what the two functions execute. */
#include <stdint.h>
#include <stdio.h>

uint16_t table_root(uint16_t sample);
uint16_t computed_root(uint16_t sample);

static int is_root(uint32_t sample, uint32_t root)
{
    return root * root <= 10000 * sample && 10000 * sample < (root + 1) * (root + 1);
}

int main(void)
{
    int wrong = 0;
    for (uint32_t sample = 0; sample <= 10000; sample++)
        wrong += !is_root(sample, table_root(sample)) + !is_root(sample, computed_root(sample));
    printf("%d of 20002 roots are wrong\n", wrong);
    return wrong != 0;
}
