/* A program as a user would write it, compiled against what make install put in place. */
#include <ultra.h>

#include <stdio.h>

int main(void)
{
    uint8_t buf[512];
    uint64_t answer = ultra_begin(buf, sizeof buf);

    if (ultra_number(answer) != ULTRA_OK || ultra_value(answer) != ULTRA_HEAD_SIZE)
        return 1;
    answer = ultra_read(buf, sizeof buf);
    printf("installed: number %u, value %u\n", (unsigned)ultra_number(answer), (unsigned)ultra_value(answer));
    return ultra_number(answer) == ULTRA_MISSING ? 0 : 1;
}
