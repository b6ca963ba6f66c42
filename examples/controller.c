/* A controller looks a plan up, checks it, and prints the first lines of its table. */
#include "yifrandel.h"

#include <stdio.h>
#include <stdlib.h>

static uint32_t four_bytes(const uint8_t *b) {
    return (uint32_t)b[0] | (uint32_t)b[1] << 8 | (uint32_t)b[2] << 16 | (uint32_t)b[3] << 24;
}

static int64_t eight_bytes(const uint8_t *b) {
    return (int64_t)((uint64_t)four_bytes(b) | (uint64_t)four_bytes(b + 4) << 32);
}

/* a number of tenths with one decimal, or a dash where it is absent */
static void print_tenths(const char *name, const uint8_t *b) {
    if (b[0] == 0) {
        printf("  %s -", name);
        return;
    }
    long long tenths = (long long)eight_bytes(b + 1);
    printf("  %s %s%lld.%lld", name, tenths < 0 ? "-" : "", llabs(tenths) / 10, llabs(tenths) % 10);
}

int main(void) {
    uint8_t plan[YIFRANDEL_PLAN_BYTES];
    uint32_t answer = yifrandel_lookup(100, 800, plan, sizeof plan);
    if (answer != 0) {
        printf("lookup refused: %u\n", answer);
        return 1;
    }
    int32_t g = (int32_t)four_bytes(plan), h_a = (int32_t)four_bytes(plan + 4);
    int32_t h_r = (int32_t)four_bytes(plan + 8), n_t = (int32_t)four_bytes(plan + 12);
    printf("Q_PR 0.100 %%, Q_CR 0.800 %%: g %d, h_A %d, h_R %d thousandths, n_t %d\n", g, h_a, h_r, n_t);

    /* standard deviation 12.00, lower limit 5900 */
    printf("plan check: %u\n", yifrandel_plan_check(YIFRANDEL_LOWER, g, h_a, h_r, n_t, 1200, 5900));
    const uint32_t numbers[] = {1, 2, 3, 28, 29, 30};
    for (size_t i = 0; i < sizeof numbers / sizeof numbers[0]; i++) {
        uint8_t line[YIFRANDEL_LINE_BYTES];
        answer = yifrandel_table_line(YIFRANDEL_LOWER, g, h_a, h_r, n_t, 1200, 5900, numbers[i], line, sizeof line);
        printf("line %u: %u", numbers[i], answer);
        if (answer == 0) {
            print_tenths("A", line);
            print_tenths("R", line + 9);
        }
        printf("\n");
    }

    /* what is turned down, and leaves its output alone */
    uint8_t kept[3] = {7, 7, 7};
    printf("not listed: %u\n", yifrandel_lookup(101, 800, plan, sizeof plan));
    printf("too short: %u", yifrandel_lookup(100, 800, kept, sizeof kept));
    printf(", kept %u %u %u\n", kept[0], kept[1], kept[2]);
    printf("no such side: %u\n", yifrandel_plan_check(3, g, h_a, h_r, n_t, 1200, 5900));
    printf("no deviation: %u\n", yifrandel_plan_check(YIFRANDEL_UPPER, g, h_a, h_r, n_t, 0, 5900));
    printf("loupe plan: %u\n", yifrandel_plan_check(YIFRANDEL_LOUPE, 957, 17500, 22470, 98, 0, 0));
    for (uint32_t n = 18; n <= 19; n++) {
        uint8_t loupe[YIFRANDEL_LINE_BYTES];
        answer = yifrandel_table_line(YIFRANDEL_LOUPE, 957, 17500, 22470, 98, 0, 0, n, loupe, sizeof loupe);
        if (answer != 0) {
            printf("loupe line %u refused: %u\n", n, answer);
            return 1;
        }
        printf("loupe line %u: a present %u, a %lld, r present %u, r %lld\n", n, loupe[0],
               (long long)eight_bytes(loupe + 1), loupe[9], (long long)eight_bytes(loupe + 10));
    }
    return 0;
}
