/*
 * A message written, read back and refused: what a driver does with every
 * message it sends or receives.
 * Assumes nothing but the public header; link it with libnhuoseng.a alone.
 */
#include "nhuoseng.h"

#include <inttypes.h>
#include <stdio.h>

/* Member 0 answers start change 4 in view 7, whose members are 0 and 2. */
static const uint64_t sync[NH_FIELDS] = {
    [NH_KIND] = NH_SYNC,
    [NH_NUMBER] = 4,
    [NH_VIEW_ID] = 7,
    [NH_VIEW_SET] = 1 << 0 | 1 << 2,
    [NH_STARTS + 0] = 3, /* the start numbers with which they entered the view */
    [NH_STARTS + 2] = 9,
    [NH_CUT + 0] = 12, /* words 1 to 12 of member 0 are held, and word 1 of member 2 */
    [NH_CUT + 2] = 1
};

static void print_bytes(const uint8_t *bytes, size_t length)
{
    for (size_t i = 0; i < length; i++)
        printf("%02x%s", bytes[i], i % 16 == 15 || i + 1 == length ? "\n" : " ");
}

static void print_sync(const uint64_t *m)
{
    printf("a sync of start number %" PRIu64 " in view %" PRIu64 "\n", m[NH_NUMBER], m[NH_VIEW_ID]);
    for (int n = 0; n < 8; n++)
        if (m[NH_VIEW_SET] >> n & 1)
            printf("member %d entered the view with start number %" PRIu64
                   "; its words up to %" PRIu64 " are held\n", n, m[NH_STARTS + n], m[NH_CUT + n]);
}

int main(void)
{
    uint8_t bytes[NH_LONGEST];
    uint64_t m[NH_FIELDS];
    size_t length = nh_length(NH_SYNC);
    int answer = nh_write(sync, NH_FIELDS, bytes, sizeof bytes);

    if (answer != 0) {
        printf("the write was refused with %d\n", answer);
        return 1;
    }
    printf("written, %zu bytes:\n", length);
    print_bytes(bytes, length);

    answer = nh_read(bytes, length, m, NH_FIELDS);
    if (answer != 0) {
        printf("the read was refused with %d\n", answer);
        return 1;
    }
    printf("read back: ");
    print_sync(m);

    answer = nh_read(bytes, length - 1, m, NH_FIELDS);
    printf("read with a byte missing: refused with %d, and the fields are as before\n", answer);
    return answer == 1 ? 0 : 1;
}
