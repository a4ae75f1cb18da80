// SPDX-License-Identifier: MIT OR Apache-2.0
/* A driver over the installed library: two buttons of a volume. */
#include <hid_reader.h>
#include <hid_usages.h>
#include <stdio.h>

int main(void) {
    /* Two bits: Volume Increment and Volume Decrement. */
    static const uint8_t text[] = {0x05, 0x0c, 0x09, 0x01, 0xa1, 0x01, 0x09, 0xe9, 0x09, 0xea, 0x25,
                                   0x01, 0x75, 0x01, 0x95, 0x02, 0x81, 0x02, 0xc0};
    static const uint8_t reports[] = {1, 1, 0, 2};
    hidr_reader reader;
    int volume = 0;
    if (hidr_reader_open(text, sizeof text, &reader, NULL) != HIDR_OK)
        return 1;
    for (size_t number = 0; number < sizeof reports; number++) {
        hidr_value values[2];
        size_t count;
        /* A report that is refused is dropped. */
        if (hidr_read(reader, HIDR_INPUT, &reports[number], 1, values, 2, &count, NULL) != HIDR_OK)
            continue;
        for (size_t at = 0; at < count; at++)
            switch (values[at].usage) {
            case HIDU_CONSUMER_VOLUME_INCREMENT: volume += (int)values[at].raw; break;
            case HIDU_CONSUMER_VOLUME_DECREMENT: volume -= (int)values[at].raw; break;
            }
        printf("volume %d\n", volume);
    }
    return 0;
}
