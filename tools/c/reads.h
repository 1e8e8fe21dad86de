/* What programs share that read Input reports, so that the instructions of a report can be counted from outside:
 * PROGRAM read|show TURNS DEVICE REPORT.. , reports in hex. Each turn reads all reports. It prints how many events came. */
#include <stdint.h>
#include <stdio.h>
#include <stdlib.h>
#include <string.h>

/* how many bytes a report has at most, with its ID */
#define MOST_BYTES 16385

static size_t of_hex(const char *text, uint8_t *bytes)
{
    size_t length = 0;
    for (; text[0] && text[1]; text += 2)
        sscanf(text, "%2hhx", &bytes[length++]);
    return length;
}

/* Reads the reports of a command line; `reads` gives the number of events, or less than 0 where it refuses the report. */
static int read_reports(int words, char **word, long (*reads)(const uint8_t *report, size_t length))
{
    int count = words - 4;
    uint8_t(*reports)[MOST_BYTES] = calloc(count + 1, sizeof *reports);
    size_t *lengths = calloc(count + 1, sizeof *lengths);
    long events = 0;
    for (int i = 0; i < count; i++)
        lengths[i] = of_hex(word[4 + i], reports[i]);
    for (long turn = atol(word[2]); turn > 0; turn--)
        for (int i = 0; i < count; i++) {
            long came = reads(reports[i], lengths[i]);
            if (came < 0) {
                fprintf(stderr, "%s: report %d is refused\n", word[0], i);
                return 1;
            }
            events += came;
        }
    printf("%ld\n", events);
    return 0;
}
