// Memory that is wanting when it is told to be. For programs of one thread.
#include <stdbool.h>
#include <stddef.h>

// What was asked for since `failing_from`, and how many blocks are out, those from before included.
struct failing_counts {
    long asked;
    long failed;
    long live;
};

// From now on the request with this number fails, counted from 1, and with `onward` every later one too; with 0 none
// does.
void failing_from(long first, bool onward);

// From now on none fails and none is counted.
struct failing_counts failing_end(void);
