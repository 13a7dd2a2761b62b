/* What starting threads costs: two of them are started and joined so many times. Prints the processor microseconds of a
   thread. */
#include <pthread.h>
#include <stdio.h>
#include <stdlib.h>
#include <time.h>

static void *nothing(void *it)
{
    return it;
}

static double processor_seconds(void)
{
    struct timespec now;
    clock_gettime(CLOCK_PROCESS_CPUTIME_ID, &now);
    return now.tv_sec + now.tv_nsec / 1e9;
}

int main(int count, char **words)
{
    int turns = count > 1 ? atoi(words[1]) : 5000;
    double began = processor_seconds();
    for (int turn = 0; turn < turns; turn++) {
        pthread_t one, other;
        if (pthread_create(&one, NULL, nothing, NULL) || pthread_create(&other, NULL, nothing, NULL))
            return 1;
        pthread_join(one, NULL);
        pthread_join(other, NULL);
    }
    printf("%.2f\n", (processor_seconds() - began) / turns / 2 * 1e6);
    return 0;
}
