/*
 * What a C library calls by itself. Each part of this program is a word of its command line: tools/try-jail traces the part `plain`,
 * and runs the others under the policy of that trace.
 */

#include <errno.h>
#include <pthread.h>
#include <signal.h>
#include <stdio.h>
#include <stdlib.h>
#include <string.h>
#include <time.h>
#include <unistd.h>

static void *in_thread(void *argument)
{
    char *text = malloc(200000);
    if (text == NULL)
        return NULL;
    memset(text, 1, 200000);
    free(text);
    return argument;
}

static int threads(void)
{
    pthread_t all[8];
    for (int k = 0; k < 8; k++)
        if (pthread_create(&all[k], NULL, in_thread, all) != 0)
            return 1;
    for (int k = 0; k < 8; k++) {
        void *came;
        if (pthread_join(all[k], &came) != 0 || came != all)
            return 1;
    }
    return 0;
}

static int large(void)
{
    char *text = NULL;
    for (size_t size = 1; size <= 64 << 20; size *= 2) {
        char *longer = realloc(text, size);
        if (longer == NULL)
            return 1;
        longer[size - 1] = 1;
        text = longer;
    }
    free(text);
    return 0;
}

static int compare(const void *one, const void *other)
{
    return *(const int *)one - *(const int *)other;
}

static int sorted(void)
{
    static int numbers[100000];
    for (int k = 0; k < 100000; k++)
        numbers[k] = 100000 - k;
    qsort(numbers, 100000, sizeof numbers[0], compare);
    return numbers[0] != 1;
}

static int told_failure(void)
{
    errno = ENOENT;
    perror("told");
    return 3;
}

static int slept(void)
{
    struct timespec left = {2, 0};
    return nanosleep(&left, NULL);
}

static int told_time(void)
{
    time_t now = time(NULL);
    struct timespec exact;
    char text[64];
    if (clock_gettime(CLOCK_REALTIME, &exact) != 0 || strftime(text, sizeof text, "%Y", localtime(&now)) == 0)
        return 1;
    return puts(text) < 0;
}

/* What Debian's shell does of itself: each command has to end well. */
static int shell(void)
{
    static const char *const lines[] = {
        "/bin/true; /bin/true",
        "echo a > /dev/null",
        "x=$(echo a); test \"$x\" = a",
        "x=$(/bin/echo a); test \"$x\" = a",
        "echo a | while read x; do test $x = a; done",
        "while read x; do :; done < /dev/null 2>&1",
        "cd / && test $PWD = /",
        "test -r / && test -d /",
        "(exit 0)",
    };
    for (size_t k = 0; k < sizeof lines / sizeof lines[0]; k++)
        if (system(lines[k]) != 0) {
            fprintf(stderr, "%s\n", lines[k]);
            return 1;
        }
    return 0;
}

static int piped(void)
{
    char text[8] = "";
    FILE *stream = popen("echo a", "r");
    if (stream == NULL || fgets(text, sizeof text, stream) == NULL)
        return 1;
    return pclose(stream) != 0 || strcmp(text, "a\n") != 0;
}

int main(int count, char **words)
{
    const char *part = count > 1 ? words[1] : "plain";
    if (strcmp(part, "threads") == 0)
        return threads();
    if (strcmp(part, "large") == 0)
        return large();
    if (strcmp(part, "sort") == 0)
        return sorted();
    if (strcmp(part, "failure") == 0)
        return told_failure();
    if (strcmp(part, "sleep") == 0)
        return slept();
    if (strcmp(part, "abort") == 0)
        abort();
    if (strcmp(part, "system") == 0)
        return system("exit 7") == 7 << 8 ? 0 : 1;
    if (strcmp(part, "shell") == 0)
        return shell();
    if (strcmp(part, "popen") == 0)
        return piped();
    if (strcmp(part, "time") == 0)
        return told_time();
    return 0;
}
