/* Runs a program with one file as its input and another as its output, and prints its user time and its system time in seconds and its
   largest memory in kilobytes: measure INPUT OUTPUT PROGRAM WORD...

   The kernel counts what a process held before it became the program as the program's too. So whoever starts the program has to be smaller
   than it: started from Python, nothing below ten megabytes would show. */
#include <stdio.h>
#include <sys/resource.h>
#include <sys/wait.h>
#include <unistd.h>

static void print_seconds(struct timeval time) { printf("%ld.%06ld ", (long)time.tv_sec, (long)time.tv_usec); }

int main(int count, char **words)
{
    int status;
    struct rusage used;
    if (count < 4)
        return 2;
    pid_t child = fork();
    if (child == 0) {
        if (freopen(words[1], "r", stdin) && freopen(words[2], "w", stdout))
            execvp(words[3], words + 3);
        perror(words[3]);
        _exit(127);
    }
    if (child < 0 || wait4(child, &status, 0, &used) < 0 || status != 0)
        return 1;
    print_seconds(used.ru_utime);
    print_seconds(used.ru_stime);
    printf("%ld\n", used.ru_maxrss);
    return 0;
}
