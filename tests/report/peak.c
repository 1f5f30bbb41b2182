/* Runs the command behind the first argument, and writes to the file that this one names how many kilobytes of memory the command held at most. It lies at the
   same addresses each time: with others, more or fewer pages of the C library come along with those that it touches. */
#include <stdio.h>
#include <sys/personality.h>
#include <sys/resource.h>
#include <sys/wait.h>
#include <unistd.h>

int main(int count, char **words)
{
    struct rusage used;
    int status = 1;
    if (count < 3)
        return 2;
    pid_t child = fork();
    if (child == 0) {
        personality(ADDR_NO_RANDOMIZE);
        execvp(words[2], words + 2);
        _exit(127);
    }
    if (child < 0 || wait4(child, &status, 0, &used) != child || status != 0)
        return 1;
    FILE *file = fopen(words[1], "w");
    return !file || fprintf(file, "%ld\n", used.ru_maxrss) < 0 || fclose(file) != 0;
}
