/* least COUNT FOLDER INPUT COMMAND..: runs a command COUNT times in FOLDER, with INPUT as its standard input and a
 * new file of FOLDER as its standard output, and prints the least time that a run took, in microseconds.
 *
 * Before each run the folder is emptied, outside of the time, so that no run meets what another has left. It fails
 * where a run does not end with status 0.
 */
#include <dirent.h>
#include <fcntl.h>
#include <stdio.h>
#include <stdlib.h>
#include <sys/wait.h>
#include <time.h>
#include <unistd.h>

static long long now(void)
{
    struct timespec t;
    clock_gettime(CLOCK_MONOTONIC, &t);
    return t.tv_sec * 1000000000ll + t.tv_nsec;
}

/* Takes the files out of the working folder: 0, or -1 where it cannot be read. */
static int empty_folder(void)
{
    DIR *folder = opendir(".");
    struct dirent *entry;
    if (!folder)
        return -1;
    while ((entry = readdir(folder)))
        unlink(entry->d_name);
    return closedir(folder);
}

/* How many nanoseconds a command takes, or -1 where it does not end with status 0. */
static long long time_of(char *const *command, int in, int out)
{
    long long from = now();
    int status;
    pid_t child = vfork();
    if (child == 0) {
        if (dup2(in, 0) < 0 || dup2(out, 1) < 0)
            _exit(126);
        execv(command[0], command);
        _exit(127);
    }
    if (child < 0 || waitpid(child, &status, 0) != child || status != 0)
        return -1;
    return now() - from;
}

/* The same in an emptied folder, and with the streams opened before the time begins. */
static long long run(char *const *command, const char *input)
{
    long long took = -1;
    int in, out;
    if (empty_folder())
        return -1;
    in = open(input, O_RDONLY | O_CLOEXEC);
    out = open("standard-output", O_WRONLY | O_CREAT | O_EXCL | O_CLOEXEC, 0644);
    if (in >= 0 && out >= 0)
        took = time_of(command, in, out);
    close(in);
    close(out);
    return took;
}

int main(int argc, char **argv)
{
    long long least = -1;
    if (argc < 5 || chdir(argv[2]))
        return 2;
    for (int i = atoi(argv[1]); i > 0; i--) {
        long long took = run(argv + 4, argv[3]);
        if (took < 0)
            return 3;
        if (least < 0 || took < least)
            least = took;
    }
    printf("%lld.%lld\n", least / 1000, least % 1000 / 100);
    return empty_folder() ? 3 : 0;
}
