/* Runs a program for arm64 under qemu, as if this were it: with its name, arguments, streams and environment. The
 * program is -DPROGRAM="..", or else it lies beside this one, with .arm64 after its name. -DQEMU=".." is qemu-aarch64,
 * and -DSYSTEM=".." the folder with a C library for arm64. */
#include <limits.h>
#include <stdlib.h>
#include <string.h>
#include <unistd.h>

#define NOT_FOUND 127
/* qemu's own words before the program's: -L SYSTEM -0 NAME -E SETTING PROGRAM, and a null pointer at the end. */
#define MORE_WORDS 9

#ifndef PROGRAM
static const char *program(void) {
    static char path[PATH_MAX + sizeof ".arm64"];
    ssize_t length = readlink("/proc/self/exe", path, PATH_MAX);
    if (length < 0)
        return NULL;
    strcpy(path + length, ".arm64");
    return path;
}
#define PROGRAM program()
#endif

/* What is preloaded is for the program, not for qemu. */
static char *take_preload(void) {
    const char *preload = getenv("LD_PRELOAD");
    if (preload == NULL || preload[0] == '\0')
        return NULL;
    char *setting = malloc(strlen(preload) + sizeof "LD_PRELOAD=");
    if (setting == NULL)
        exit(NOT_FOUND);
    strcat(strcpy(setting, "LD_PRELOAD="), preload);
    unsetenv("LD_PRELOAD");
    return setting;
}

int main(int argc, char **argv) {
    const char **words = calloc((size_t)argc + MORE_WORDS, sizeof *words);
    if (words == NULL)
        return NOT_FOUND;
    const char **next = words;
    *next++ = "qemu-aarch64";
    *next++ = "-L";
    *next++ = SYSTEM;
    *next++ = "-0";
    *next++ = argv[0];
    const char *setting = take_preload();
    if (setting != NULL) {
        *next++ = "-E";
        *next++ = setting;
    }
    *next++ = PROGRAM;
    for (int i = 1; i < argc; i++)
        *next++ = argv[i];
    execv(QEMU, (char **)words);
    return NOT_FOUND;
}
