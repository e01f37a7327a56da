/* Prints the list of the folder of each argument as ../b2sum.c returns it on Windows: for each entry the argument, the
 * kind and the name, or the argument and the error. windows.sh runs it. The first argument may be a device. */
#include "../b2sum.c"

#include <stdio.h>

static const char *first = "";

bool b2_has_argument(const char *name) { return !strcmp(name, first); }

OF_TEXT bool b2sum_absorb_proved(ARGUMENTS) { return source && file && threads && state && room && size; }

/* Reads with this room. */
static void print_list(const char *path, size_t room) {
    char name[2 * PATH_ROOM] = LIST, bytes[1000];
    const int file = b2sum_open(strcat(name, path), 0);
    ssize_t count = 0;
    char before = 0;

    while (file > STDERR_FILENO && (count = b2sum_read(file, bytes, room)) > 0)
        for (ssize_t i = 0; i < count; before = bytes[i++]) {
            if (!before) printf("%s: ", path);
            putchar(bytes[i] ? bytes[i] : '\n');
        }
    if (file < 0 || count < 0) printf("%s: %s\n", path, strerror(errno));
    if (file >= 0 && (b2sum_close(file) || lists)) printf("%s: is not closed\n", path);
}

int wmain(int argc, wchar_t **argv) {
    char path[PATH_ROOM];

    for (int i = 1; i < argc; i++) {
        WideCharToMultiByte(CP_UTF8, 0, argv[i], -1, path, sizeof path, NULL, NULL);
        if (i == 1) first = strdup(path);
        print_list(path, i % 2 ? 1 : 1000);
    }
    return 0;
}
