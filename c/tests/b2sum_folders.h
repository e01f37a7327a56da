/* The tests of the lists of folders that ../b2sum.c returns. b2sum.c includes this file, and replaces what a list calls
 * of the system. */

/* What was read of a list, and its length. */
static char listed[1 << 22];
static size_t listed_length;

/* What opens a folder that has this path, without the mark. */
static int open_list(const char *path) {
    static char name[2 * PATH_ROOM];

    return b2sum_open(strcat(strcpy(name, LIST), path), 0);
}

/* Reads a list to its end, or up to an error, by reads with this room, and returns what the last one has returned. All
 * others but the one before it have to fill the room, and nothing is written after that. */
static ssize_t read_list_to_end(int file, size_t room) {
    bool is_last = false;
    ssize_t count;

    listed_length = 0;
    for (;;) {
        CHECK(listed_length + room < sizeof listed);
        memset(listed + listed_length, '#', room + 1);
        count = b2sum_read(file, listed + listed_length, room);
        CHECK(count <= (ssize_t)room && listed[listed_length + (size_t)(count > 0 ? count : 0)] == '#');
        if (count <= 0) return count;
        CHECK(!is_last);
        is_last = count < (ssize_t)room;
        listed_length += (size_t)count;
    }
}

/* Whether what was read are exactly these entries, each a kind and a name, in any order. */
static bool are_exactly_listed(size_t count, const char *const *entries) {
    size_t length = 0, found = 0;

    for (size_t i = 0; i < count; i++) {
        length += strlen(entries[i]) + 1;
        for (const char *at = listed; at < listed + listed_length; at += strlen(at) + 1)
            found += !strcmp(at, entries[i]);
    }
    return length == listed_length && found == count;
}

/* Whether the folder of this path has these entries, by reads with each of several rooms. Nothing of it stays open. */
static bool folder_has(const char *path, size_t count, const char *const *entries) {
    static const size_t rooms[] = {1, 2, 3, 7, 100, 4096, 65536};
    const int before = lowest_free_descriptor();
    bool is_good = true;

    for (size_t i = 0; i < COUNT_OF(rooms); i++) {
        const int file = open_list(path);
        is_good &= file == before && fcntl(file, F_GETFD) & FD_CLOEXEC && !read_list_to_end(file, rooms[i]);
        is_good &= are_exactly_listed(count, entries) && !b2sum_read(file, listed, rooms[i]);
        is_good &= !b2sum_close(file) && !lists;
    }
    return is_good && lowest_free_descriptor() == before;
}
#define HAS(path, ...) folder_has(path, COUNT_OF(((const char *[]){__VA_ARGS__})), (const char *[]){__VA_ARGS__})
#define IS_LISTED(...) are_exactly_listed(COUNT_OF(((const char *[]){__VA_ARGS__})), (const char *[]){__VA_ARGS__})

/* The error with which the list of this path is refused. Nothing stays open. */
static int error_of_opening_list(const char *path) {
    const int before = lowest_free_descriptor();

    errno = 0;
    CHECK(open_list(path) == -1 && !lists && lowest_free_descriptor() == before);
    return errno;
}

/* Each kind of entry. A link is never followed, but for the one that is the folder to list. */
static void check_kinds_of_entries(void) {
    struct sockaddr_un address = {.sun_family = AF_UNIX, .sun_path = "kinds/socket"};
    const int server = socket(AF_UNIX, SOCK_STREAM | SOCK_CLOEXEC, 0);

    CHECK(!mkdir("empty", 0700) && !mkdir("kinds", 0700) && !mkdir("kinds/folder", 0700) && !mkdir("kinds/...", 0700));
    make_file("kinds/file", 0);
    make_file("kinds/.x", 5);
    make_file("kinds/..y", 5);
    CHECK(!symlink("file", "kinds/link") && !symlink("folder", "kinds/to") && !symlink("loop", "kinds/loop"));
    CHECK(!symlink("none", "kinds/dangling") && !mkfifo("kinds/pipe", 0600) && !symlink("kinds", "to kinds"));
    CHECK(!bind(server, (struct sockaddr *)&address, sizeof address) && !close(server));
#define KINDS "dfolder", "d...", "ffile", "f.x", "f..y", "olink", "oto", "oloop", "odangling", "opipe", "osocket"
    CHECK(folder_has("empty", 0, NULL) && HAS("kinds", KINDS) && HAS("to kinds", KINDS) && HAS("kinds//", KINDS));
    CHECK(HAS("kinds/to/..", KINDS) && folder_has("kinds/folder/.", 0, NULL));
    fstatat_error = ENOENT; /* of what cannot be looked at its opening says why */
    CHECK(HAS("kinds", "ffolder", "f...", "ffile", "f.x", "f..y", "flink", "fto", "floop", "fdangling", "fpipe",
              "fsocket"));
    fstatat_error = 0;
    fstatat_interrupts = readdir_interrupts = openat_interrupts = 3;
    CHECK(HAS("kinds", KINDS) && fstatat_interrupts < 0 && readdir_interrupts < 0 && openat_interrupts < 0);
    CHECK(!read_list_to_end(open_list("/dev"), 65536) && memmem(listed, listed_length, "\0onull", 7));
    CHECK(!b2sum_close(lists->file) && !lists);
}

/* What cannot be listed. Nothing waits for the other end of a pipe. */
static void check_refused_lists(void) {
    char path[PATH_ROOM + 1] = "";

    CHECK(error_of_opening_list("missing") == ENOENT && error_of_opening_list("") == ENOENT);
    CHECK(error_of_opening_list("kinds/dangling") == ENOENT && error_of_opening_list("kinds/file/") == ENOTDIR);
    CHECK(error_of_opening_list("kinds/file") == ENOTDIR && error_of_opening_list("kinds/pipe") == ENOTDIR);
    CHECK(error_of_opening_list("kinds/link") == ENOTDIR && error_of_opening_list("kinds/socket") == ENOTDIR);
    CHECK(error_of_opening_list("/dev/null") == ENOTDIR && error_ahead_of_turn("kinds") == EAGAIN);
    CHECK(error_of_opening_list("kinds/loop") == ELOOP && error_of_opening_list(LIST "kinds") == ENOENT);
    CHECK(error_of_opening_list(AHEAD "kinds") == ENOENT && error_ahead_of_turn(LIST "kinds") == ENOENT);
    for (int i = 0; i < PATH_ROOM / 2 - 1; i++) strcpy(path + 2 * i, "./");
    strcat(path, "x");
    CHECK(strlen(path) == PATH_ROOM - 1 && error_of_opening_list(path) == ENOENT);
    strcpy(path + PATH_ROOM - 1, "/");
    CHECK(error_of_opening_list(path) == ENAMETOOLONG);
    memcpy(path + PATH_ROOM - 6, "empty", 6);
    CHECK(folder_has(path, 0, NULL));
    memset(path, 'n', 256);
    path[256] = 0;
    CHECK(error_of_opening_list(path) == ENAMETOOLONG);
    has_device_names = true;
    CHECK(error_of_opening_list("//dev") == EACCES && error_of_opening_list("kinds/NUL") == EACCES &&
          HAS("kinds", KINDS));
    argument = "//dev";
    CHECK(!b2sum_close(open_list("//dev")));
    argument = "";
    has_device_names = false;
}

/* Whether a folder has this entry for a user that is not root and may use it so. If that is null, whether it cannot be
 * listed. */
static bool lists_under_mode(mode_t mode, const char *entry) {
    const uid_t user = geteuid();
    bool is_good;

    CHECK(!chmod("closed", mode * 0111) && (user || !seteuid(65534)));
    is_good = entry ? HAS("closed", entry) : error_of_opening_list("closed") == EACCES;
    CHECK(!seteuid(user));
    return is_good;
}

/* A folder that may only be searched, or only be read. */
static void check_folder_permissions(void) {
    CHECK(!mkdir("closed", 0700) && !mkdir("closed/folder", 0700));
    CHECK(lists_under_mode(5, "dfolder") && lists_under_mode(4, "ffolder") && lists_under_mode(1, NULL) &&
          lists_under_mode(0, NULL));
    CHECK(!chmod("closed", 0700));
}

/* Names of all bytes and lengths. A path is decoded as that of a file. */
static void check_names_of_all_bytes(void) {
    static char names[2][256][260], all[270] = "bytes/";
    const char *entries[2][256];

    CHECK(!mkdir("bytes", 0700) && !mkdir("lengths", 0700) && !mkdir("r\xe9", 0700) && !mkdir(LIST "x", 0700));
    for (int i = 0, byte = 1; byte < 256; byte++) {
        if (byte == '/') continue;
        sprintf(names[0][i], "bytes/x%c", byte);
        make_file(names[0][i], 0);
        entries[0][i] = names[0][i] + strlen("bytes");
        names[0][i][strlen("bytes")] = 'f';
        all[strlen("bytes/") + (size_t)i++] = (char)byte;
    }
    make_file(all, 0);
    all[strlen("bytes")] = 'f';
    entries[0][254] = all + strlen("bytes");
    for (int i = 0; i < 255; i++) {
        memset(names[1][i], 'x', (size_t)i + 1);
        CHECK(!chdir("lengths") && !mkdir(names[1][i], 0700) && !chdir(".."));
        memmove(names[1][i] + 1, names[1][i], (size_t)i + 1);
        names[1][i][0] = 'd';
        entries[1][i] = names[1][i];
    }
    CHECK(folder_has("bytes", 255, entries[0]) && folder_has("lengths", 255, entries[1]));
    CHECK(folder_has("r\xf4\x8f\xbf\xa9", 0, NULL) && error_of_opening_list("r\xe8") == ENOENT);
    CHECK(folder_has("\xf4\x8f\xbf\xb4\xf4\x8f\xbe\x8f\xf4\x8f\xbe\xbc\xf4\x8f\xbe\x81x", 0, NULL));
}

/* A folder that is made up, with many entries or with one that has a longer name than most systems have. */
static void check_large_folders(void) {
    static bool is_found[100000];
    size_t count = 0;
    int file;

    made_count = COUNT_OF(is_found);
    file = open_list("empty");
    CHECK(!read_list_to_end(file, 65536) && !b2sum_close(file));
    for (const char *at = listed; at < listed + listed_length; at += strlen(at) + 1, count++) {
        const int number = atoi(at + 1);
        CHECK(*at == 'f' && !is_found[number]);
        is_found[number] = true;
    }
    CHECK(count == COUNT_OF(is_found));
    made_count = 1;
    made_length = 1000;
    file = open_list("empty");
    CHECK(!read_list_to_end(file, 9) && listed_length == made_length + 3 && !memcmp(listed + made_length, "n0", 3));
    CHECK(!b2sum_close(file));
    made_count = made_length = 0;
}

/* Each call of the system fails once, and works again. An error comes after the entries before it, and stays. */
static void check_failing_folder_calls(void) {
    for (int at = 1; at <= 14; at++) { /* 11 entries, two that are left out, and the end */
        const int file = open_list("kinds");
        readdir_fails_at = at;
        CHECK(read_list_to_end(file, at % 2 ? 5 : 65536) == -1 && errno == EIO && !readdir_fails_at);
        CHECK((listed_length == 0) >= (at == 1) && (at < 14 || IS_LISTED(KINDS)));
        CHECK(b2sum_read(file, listed, 10) == -1 && errno == EIO && !b2sum_close(file) && !lists);
    }
    openat_error = ENFILE;
    CHECK(error_of_opening_list("kinds") == ENFILE);
    openat_error = 0;
    fdopendir_fails = true;
    CHECK(error_of_opening_list("kinds") == ENOBUFS);
    fdopendir_fails = false;
    has_no_memory = true;
    CHECK(error_of_opening_list("kinds") == ENOMEM);
    has_no_memory = false;
    closedir_fails = true;
    CHECK(b2sum_close(open_list("kinds")) == -1 && errno == EDQUOT && close_error == EDQUOT && !lists);
    closedir_fails = false;
    close_error = 0;
}

/* Lists that are open at the same time, and what comes after them with their descriptors. */
static void check_several_open_lists(void) {
    const int first = open_list("kinds"), file = b2sum_open("kinds/.x", 0), second = open_list("kinds"),
              third = open_list("empty");
    char byte;

    CHECK(first >= 0 && file >= 0 && second >= 0 && third >= 0 && b2sum_read(first, listed, 3) == 3);
    CHECK(!read_list_to_end(second, 4) && IS_LISTED(KINDS) && !b2sum_close(second));
    CHECK(b2sum_read(file, &byte, 1) == 1 && !byte && b2sum_read(second, &byte, 1) == -1 && errno == EBADF);
    CHECK(b2sum_open("kinds/.x", 0) == second && b2sum_read(second, &byte, 1) == 1 && !byte && !b2sum_close(second));
    CHECK(b2sum_read(third, &byte, 1) == 0 && !b2sum_close(third) && !b2sum_close(file));
    CHECK(!read_list_to_end(first, 4) && listed_length > 40 && !b2sum_close(first) && !lists);
    CHECK(b2sum_close(first) == -1 && errno == EBADF && close_error == EBADF);
    close_error = 0;
}

/* Descriptors that are all in use, and standard streams that are closed and stay so. */
static void check_lists_without_descriptors(void) {
    const int copies[] = {dup(STDIN_FILENO), dup(STDOUT_FILENO), dup(STDERR_FILENO)}, before = lowest_free_descriptor();
    struct rlimit whole, few;
    int errors[3], file, count;
    char byte;

    getrlimit(RLIMIT_NOFILE, &whole);
    few = whole;
    few.rlim_cur = (rlim_t)before;
    setrlimit(RLIMIT_NOFILE, &few);
    errors[0] = open_list("kinds") == -1 ? errno : 0;
    for (int i = 0; i < 3; i++) close(i);
    errors[1] = open_list("kinds") == -1 ? errno : 0; /* opened as 0, and 1 and 2 on the way up */
    errors[2] = b2sum_read(0, &byte, 1) == -1 ? errno : 0;
    is_input_read = false;
    setrlimit(RLIMIT_NOFILE, &whole);
    file = open_list("kinds");
    count = (int)read_list_to_end(file, 65536);
    for (int i = 0; i < 3; i++) errors[i] = dup(copies[i]) == i ? errors[i] : -1;
    CHECK(errors[0] == EMFILE && errors[1] == EMFILE && errors[2] == EBADF);
    CHECK(file == before && !count && IS_LISTED(KINDS) && !b2sum_close(file) && !lists);
    for (int i = 0; i < 3; i++) close(copies[i]);
}

/* A list shows no progress, is no key file, and needs no folder that is still there. */
static void check_list_is_not_a_file(void) {
    const int advice = advised, number = shown.file;
    int file;

    is_shown = is_key_next = true;
    time_now += 1000;
    CHECK((file = open_list("kinds")) > 2 && !read_list_to_end(file, 9) && IS_LISTED(KINDS));
    CHECK(!*written && shown.file == number && advised == advice && !is_key_next && !*shared_key && !b2sum_close(file));
    is_shown = false;
    CHECK(!mkdir("removed", 0700) && (file = open_list("removed")) > 2 && !rmdir("removed"));
    CHECK(!read_list_to_end(file, 9) && !listed_length && !b2sum_close(file));
}

static void check_folder_lists(void) {
    check_kinds_of_entries();
    check_refused_lists();
    check_folder_permissions();
    check_names_of_all_bytes();
    check_large_folders();
    check_failing_folder_calls();
    check_several_open_lists();
    check_lists_without_descriptors();
    check_list_is_not_a_file();
}
