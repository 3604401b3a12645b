/* Tries to leave the folder `inside`; checks/run makes the names. */
#include <errno.h>
#include <fcntl.h>
#include <stdio.h>
#include <string.h>
#include <sys/stat.h>
#include <unistd.h>

static int out = 0;

/* Whether a call was refused: each of these has to be. */
static void refused(const char *what, int failed) {
    printf("%s: %s\n", what, failed ? strerror(errno) : "DONE");
    out |= !failed;
}

int main(int count, char **words) {
    (void)count, (void)words;
    static const char *const paths[] = {
        "../secret", "/inside/../secret", "/secret", "/etc/passwd", "sub/../../secret",
        "sub/../../../secret", "up/secret", "to-secret", "absolute", "sub/chain/secret",
        "sub/chain2", "loop", "to-sub/../../secret", "./../secret", "..", "../inside/../secret",
        "up/inside/../secret", ".//..//secret", "up/../secret",
    };
    struct stat what;
    for (unsigned i = 0; i < sizeof paths / sizeof *paths; i++) {
        const char *path = paths[i];
        char full[200];
        snprintf(full, sizeof full, "%s%s", *path == '/' ? "" : "/inside/", path);
        printf("%s\n", full);
        refused("  open", open(full, O_RDONLY) < 0);
        refused("  create", open(full, O_CREAT | O_WRONLY, 0666) < 0);
        refused("  stat", stat(full, &what) < 0);
        int is_link = !strcmp(path, "to-secret") || !strcmp(path, "absolute")
            || !strcmp(path, "loop") || !strcmp(path, "sub/chain2"); /* these may be removed */
        if (!is_link) {
            refused("  unlink", unlink(full) < 0);
            refused("  mkdir", mkdir(full, 0777) < 0);
            refused("  rename", rename("/inside/own", full) < 0);
            refused("  link", link("/inside/own", full) < 0);
            refused("  symlink", symlink("own", full) < 0);
        }
    }
    int is_linked = !link("/inside/up", "/inside/hard");
    refused("link of a link", !is_linked || stat("/inside/hard/secret", &what) < 0);
    refused("a new absolute link", symlink("/etc", "/inside/etc") < 0);
    refused("  through it", open("/inside/etc/passwd", O_RDONLY) < 0);
    symlink("..", "/inside/sub/again");
    printf("inside: %d\n", open("/inside/sub/again/own", O_RDONLY) >= 0);
    printf("inside: %d\n", open("/inside/to-sub/../own", O_RDONLY) >= 0);
    printf("inside: %d\n", open("/inside/sub/../own", O_RDONLY) >= 0);
    puts(out ? "OUT" : "held");
    return out;
}
