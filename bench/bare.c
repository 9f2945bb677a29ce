/* Makes what an installation of packages makes, safe from a crash, and decides nothing: bare REPOSITORY ROOT STEMS. Each package of the list is at version 1, with
   one directory and one file. Its manifest is read, its payload is read and its digest compared; content and record are made in a stage with their modes; then all is
   made safe; then the directory is made, and content and record get their names. A call that fails ends it. */
#include <fcntl.h>
#include <openssl/sha.h>
#include <stdio.h>
#include <stdlib.h>
#include <string.h>
#include <sys/stat.h>
#include <unistd.h>

enum { MOST = 1 << 16 };

static char manifest[MOST], content[MOST];

static void need(int is_well, const char *what)
{
    if (!is_well) {
        perror(what);
        exit(1);
    }
}

static long read_file(const char *path, char *into)
{
    int file = open(path, O_RDONLY);
    need(file >= 0, path);
    long count = 0, more;
    while ((more = read(file, into + count, MOST - 1 - count)) > 0)
        count += more;
    need(more == 0, path);
    close(file);
    into[count] = 0;
    return count;
}

static void write_file(const char *path, const char *from, long count)
{
    int file = open(path, O_WRONLY | O_CREAT | O_EXCL, 0644);
    need(file >= 0 && write(file, from, count) == count && close(file) == 0, path);
}

/* The word behind the first `key` of the text, up to a blank or a newline. */
static void word_behind(const char *text, const char *key, char *word)
{
    const char *at = strstr(text, key);
    need(at != 0, key);
    at += strlen(key);
    long count = strcspn(at, " \n");
    memcpy(word, at, count);
    word[count] = 0;
}

static void compare(const char *name, const char *bytes, long count)
{
    unsigned char digest[20];
    char text[41];
    SHA1((const unsigned char *)bytes, count, digest);
    for (int i = 0; i < 20; i++)
        sprintf(text + 2 * i, "%02x", digest[i]);
    need(strcmp(text, name) == 0, name);
}

static void stage(const char *repository, const char *root, const char *stem, int number)
{
    char path[4096], name[64];
    snprintf(path, sizeof path, "%s/publisher/test/pkg/%s/1", repository, stem);
    long length = read_file(path, manifest);
    word_behind(manifest, "\nfile ", name);
    snprintf(path, sizeof path, "%s/publisher/test/file/%.2s/%s", repository, name, name);
    long count = read_file(path, content);
    compare(name, content, count);
    snprintf(path, sizeof path, "%s/var/pkg/stage/%d", root, 2 * number);
    write_file(path, content, count);
    snprintf(path, sizeof path, "%s/var/pkg/stage/%d", root, 2 * number + 1);
    write_file(path, manifest, length);
}

static void lay(const char *root, const char *stem, int number)
{
    char from[4096], to[4096];
    snprintf(to, sizeof to, "%s/usr/share/%s", root, stem);
    need(mkdir(to, 0755) == 0, to);
    snprintf(from, sizeof from, "%s/var/pkg/stage/%d", root, 2 * number);
    snprintf(to, sizeof to, "%s/usr/share/%s/file", root, stem);
    need(rename(from, to) == 0, to);
    snprintf(from, sizeof from, "%s/var/pkg/stage/%d", root, 2 * number + 1);
    snprintf(to, sizeof to, "%s/var/pkg/state/%s", root, stem);
    need(rename(from, to) == 0, to);
}

static void make_safe(const char *root)
{
    int dir = open(root, O_RDONLY);
    need(dir >= 0 && syncfs(dir) == 0 && close(dir) == 0, root);
}

int main(int count, char **words)
{
    static const char *dirs[] = {"usr", "usr/share", "var", "var/pkg", "var/pkg/stage", "var/pkg/state"};
    static char stems[1 << 22], *each[1 << 17];
    char path[4096];
    int packages = 0;
    need(count == 4, "bare REPOSITORY ROOT STEMS");
    umask(022);
    FILE *list = fopen(words[3], "r");
    need(list != 0, words[3]);
    stems[fread(stems, 1, sizeof stems - 1, list)] = 0;
    fclose(list);
    for (char *stem = strtok(stems, "\n"); stem; stem = strtok(0, "\n"))
        each[packages++] = stem;
    for (int i = 0; i < 6; i++) {
        snprintf(path, sizeof path, "%s/%s", words[2], dirs[i]);
        need(mkdir(path, 0755) == 0, path);
    }
    for (int i = 0; i < packages; i++)
        stage(words[1], words[2], each[i], i);
    make_safe(words[2]);
    snprintf(path, sizeof path, "%s/var/pkg/gate", words[2]);
    write_file(path, "", 0);
    make_safe(words[2]);
    for (int i = 0; i < packages; i++)
        lay(words[2], each[i], i);
    make_safe(words[2]);
    need(unlink(path) == 0, path);
    make_safe(words[2]);
    return 0;
}
