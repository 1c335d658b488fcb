/* A server of the kernel's FUSE protocol that keeps nothing but which names are there, and so shows what the protocol alone costs.
   It agrees on the same terms as inofs, and has the calls that bench/mounted times: a file of 1 MiB, and names in three directories.

       fixed_replies [OPTION N].. fuse ..      serves on standard input and output; other words are passed over

   --seconds N    for so long the kernel may keep names, absent ones too, and attributes
   --open N       the flags that it is told of a file that was opened, and --opendir N those of a directory
   --init N       the flags that are agreed on, where the kernel offers them
   --largest N    the bytes of the largest write, at most 1 MiB */
#include <errno.h>
#include <linux/fuse.h>
#include <stdbool.h>
#include <stddef.h>
#include <stdio.h>
#include <stdlib.h>
#include <string.h>
#include <sys/stat.h>
#include <sys/uio.h>
#include <unistd.h>

enum { ROOT = 1, FILE_NODE, FOLDER, FOLDERS = 3, FIRST_NAME = FOLDER + FOLDERS, NAMES = 4096, LARGEST = 1 << 20 };

static const char *const folder_names[FOLDERS] = {"work", "few", "many"};
static char request[LARGEST + (1 << 16)], content[LARGEST];
static bool folder_is_there[FOLDERS], is_there[FOLDERS][2 * NAMES]; /* names n0, n1, .. and m0, m1, .. */

/* Without other words, as inofs. */
static uint64_t seconds = 86400, open_flags = FOPEN_KEEP_CACHE, opendir_flags = FOPEN_KEEP_CACHE | FOPEN_CACHE_DIR, largest = LARGEST;
static uint64_t init_flags =
    FUSE_ASYNC_READ | FUSE_ATOMIC_O_TRUNC | FUSE_BIG_WRITES | FUSE_DONT_MASK | FUSE_PARALLEL_DIROPS | FUSE_HANDLE_KILLPRIV |
    FUSE_POSIX_ACL | FUSE_MAX_PAGES | FUSE_CACHE_SYMLINKS | FUSE_HANDLE_KILLPRIV_V2;
static const struct { const char *name; uint64_t *value; } options[] = {
    {"--seconds", &seconds}, {"--open", &open_flags}, {"--opendir", &opendir_flags}, {"--init", &init_flags}, {"--largest", &largest}};

static void reply(uint64_t unique, int error, const void *body, size_t size)
{
    struct fuse_out_header header = {sizeof header + size, -error, unique};
    struct iovec parts[] = {{&header, sizeof header}, {(void *)body, size}};
    if (writev(STDOUT_FILENO, parts, 2) < 0 && errno != ENOENT)
        exit(1);
}

static struct fuse_attr attr_of(uint64_t node)
{
    bool folder = node != FILE_NODE && node < FIRST_NAME;
    struct fuse_attr attr = {.ino = node, .size = node == FILE_NODE ? 1 << 20 : 100, .nlink = 1, .blksize = 4096};
    attr.mode = folder ? S_IFDIR | 0755 : S_IFREG | 0644;
    return attr;
}

static int place_of(const char *name)
{
    return atoi(name + 1) + (*name == 'm' ? NAMES : 0);
}

static int folder_of(const char *name)
{
    int number = 0;
    while (number < FOLDERS && strcmp(name, folder_names[number]))
        number++;
    return number;
}

/* The node of a name, or 0. */
static uint64_t node_of(uint64_t parent, const char *name)
{
    if (parent == ROOT) {
        int number = folder_of(name);
        return !strcmp(name, "file") ? FILE_NODE : number < FOLDERS && folder_is_there[number] ? FOLDER + number : 0;
    }
    uint64_t number = parent - FOLDER;
    return is_there[number][place_of(name)] ? FIRST_NAME + number * 2 * NAMES + place_of(name) : 0;
}

static void set_name(uint64_t parent, const char *name, bool there)
{
    if (parent != ROOT)
        is_there[parent - FOLDER][place_of(name)] = there;
    else if (folder_of(name) < FOLDERS)
        folder_is_there[folder_of(name)] = there;
}

/* What is opened too is a file. */
static void reply_node(uint64_t unique, uint64_t node, bool opened)
{
    struct { struct fuse_entry_out entry; struct fuse_open_out open; } body = {
        {.nodeid = node, .entry_valid = seconds, .attr_valid = seconds}, {.open_flags = open_flags}};
    if (node)
        body.entry.attr = attr_of(node);
    reply(unique, node || seconds ? 0 : ENOENT, &body, !node && !seconds ? 0 : opened ? sizeof body : sizeof body.entry);
}

static void list(uint64_t unique, uint64_t folder, uint64_t at, uint32_t room)
{
    static char body[LARGEST];
    size_t size = 0;
    for (uint64_t place = at; place < 2 * NAMES; place++) {
        if (folder == ROOT || !is_there[folder - FOLDER][place])
            continue;
        struct fuse_dirent *named = (struct fuse_dirent *)(body + size);
        char name[16];
        int length = sprintf(name, "%c%d", place < NAMES ? 'n' : 'm', (int)(place % NAMES));
        size_t space = (offsetof(struct fuse_dirent, name) + length + 7) & ~7ul;
        if (size + space > room)
            break;
        memset(named, 0, space);
        *named = (struct fuse_dirent){.ino = FIRST_NAME + place, .off = place + 1, .namelen = length};
        memcpy(named->name, name, length);
        size += space;
    }
    reply(unique, 0, body, size);
}

static void agree(uint64_t unique, const struct fuse_init_in *offer)
{
    struct fuse_init_out terms = {
        .major = 7, .minor = 31, .max_readahead = offer->max_readahead, .flags = offer->flags & init_flags,
        .max_background = 16, .congestion_threshold = 12, .max_write = largest, .time_gran = 1, .max_pages = largest / 4096};
    reply(unique, 0, &terms, sizeof terms);
}

static void serve(const struct fuse_in_header *in, const char *body)
{
    const struct fuse_read_in *move = (const void *)body;
    struct fuse_attr_out shown = {.attr_valid = seconds, .attr = attr_of(in->nodeid)};
    struct fuse_open_out opened = {.open_flags = in->opcode == FUSE_OPEN ? open_flags : opendir_flags};
    struct fuse_statfs_out room = {.st = {.bsize = 512, .namelen = 120}};
    switch (in->opcode) {
    case FUSE_INIT: return agree(in->unique, (const void *)body);
    case FUSE_LOOKUP: return reply_node(in->unique, node_of(in->nodeid, body), false);
    case FUSE_GETATTR:
    case FUSE_SETATTR: return reply(in->unique, 0, &shown, sizeof shown);
    case FUSE_OPEN:
    case FUSE_OPENDIR: return reply(in->unique, 0, &opened, sizeof opened);
    case FUSE_READ: return reply(in->unique, 0, content, move->size);
    case FUSE_READDIR: return list(in->unique, in->nodeid, move->offset, move->size);
    case FUSE_WRITE: return reply(in->unique, 0, &(struct fuse_write_out){.size = move->size}, sizeof(struct fuse_write_out));
    case FUSE_STATFS: return reply(in->unique, 0, &room, sizeof room);
    case FUSE_GETXATTR: return reply(in->unique, strstr(body + sizeof(struct fuse_getxattr_in), "acl") ? ENODATA : EOPNOTSUPP, NULL, 0);
    case FUSE_MKDIR: body += sizeof(struct fuse_mkdir_in); break;
    case FUSE_CREATE: body += sizeof(struct fuse_create_in); break;
    case FUSE_UNLINK: set_name(in->nodeid, body, false); return reply(in->unique, 0, NULL, 0);
    case FUSE_RENAME2: body += sizeof(struct fuse_rename2_in) - sizeof(struct fuse_rename_in); /* fall through */
    case FUSE_RENAME:
        body += sizeof(struct fuse_rename_in);
        set_name(in->nodeid, body, false);
        set_name(in->nodeid, body + strlen(body) + 1, true);
        return reply(in->unique, 0, NULL, 0);
    case FUSE_FORGET: case FUSE_BATCH_FORGET: case FUSE_INTERRUPT: return;
    case FUSE_RELEASE: case FUSE_RELEASEDIR: case FUSE_FSYNC: case FUSE_DESTROY: return reply(in->unique, 0, NULL, 0);
    default: return reply(in->unique, ENOSYS, NULL, 0);
    }
    set_name(in->nodeid, body, true);
    reply_node(in->unique, node_of(in->nodeid, body), in->opcode == FUSE_CREATE);
}

int main(int count, char **words)
{
    for (; count > 2 && words[1][0] == '-'; count -= 2, words += 2)
        for (size_t number = 0; number < sizeof options / sizeof *options; number++)
            if (!strcmp(words[1], options[number].name))
                *options[number].value = strtoull(words[2], NULL, 0);
    if (count < 2 || strcmp(words[1], "fuse"))
        return 0;
    for (;;) {
        ssize_t size = read(STDIN_FILENO, request, sizeof request);
        if (size < 0 && errno == ENODEV)
            return 0;
        if (size < 0 && (errno == EINTR || errno == EAGAIN || errno == ENOENT))
            continue;
        if (size < (ssize_t)sizeof(struct fuse_in_header))
            return 1;
        serve((const void *)request, request + sizeof(struct fuse_in_header));
    }
}
