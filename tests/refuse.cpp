// A shared object for LD_PRELOAD that makes a program's calls of the C library fail.
//
// It maps the file that REFUSE names: some words for each kind of call, which a test sets and reads
// while the program runs. The program may have only one thread.
#include <cerrno>
#include <cstdint>
#include <cstdlib>
#include <dlfcn.h>
#include <fcntl.h>
#include <sys/mman.h>
#include <sys/socket.h>
#include <unistd.h>

namespace {

// tests/refusing.py names these kinds and the words of each in the same order.
enum Kind { MEMORY, RECEIVE, SEND, DISK, KINDS };

struct Steering {
    // Which call is refused: 1 is the next one, 0 is none.
    uint64_t countdown;
    // Whether all calls after that one are refused too.
    uint64_t is_for_good;
    // The errno of a refused call.
    uint64_t error;
    // The most bytes that one call receives or sends; 0 is no bound.
    uint64_t piece;
    // How many calls were refused.
    uint64_t refused;
    // Of the disk: a bit for each descriptor that was written to and not synced since.
    uint64_t unsynced;
    // How many calls there were since a test set this to 0.
    uint64_t calls;
    // How many calls of the disk come before the first call that counts.
    uint64_t after;
};

volatile Steering *steering;

[[gnu::constructor]] void map_steering() {
    const char *path = getenv("REFUSE");
    int file = path ? open(path, O_RDWR) : -1;
    size_t size = sizeof(Steering) * KINDS;
    void *mapped = mmap(nullptr, size, PROT_READ | PROT_WRITE, MAP_SHARED, file, 0);
    if (mapped == MAP_FAILED)
        abort();
    close(file);
    steering = static_cast<volatile Steering *>(mapped);
}

// Counts a call. On true the call has to fail, with the errno that is set here.
bool is_refused(Kind kind) {
    if (!steering)
        return false;
    volatile Steering &words = steering[kind];
    words.calls = words.calls + 1;
    if (steering[DISK].calls < words.after)
        return false;
    if (words.countdown != 1) {
        if (words.countdown > 1)
            words.countdown = words.countdown - 1;
        return false;
    }
    if (!words.is_for_good)
        words.countdown = 0;
    words.refused = words.refused + 1;
    errno = static_cast<int>(words.error);
    return true;
}

size_t at_most(Kind kind, size_t size) {
    size_t piece = steering ? steering[kind].piece : 0;
    return piece && size > piece ? piece : size;
}

void set_unsynced(int file, bool is_unsynced) {
    if (!steering)
        return;
    uint64_t bit = uint64_t{1} << file % 64, others = steering[DISK].unsynced & ~bit;
    steering[DISK].unsynced = is_unsynced ? others | bit : others;
}

}  // namespace

// Finds the C library's function of this name, as `next`.
#define NEXT(name)                                                        \
    static decltype(&::name) next;                                        \
    if (!next)                                                            \
        next = reinterpret_cast<decltype(&::name)>(dlsym(RTLD_NEXT, #name))

extern "C" {

void *malloc(size_t size) noexcept {
    NEXT(malloc);
    return is_refused(MEMORY) ? nullptr : next(size);
}

void *realloc(void *block, size_t size) noexcept {
    NEXT(realloc);
    return is_refused(MEMORY) ? nullptr : next(block, size);
}

ssize_t recv(int socket, void *bytes, size_t size, int flags) {
    NEXT(recv);
    return is_refused(RECEIVE) ? -1 : next(socket, bytes, at_most(RECEIVE, size), flags);
}

ssize_t send(int socket, const void *bytes, size_t size, int flags) {
    NEXT(send);
    return is_refused(SEND) ? -1 : next(socket, bytes, at_most(SEND, size), flags);
}

ssize_t pread(int file, void *bytes, size_t size, off_t offset) {
    NEXT(pread);
    return is_refused(DISK) ? -1 : next(file, bytes, size, offset);
}

ssize_t pwrite(int file, const void *bytes, size_t size, off_t offset) {
    NEXT(pwrite);
    if (is_refused(DISK))
        return -1;
    set_unsynced(file, true);
    return next(file, bytes, size, offset);
}

int fsync(int file) {
    NEXT(fsync);
    if (is_refused(DISK))
        return -1;
    set_unsynced(file, false);
    return next(file);
}

int fdatasync(int file) {
    NEXT(fdatasync);
    if (is_refused(DISK))
        return -1;
    set_unsynced(file, false);
    return next(file);
}

int ftruncate(int file, off_t length) noexcept {
    NEXT(ftruncate);
    return is_refused(DISK) ? -1 : next(file, length);
}
}
