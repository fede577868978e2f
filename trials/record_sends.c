/* Notes the head of each datagram that a program sends, and sends it. It is loaded before the C library, by LD_PRELOAD; try_program.py builds
   it. In the environment stands SENDS_FILE, the file to which the heads are appended, HEAD bytes for each datagram in the order in which they
   were sent. That is the header of a packet: crates/packet_wire/README.md says what its bytes mean. A shorter datagram is passed over. */
#include <fcntl.h>
#include <stdlib.h>
#include <sys/socket.h>
#include <sys/syscall.h>
#include <unistd.h>

enum { HEAD = 14, NONE = -1 };

static int file = NONE;

__attribute__((constructor)) static void begin(void)
{
    const char *name = getenv("SENDS_FILE");
    file = name ? open(name, O_WRONLY | O_CREAT | O_APPEND | O_CLOEXEC, 0666) : NONE;
    if (file == NONE)
        abort();
}

/* (one write for each head, at the end of the file, so those of several threads don't mix) */
ssize_t sendto(int socket, const void *bytes, size_t size, int flags, const struct sockaddr *to, socklen_t length)
{
    if (size >= HEAD && write(file, bytes, HEAD) != HEAD)
        abort();
    return syscall(SYS_sendto, socket, bytes, size, flags, to, length);
}
