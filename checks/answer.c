/* Answers for the kernel. Preloaded before a program, it answers each request of rtnetlink for all entries of a table that
 * has no link in it with the messages in the file that the variable ANSWER names, as the kernel does: under the number of
 * the request and of the socket, and with an end behind them. All other calls go to the C library. */

#define _GNU_SOURCE
#include <dlfcn.h>
#include <linux/netlink.h>
#include <linux/rtnetlink.h>
#include <stdio.h>
#include <stdlib.h>
#include <string.h>
#include <sys/socket.h>
#include <sys/uio.h>

/* The socket that is answered next, and the answer. */
static int answered = -1;
static char *answer;
static size_t length;

/* The bytes of the file, with room for an end. */
static void read_answer(void) {
    FILE *file = fopen(getenv("ANSWER"), "rb");
    if (!file || fseek(file, 0, SEEK_END))
        abort();
    length = (size_t)ftell(file);
    rewind(file);
    answer = calloc(1, length + NLMSG_SPACE(sizeof(int)));
    if (!answer || fread(answer, 1, length, file) != length)
        abort();
    fclose(file);
}

/* Takes notice of a request. */
static int note(int socket, const void *bytes) {
    const struct nlmsghdr *request = bytes;
    if (request->nlmsg_type == RTM_GETLINK || (request->nlmsg_flags & NLM_F_DUMP) != NLM_F_DUMP)
        return 0;
    struct sockaddr_nl address;
    socklen_t size = sizeof address;
    if (getsockname(socket, (struct sockaddr *)&address, &size))
        abort();
    read_answer();
    struct nlmsghdr *message = (struct nlmsghdr *)(answer + length);
    *message = (struct nlmsghdr){.nlmsg_len = NLMSG_SPACE(sizeof(int)), .nlmsg_type = NLMSG_DONE};
    length += message->nlmsg_len;
    for (size_t at = 0; at < length; at += NLMSG_ALIGN(message->nlmsg_len)) {
        message = (struct nlmsghdr *)(answer + at);
        message->nlmsg_flags = NLM_F_MULTI;
        message->nlmsg_seq = request->nlmsg_seq;
        message->nlmsg_pid = address.nl_pid;
    }
    answered = socket;
    return 1;
}

ssize_t send(int socket, const void *bytes, size_t size, int flags) {
    ssize_t (*next)(int, const void *, size_t, int) = dlsym(RTLD_NEXT, "send");
    return note(socket, bytes) ? (ssize_t)size : next(socket, bytes, size, flags);
}

ssize_t sendmsg(int socket, const struct msghdr *message, int flags) {
    ssize_t (*next)(int, const struct msghdr *, int) = dlsym(RTLD_NEXT, "sendmsg");
    size_t size = 0;
    for (size_t at = 0; at < message->msg_iovlen; at++)
        size += message->msg_iov[at].iov_len;
    return note(socket, message->msg_iov[0].iov_base) ? (ssize_t)size : next(socket, message, flags);
}

ssize_t recvmsg(int socket, struct msghdr *message, int flags) {
    ssize_t (*next)(int, struct msghdr *, int) = dlsym(RTLD_NEXT, "recvmsg");
    if (socket != answered)
        return next(socket, message, flags);
    *(struct sockaddr_nl *)message->msg_name = (struct sockaddr_nl){.nl_family = AF_NETLINK};
    message->msg_flags = 0;
    if (flags & MSG_PEEK)
        return (ssize_t)length;
    if (message->msg_iov[0].iov_len < length)
        abort();
    memcpy(message->msg_iov[0].iov_base, answer, length);
    free(answer);
    answered = -1;
    return (ssize_t)length;
}
