/* Runs a program under ptrace(2), puts down each of its calls of the system, and ends it by SIGKILL at one of them, or has that one
   fail. For tests/compact; no part of the program.

       trace-calls RECORD AT ERROR PROGRAM [WORD]..

   RECORD: the file that gets a line for each call before it is made: its number, its first three arguments, and the path behind the
   first one where that is an open file. AT: which of them, counted from 1, isn't made; 0: none. ERROR: the error that it fails
   with; 0: SIGKILL ends all there. The status is that of the program, and 137 where it was ended. It runs on Linux on x86-64. */
#define _GNU_SOURCE
#include <errno.h>
#include <limits.h>
#include <signal.h>
#include <stddef.h>
#include <stdio.h>
#include <stdlib.h>
#include <sys/ptrace.h>
#include <sys/user.h>
#include <sys/wait.h>
#include <unistd.h>

enum { MOST_THREADS = 256, OF_A_CALL = SIGTRAP | 0x80 };

static struct { pid_t thread; int is_within, fails; } threads[MOST_THREADS];

static int place_of(pid_t thread)
{
    int free = -1;
    for (int at = 0; at < MOST_THREADS; at++) {
        if (threads[at].thread == thread)
            return at;
        if (free < 0 && !threads[at].thread)
            free = at;
    }
    if (free < 0)
        abort();
    threads[free].thread = thread;
    threads[free].is_within = threads[free].fails = 0;
    return free;
}

static void put_down(FILE *record, pid_t thread, const struct user_regs_struct *call)
{
    char link[64], path[PATH_MAX + 1] = "";
    snprintf(link, sizeof link, "/proc/%d/fd/%d", thread, (int)call->rdi);
    ssize_t size = (int)call->rdi < 0 ? -1 : readlink(link, path, PATH_MAX);
    path[size < 0 ? 0 : size] = 0;
    fprintf(record, "%lld %lld %lld %lld %s\n", call->orig_rax, call->rdi, call->rsi, call->rdx, path);
    fflush(record);
}

static void set(pid_t thread, size_t at, long long value)
{
    ptrace(PTRACE_POKEUSER, thread, at, (void *)value);
}

/* Runs on to the end of the program, and answers its status. */
static int followed(pid_t program, FILE *record, long at, int error)
{
    long count = 0;
    for (;;) {
        int status, signal = 0;
        pid_t thread = waitpid(-1, &status, __WALL);
        if (thread < 0)
            return 125;
        if (WIFEXITED(status) || WIFSIGNALED(status)) {
            threads[place_of(thread)].thread = 0;
            if (thread == program)
                return WIFEXITED(status) ? WEXITSTATUS(status) : 128 + WTERMSIG(status);
            continue;
        }
        if (WSTOPSIG(status) == OF_A_CALL) {
            struct user_regs_struct call;
            int place = place_of(thread);
            ptrace(PTRACE_GETREGS, thread, NULL, &call);
            threads[place].is_within = !threads[place].is_within;
            if (!threads[place].is_within && threads[place].fails) {
                set(thread, offsetof(struct user_regs_struct, rax), -(long long)error);
                threads[place].fails = 0;
            } else if (threads[place].is_within) {
                put_down(record, thread, &call);
                if (++count == at) {
                    /* a number that no call has, so that this one isn't made */
                    set(thread, offsetof(struct user_regs_struct, orig_rax), -1);
                    threads[place].fails = error != 0;
                    if (!error)
                        kill(program, SIGKILL);
                }
            }
        } else if (WSTOPSIG(status) != SIGTRAP && WSTOPSIG(status) != SIGSTOP) {
            signal = WSTOPSIG(status);
        }
        ptrace(PTRACE_SYSCALL, thread, NULL, (void *)(long)signal);
    }
}

int main(int count, char **words)
{
    if (count < 5)
        return 124;
    FILE *record = fopen(words[1], "we");
    pid_t program = record ? fork() : -1;
    if (program < 0)
        return 123;
    if (!program) {
        ptrace(PTRACE_TRACEME, 0, NULL, NULL);
        execv(words[4], words + 4);
        _exit(122);
    }
    /* the program stands behind its execve(2) */
    int status;
    if (waitpid(program, &status, 0) != program || !WIFSTOPPED(status))
        return 121;
    long options = PTRACE_O_EXITKILL | PTRACE_O_TRACESYSGOOD | PTRACE_O_TRACECLONE | PTRACE_O_TRACEFORK | PTRACE_O_TRACEVFORK;
    ptrace(PTRACE_SETOPTIONS, program, NULL, (void *)options);
    place_of(program);
    ptrace(PTRACE_SYSCALL, program, NULL, NULL);
    return followed(program, record, atol(words[2]), atoi(words[3]));
}
