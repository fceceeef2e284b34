/* Asks Crashpad's handler for a dump of this process: crashpad HANDLER DATABASE crash|asked
 *
 * The process has three threads, two of which have names of their own. `crash`: one of them reads address 16, and the
 * dump is made at its signal. `asked`: one of them asks for a dump, as CrashpadClient::DumpWithoutCrash does, whose
 * signal is -1. */
#define _GNU_SOURCE
#include <limits.h>
#include <pthread.h>
#include <signal.h>
#include <stdint.h>
#include <stdio.h>
#include <string.h>
#include <sys/prctl.h>
#include <sys/syscall.h>
#include <sys/wait.h>
#include <ucontext.h>
#include <unistd.h>

/* What --trace-parent-with-exception names: crashpad::ExceptionInformation. */
static struct __attribute__((packed)) {
    uint64_t signal, context;
    int32_t thread;
} exception;
static char **words;

static void dump(int number, siginfo_t *signal, void *context)
{
    char parent[64], database[PATH_MAX];
    int status;
    exception.signal = (uintptr_t)signal;
    exception.context = (uintptr_t)context;
    exception.thread = syscall(SYS_gettid);
    snprintf(parent, sizeof parent, "--trace-parent-with-exception=%#lx", (unsigned long)&exception);
    snprintf(database, sizeof database, "--database=%s", words[2]);
    prctl(PR_SET_PTRACER, PR_SET_PTRACER_ANY);
    pid_t child = fork();
    if (child == 0) {
        execl(words[1], words[1], parent, database, NULL);
        _exit(127);
    }
    waitpid(child, &status, 0);
    _exit(WEXITSTATUS(status));
}

static void *wait_for_ever(void *name)
{
    prctl(PR_SET_NAME, name);
    pause();
    return NULL;
}

static void *ask(void *name)
{
    prctl(PR_SET_NAME, name);
    usleep(100000);
    if (strcmp(words[3], "crash") == 0) {
        return (void *)(long)*(volatile int *)16;
    }
    siginfo_t signal = {.si_signo = -1};
    ucontext_t context = {0};
    getcontext(&context);
    dump(-1, &signal, &context);
    return NULL;
}

int main(int count, char **given)
{
    words = given;
    sigaction(SIGSEGV, &(struct sigaction){.sa_sigaction = dump, .sa_flags = SA_SIGINFO}, NULL);
    pthread_attr_t small;
    pthread_t first, second;
    pthread_attr_init(&small);
    pthread_attr_setstacksize(&small, 32768);
    pthread_create(&first, &small, wait_for_ever, "waits");
    pthread_create(&second, &small, ask, "asks");
    pthread_join(second, NULL);
    return 1;
}
