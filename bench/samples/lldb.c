/* Two threads with small stacks: `reader` reads address 16. */
#include <pthread.h>
#include <sys/prctl.h>
#include <sys/resource.h>
#include <unistd.h>

static void *crash(void *address)
{
    prctl(PR_SET_NAME, "reader");
    return (void *)(long)*(volatile int *)address;
}

int main(int count, char **words)
{
    if (count == 1) { /* the main thread's stack is made small by a second start */
        setrlimit(RLIMIT_STACK, &(struct rlimit){16384, 16384});
        execl(words[0], words[0], "again", NULL);
    }
    pthread_t thread;
    pthread_attr_t small;
    pthread_attr_init(&small);
    pthread_attr_setstacksize(&small, 8192);
    pthread_create(&thread, &small, crash, (void *)16);
    return pthread_join(thread, NULL);
}
