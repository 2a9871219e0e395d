/* A wait for another thread, of which there is none.
   ends: 133
   tells: breakpoint 6 */
#include <pthread.h>

int main(void)
{
    pthread_mutex_t lock = PTHREAD_MUTEX_INITIALIZER;
    pthread_cond_t changed = PTHREAD_COND_INITIALIZER;
    pthread_mutex_lock(&lock);
    pthread_cond_wait(&changed, &lock);
    return 0;
}
