/* The process of ring 3: it waits for jobs and does them. Everything of this file lies in pages of its own, mapped for ring 3. */
#include "process.h"
#include "machine.h"
#include "plant.h"

typedef void probe(uint64_t va, uint64_t word, struct outcome *outcome);
extern probe process_read, process_write, process_execute;

struct mailbox mailbox;
_Alignas(16) uint8_t process_stack[2 * PAGE];

static void fill(const struct job *job) {
    for (uint64_t at = job->first; at < job->end; at += job->step) write_word(at, mixed(job->seed, at - job->base));
}

static uint64_t sum(const struct job *job) {
    uint64_t total = 0;
    for (uint64_t at = job->first; at < job->end; at += job->step) total += read_word(at);
    return total;
}

static void access(struct job *job) {
    if (job->access == READ) process_read(job->base, job->seed, &job->outcome);
    else if (job->access == WRITE) process_write(job->base, job->seed, &job->outcome);
    else process_execute(job->base, job->seed, &job->outcome);
}

void process(void) {
    for (;;) {
        while (__atomic_load_n(&mailbox.posted, __ATOMIC_ACQUIRE) == mailbox.done) pause();
        if (mailbox.job.kind == FILL) fill(&mailbox.job);
        else if (mailbox.job.kind == SUM) mailbox.job.sum = sum(&mailbox.job);
        else access(&mailbox.job);
        __atomic_store_n(&mailbox.done, mailbox.done + 1, __ATOMIC_RELEASE);
    }
}
