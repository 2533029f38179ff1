// How many bytes a pair of calls, one call, a verdict or a hand-out hands to memcpy, counted by a memcpy that takes the C
// library's place. In the repository's root:
//   cc -O2 -fno-builtin bench-rust/copies.c target/staticlib/libtiming.a target/staticlib/libhost.a -o target/copies
#include <stdint.h>
#include <stdio.h>

uint32_t timing_signal_poll(uint32_t pairs, int32_t task, int32_t id);
uint32_t timing_wait_signal(uint32_t pairs, int32_t waiter, int32_t task, int32_t id);
uint32_t timing_refer_set_semaphore(uint32_t pairs, int32_t task, int32_t id);
uint32_t timing_send_receive(uint32_t pairs, int32_t task, int32_t id);
uint32_t timing_wait_send(uint32_t pairs, int32_t waiter, int32_t task, int32_t id);
uint32_t timing_force_receive(uint32_t pairs, int32_t task, int32_t id);
uint32_t timing_force_drop(uint32_t rounds, int32_t task, int32_t id);
uint32_t timing_refer_set_queue(uint32_t pairs, int32_t task, int32_t id);
uint32_t timing_enter_leave(uint32_t pairs, int32_t task);
uint32_t timing_signal_wait(uint32_t rounds, uint32_t attribute, int32_t task, const uint32_t *priorities,
                            size_t priorities_len);
uint32_t timing_receive_send(uint32_t rounds, uint32_t attribute, uint32_t capacity, int32_t task,
                             const uint32_t *priorities, size_t priorities_len);
uint32_t timing_signal_once(uint32_t rounds, uint32_t attribute, int32_t task, const uint32_t *priorities,
                            size_t priorities_len);
uint32_t timing_receive_once(uint32_t rounds, uint32_t attribute, uint32_t capacity, int32_t task,
                             const uint32_t *priorities, size_t priorities_len);
uint32_t timing_verdict(uint32_t rounds, const int32_t *domains, size_t domains_len, const uint32_t *bases,
                        size_t bases_len, uint32_t size, uint32_t wishes);
uint32_t timing_hand_out(uint32_t rounds, const int32_t *domains, size_t domains_len, const uint32_t *bases,
                         size_t bases_len, uint32_t size, uint32_t flash_base, uint32_t ram_base, const uint8_t *flash,
                         size_t flash_len, const uint8_t *ram, size_t ram_len);
size_t host_run(const uint32_t *calls, size_t calls_len, uint32_t *answers, size_t answers_len);

static uint64_t bytes, copies;

void *memcpy(void *restrict to, const void *restrict from, size_t size) {
    for (size_t i = 0; i < size; i++) ((volatile char *)to)[i] = ((const char *)from)[i];
    bytes += size;
    copies++;
    return to;
}

enum { PAIRS = 100, REGIONS = 64, REGION_SIZE = 4096, READ = 2 };

static void verdicts(uint32_t rounds, uint32_t size) {
    int32_t domains[REGIONS];
    uint32_t bases[REGIONS];
    for (uint32_t k = 0; k < REGIONS; k++) domains[k] = 1, bases[k] = k * REGION_SIZE;
    timing_verdict(rounds, domains, REGIONS, bases, REGIONS, size, READ);
}

// Half of the regions lie in flash, the others in RAM: 16 bytes from the start of each in one of the images.
enum { IMAGE_REGIONS = REGIONS / 2, IMAGE_SIZE = IMAGE_REGIONS * REGION_SIZE };

static void hand_outs(uint32_t rounds, uint32_t first_region) {
    static uint8_t flash[IMAGE_SIZE], ram[IMAGE_SIZE];
    int32_t domains[IMAGE_REGIONS];
    uint32_t bases[IMAGE_REGIONS];
    for (uint32_t k = 0; k < IMAGE_SIZE; k++) flash[k] = k % 251, ram[k] = 255 - k % 251;
    for (uint32_t k = 0; k < IMAGE_REGIONS; k++) domains[k] = 1, bases[k] = (first_region + k) * REGION_SIZE;
    timing_hand_out(rounds, domains, IMAGE_REGIONS, bases, IMAGE_REGIONS, 16, 0, IMAGE_SIZE, flash, IMAGE_SIZE, ram,
                    IMAGE_SIZE);
}

static void signal_poll(uint32_t pairs) { timing_signal_poll(pairs, 1, 1); }
static void wait_signal(uint32_t pairs) { timing_wait_signal(pairs, 4, 1, 1); }
static void refer_set_semaphore(uint32_t pairs) { timing_refer_set_semaphore(pairs, 3, 1); }
static void send_receive(uint32_t pairs) { timing_send_receive(pairs, 1, 1); }
static void wait_send(uint32_t pairs) { timing_wait_send(pairs, 4, 1, 1); }
static void force_receive(uint32_t pairs) { timing_force_receive(pairs, 1, 1); }
static void refer_set_queue(uint32_t pairs) { timing_refer_set_queue(pairs, 3, 1); }
static void enter_leave(uint32_t pairs) { timing_enter_leave(pairs, 1); }
// Its first two rounds fill the buffer.
static void force_drop(uint32_t rounds) { timing_force_drop(rounds + 2, 1, 1); }
static void inside(uint32_t rounds) { verdicts(rounds, 16); }
static void into_next(uint32_t rounds) { verdicts(rounds, REGION_SIZE + 16); }
static void from_flash(uint32_t rounds) { hand_outs(rounds, 0); }
static void from_ram(uint32_t rounds) { hand_outs(rounds, IMAGE_REGIONS); }

// Task 4 waits to receive from queue 1 (function 9), and task 1 sends to it (function 6, or by force 12).
static void list(uint32_t pairs, uint32_t send) {
    static uint32_t calls[16 * (PAIRS + 1)], answers[22 * (PAIRS + 1)];
    for (uint32_t k = 0; k < pairs; k++) {
        uint32_t *call = calls + 16 * k;
        call[0] = 9, call[1] = 4, call[2] = 1, call[8] = send, call[9] = 1, call[10] = 1;
    }
    host_run(calls, 16 * pairs, answers, 22 * pairs);
}

static void listed(uint32_t pairs) { list(pairs, 6); }
static void listed_force(uint32_t pairs) { list(pairs, 12); }

// Three tasks wait, the last one most urgent; the queue has two words. By attribute 0 the first to come is released, by 1 the last.
enum { FIRST_COME, BY_PRIORITY, WAITERS = 3, CAPACITY = 2 };
static const uint32_t priorities[WAITERS] = {16, 16, 1};

static void signal_wait(uint32_t rounds, uint32_t order) { timing_signal_wait(rounds, order, 1, priorities, WAITERS); }
static void receive_send(uint32_t rounds, uint32_t order) {
    timing_receive_send(rounds, order, CAPACITY, 1, priorities, WAITERS);
}
static void signal_once(uint32_t rounds, uint32_t order) { timing_signal_once(rounds, order, 1, priorities, WAITERS); }
static void receive_once(uint32_t rounds, uint32_t order) {
    timing_receive_once(rounds, order, CAPACITY, 1, priorities, WAITERS);
}
// Refused at once, for nobody is task 0: the copy of the table and what any call copies.
static void refused_once(uint32_t rounds) { timing_signal_once(rounds, FIRST_COME, 0, priorities, WAITERS); }

static void signal_wait_come(uint32_t rounds) { signal_wait(rounds, FIRST_COME); }
static void signal_wait_order(uint32_t rounds) { signal_wait(rounds, BY_PRIORITY); }
static void receive_send_come(uint32_t rounds) { receive_send(rounds, FIRST_COME); }
static void receive_send_order(uint32_t rounds) { receive_send(rounds, BY_PRIORITY); }
static void signal_come(uint32_t rounds) { signal_once(rounds, FIRST_COME); }
static void signal_order(uint32_t rounds) { signal_once(rounds, BY_PRIORITY); }
static void receive_come(uint32_t rounds) { receive_once(rounds, FIRST_COME); }
static void receive_order(uint32_t rounds) { receive_once(rounds, BY_PRIORITY); }

// What the table costs is left out: one round less.
static void count(const char *name, void (*work)(uint32_t rounds), double in_a_round) {
    bytes = copies = 0;
    work(1);
    uint64_t first_bytes = bytes, first_copies = copies;
    bytes = copies = 0;
    work(PAIRS + 1);
    double rounds = PAIRS * in_a_round;
    printf("| %s | %.0f | %.0f |\n", name, (bytes - first_bytes) / rounds, (copies - first_copies) / rounds);
}

int main(void) {
    printf("| Pair of calls, one call, a verdict or a hand-out | bytes | copies |\n|---|---|---|\n");
    count("signal, poll", signal_poll, 1);
    count("wait, signal", wait_signal, 1);
    count("refer, set-vector: semaphore", refer_set_semaphore, 1);
    count("send, receive", send_receive, 1);
    count("wait to receive, send", wait_send, 1);
    count("forced send, receive", force_receive, 1);
    count("one forced send, full", force_drop, 1);
    count("refer, set-vector: queue", refer_set_queue, 1);
    count("enter, leave", enter_leave, 1);
    count("verdict, in its region", inside, REGIONS);
    count("verdict, into the next", into_next, REGIONS);
    count("hand-out, from flash", from_flash, IMAGE_REGIONS);
    count("hand-out, from RAM", from_ram, IMAGE_REGIONS);
    count("list: wait to receive, send", listed, 1);
    count("list: wait to receive, forced send", listed_force, 1);
    count("signal, wait again: first come", signal_wait_come, 1);
    count("signal, wait again: by priority", signal_wait_order, 1);
    count("receive, send again: first come", receive_send_come, 1);
    count("receive, send again: by priority", receive_send_order, 1);
    count("one signal, from a copied table: first come", signal_come, 1);
    count("one signal, from a copied table: by priority", signal_order, 1);
    count("one receive, from a copied table: first come", receive_come, 1);
    count("one receive, from a copied table: by priority", receive_order, 1);
    count("one refused signal, from a copied table", refused_once, 1);
}
