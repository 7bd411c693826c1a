// What parts of ACE cost, for the programs that time the same work here: timers scheduled and expired in its heap, list and wheel,
// a message queue without locks, and streams of modules that pass messages on. With a count of a thousandth as its word it is short.
// Prints lines of a name and nanoseconds for each timer or message.
#include <ace/Message_Block.h>
#include <ace/Message_Queue_T.h>
#include <ace/Module.h>
#include <ace/Null_Mutex.h>
#include <ace/Null_Condition.h>
#include <ace/OS_main.h>
#include <ace/Stream.h>
#include <ace/Task_T.h>
#include <ace/Timer_Heap_T.h>
#include <ace/Timer_List_T.h>
#include <ace/Timer_Wheel_T.h>
#include <chrono>
#include <cstdint>
#include <cstdio>
#include <string>

static double now_nanos()
{
    return std::chrono::duration<double, std::nano>(std::chrono::steady_clock::now().time_since_epoch()).count();
}

struct Counted {
    uint64_t expired = 0;
};

// What a queue calls for each timer that expires.
struct Upcall {
    template <class Queue> int registration(Queue &, Counted *, const void *) { return 0; }
    template <class Queue> int preinvoke(Queue &, Counted *, const void *, int, const ACE_Time_Value &, const void *&) { return 0; }
    template <class Queue> int timeout(Queue &, Counted *counted, const void *, int, const ACE_Time_Value &)
    {
        counted->expired++;
        return 0;
    }
    template <class Queue> int postinvoke(Queue &, Counted *, const void *, int, const ACE_Time_Value &, const void *) { return 0; }
    template <class Queue> int cancel_type(Queue &, Counted *, int, int &) { return 0; }
    template <class Queue> int cancel_timer(Queue &, Counted *, int, int) { return 0; }
    template <class Queue> int deletion(Queue &, Counted *, const void *) { return 0; }
};

typedef ACE_Timer_Heap_T<Counted *, Upcall, ACE_Null_Mutex> Heap;
typedef ACE_Timer_List_T<Counted *, Upcall, ACE_Null_Mutex> List;
typedef ACE_Timer_Wheel_T<Counted *, Upcall, ACE_Null_Mutex> Wheel;

// So many timers are scheduled and expire, in one queue so often.
template <class Queue> static void time_queue(const char *name, Queue &queue, uint64_t size, uint64_t rounds)
{
    Counted counted;
    uint64_t timers = size * rounds;
    double start = now_nanos();
    for (uint64_t first = 0; first < timers; first += size) {
        for (uint64_t timer = first; timer < first + size; timer++) {
            uint64_t deadline = (timer * UINT64_C(0x9e3779b97f4a7c15)) >> 44;
            queue.schedule(&counted, nullptr, ACE_Time_Value(deadline / 1000, (deadline % 1000) * 1000));
        }
        queue.expire(ACE_Time_Value(1 << 20, 0));
    }
    double spent = now_nanos() - start;
    std::printf("%llu timers, %s: %.0f\n", (unsigned long long)size, name, counted.expired == timers ? spent / timers : 0.0);
}

static void time_timers(uint64_t most)
{
    for (uint64_t size = 100; size <= most; size *= 10) {
        uint64_t rounds = most / size;
        Upcall upcall;
        if (size <= 10000) {
            List list(&upcall, nullptr);
            time_queue("sorted list", list, size, rounds);
        }
        Heap heap(size, true, &upcall, nullptr);
        time_queue("heap", heap, size, rounds);
        Wheel wheel(256, 100, size, &upcall, nullptr);
        time_queue("wheel", wheel, size, rounds);
    }
}

static ACE_Message_Block *message_of()
{
    ACE_Message_Block *block = new ACE_Message_Block(100);
    block->copy(std::string(100, '\7').data(), 100);
    return block;
}

static void time_message_queue(uint64_t count)
{
    ACE_Message_Queue<ACE_NULL_SYNCH> queue(1 << 20, 1 << 20);
    for (int k = 0; k < 16; k++)
        queue.enqueue_tail(message_of());
    double start = now_nanos();
    for (uint64_t k = 0; k < count; k++) {
        ACE_Message_Block *block = nullptr;
        queue.dequeue_head(block);
        queue.enqueue_tail(block);
    }
    std::printf("enqueue_tail and dequeue_head: %.0f\n", (now_nanos() - start) / count);
    for (int k = 0; k < 16; k++) {
        ACE_Message_Block *block = nullptr;
        queue.dequeue_head(block);
        block->release();
    }
}

struct Pass : ACE_Task<ACE_NULL_SYNCH> {
    int put(ACE_Message_Block *block, ACE_Time_Value *) override { return this->put_next(block); }
};

static ACE_Message_Block *came_out;

// The far end of a stream keeps what comes out.
struct Keep : ACE_Task<ACE_NULL_SYNCH> {
    int put(ACE_Message_Block *block, ACE_Time_Value *) override
    {
        came_out = block;
        return 0;
    }
};

static void time_stream(int modules, uint64_t count)
{
    ACE_Stream<ACE_NULL_SYNCH> stream(nullptr, nullptr, new ACE_Module<ACE_NULL_SYNCH>("tail", new Keep, new Keep));
    for (int k = 0; k < modules; k++)
        stream.push(new ACE_Module<ACE_NULL_SYNCH>(std::to_string(k).c_str(), new Pass, new Pass));
    came_out = message_of();
    double start = now_nanos();
    for (uint64_t k = 0; k < count; k++)
        stream.put(came_out);
    std::printf("put through %d passing modules: %.0f\n", modules, (now_nanos() - start) / count);
    came_out->release();
}

int ACE_TMAIN(int argc, ACE_TCHAR *argv[])
{
    bool is_short = argc > 1 && std::string(argv[1]) == "short";
    uint64_t count = is_short ? 1000 : 1000000;
    time_timers(is_short ? 100 : 100000);
    time_message_queue(count);
    time_stream(1, count);
    time_stream(3, count);
    time_stream(8, count);
    return 0;
}
