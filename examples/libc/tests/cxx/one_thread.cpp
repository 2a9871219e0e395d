// What is meant for several threads, used by one.
#include <atomic>
#include <chrono>
#include <condition_variable>
#include <future>
#include <iostream>
#include <memory>
#include <mutex>
#include <shared_mutex>
#include <string>
#include <thread>

static std::mutex lock;
static std::recursive_mutex inner;
static std::shared_mutex readers;
static std::once_flag once;
static std::atomic<int> count{0};
static std::atomic<long> large{1};
static thread_local int own = 5;

int main()
{
    for (int turn = 0; turn < 3; turn++) {
        std::lock_guard<std::mutex> hold(lock);
        std::scoped_lock both(inner, readers);
        std::lock_guard<std::recursive_mutex> again(inner);
        std::call_once(once, [] { std::cout << "once\n"; });
        count.fetch_add(2, std::memory_order_acq_rel);
        large += 0;
    }
    std::shared_lock<std::shared_mutex> one(readers);
    std::unique_lock<std::mutex> two(lock, std::try_to_lock);
    int expected = 6;
    bool changed = count.compare_exchange_strong(expected, 9);
    std::cout << two.owns_lock() << changed << count.load() << large.exchange(4) << large << '\n';
    std::condition_variable signal;
    signal.notify_all();
    signal.wait(two, [] { return true; });
    auto late = std::async(std::launch::deferred, [] { return std::string("deferred"); });
    std::cout << late.get() << '\n';
    std::promise<int> promise;
    auto future = promise.get_future();
    promise.set_value(own++);
    std::cout << future.get() << own << '\n';
    std::packaged_task<int(int)> task([](int number) { return number + 1; });
    auto result = task.get_future();
    task(41);
    std::cout << result.get() << (std::this_thread::get_id() == std::thread::id()) << '\n';
    std::shared_ptr<int> shared = std::make_shared<int>(1);
    std::atomic_store(&shared, std::make_shared<int>(2));
    std::cout << *std::atomic_load(&shared) << '\n';
    try {
        std::promise<int> broken;
        auto waits = broken.get_future();
        { auto gone = std::move(broken); }
        waits.get();
    } catch (const std::future_error &error) {
        std::cout << (error.code() == std::future_errc::broken_promise) << '\n';
    }
}
