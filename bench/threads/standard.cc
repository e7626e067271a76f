// Threads of the C++ library: a queue with a condition, futures, an exception that crosses threads, a latch.
#include <condition_variable>
#include <cstdio>
#include <deque>
#include <future>
#include <latch>
#include <mutex>
#include <stdexcept>
#include <string>
#include <thread>
#include <vector>

static long thrown(int n) {
  if (n % 2)
    throw std::runtime_error(std::string(n, 'x'));
  return n;
}

int main() {
  std::mutex lock;
  std::condition_variable changed;
  std::deque<std::string> queue;
  std::latch ready(3);
  long total = 0;
  std::thread taker([&] {
    ready.arrive_and_wait();
    for (int taken = 0; taken < 20; taken++) {
      std::unique_lock<std::mutex> held(lock);
      changed.wait(held, [&] { return !queue.empty(); });
      total += queue.front().size();
      queue.pop_front();
    }
  });
  std::vector<std::thread> givers;
  for (int n = 1; n <= 2; n++)
    givers.emplace_back([&, n] {
      ready.arrive_and_wait();
      for (int i = 0; i < 10; i++) {
        std::lock_guard<std::mutex> held(lock);
        queue.emplace_back(std::string(10 * n + i, 'a'));
        changed.notify_one();
      }
    });
  for (auto &giver : givers)
    giver.join();
  taker.join();
  for (int n = 1; n <= 2; n++) {
    auto answer = std::async(std::launch::async, thrown, n);
    try {
      total += answer.get();
    } catch (const std::exception &caught) {
      total += 100 * std::string(caught.what()).size();
    }
  }
  std::printf("total %ld\n", total);
  return 7;
}
