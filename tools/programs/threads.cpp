// Threads with a lock, a condition and atomic variables of each size.
#include <thread>
#include <mutex>
#include <atomic>
#include <vector>
#include <condition_variable>
#include <future>
#include <cstdint>
#include <iostream>
std::atomic<uint8_t> a8; std::atomic<uint16_t> a16; std::atomic<uint32_t> a32; std::atomic<uint64_t> a64;
std::mutex m; std::condition_variable cv; bool ready;
template<class T> void all(std::atomic<T>&a,T v){ a.store(v); a.fetch_add(v); a.fetch_sub(v); a.fetch_and(v); a.fetch_or(v); a.fetch_xor(v); T e=v; a.compare_exchange_strong(e,v+1); a.exchange(e); }
int main(int c,char**v){
  std::vector<std::thread> ts;
  for(int i=0;i<4;i++) ts.emplace_back([i]{ std::unique_lock<std::mutex> l(m); cv.wait(l,[]{return ready;}); all<uint8_t>(a8,i); all<uint16_t>(a16,i); all<uint32_t>(a32,i); all<uint64_t>(a64,i);} );
  { std::lock_guard<std::mutex> l(m); ready=true; } cv.notify_all();
  for(auto&t:ts) t.join();
  auto f=std::async(std::launch::async,[]{ return a32.load()+ (int)a64.load(); });
  std::atomic_thread_fence(std::memory_order_seq_cst);
  try { std::cout<<f.get(); } catch(const std::exception&e){ std::cout<<e.what(); }
}
