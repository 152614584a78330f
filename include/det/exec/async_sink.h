// A sink that writes in a thread of its own, so that no cycle waits for a disk.
#ifndef DET_EXEC_ASYNC_SINK_H
#define DET_EXEC_ASYNC_SINK_H

#include <pthread.h>

#include <algorithm>
#include <cstddef>
#include <cstdint>
#include <cstring>

#include "det/exec/memory.h"
#include "det/exec/record_sink.h"
#include "det/exec/result.h"
#include "det/exec/threads.h"
#include "det/exec/version.h"

namespace det::exec {
inline namespace DET_EXEC_ABI {

/// Holds bytes in a ring until its thread has written them to another sink. `Write` never waits for
/// that sink: if the ring has no room, the bytes aren't taken and the record ends. So the size of
/// the ring says how long a disk may be busy. Only `Start` takes memory.
class AsyncSink final : public RecordSink {
 public:
  /// The other sink has to live as long. Only the thread of this sink calls its `Write`.
  explicit AsyncSink(RecordSink& sink) noexcept : sink_(sink) {}
  AsyncSink(AsyncSink const&) = delete;
  AsyncSink& operator=(AsyncSink const&) = delete;
  ~AsyncSink() override { (void)Finish(); }

  /// Makes a ring of this many bytes, at least 1, and starts the thread. It is called once.
  Result<void> Start(std::size_t bytes) noexcept {
    if (bytes == 0 || !ring_.Grow(bytes)) return DeterministicErrc::kNoMemory;
    if (pthread_create(&thread_, nullptr, &AsyncSink::Run, this) != 0) {
      return DeterministicErrc::kThreadNotStarted;
    }
    running_ = true;
    return {};
  }

  bool Write(std::uint8_t const* bytes, std::size_t count) noexcept override {
    if (!running_) return false;
    mutex_.Lock();
    bool const fits = !failed_ && count <= ring_.size() - held_;
    std::size_t const at = (first_ + held_) % ring_.size();
    mutex_.Unlock();
    if (!fits) return false;
    if (count == 0) return true;
    // Only this thread adds bytes, so the room stays free without the mutex.
    std::size_t const front = std::min(count, ring_.size() - at);
    std::memcpy(ring_.data() + at, bytes, front);
    if (front != count) std::memcpy(ring_.data(), bytes + front, count - front);
    mutex_.Lock();
    held_ += count;
    most_ = std::max(most_, held_);
    mutex_.Unlock();
    wake_.Signal();
    return true;
  }

  /// Waits until all bytes are written, ends the thread, and finishes the other sink.
  bool Finish() noexcept override {
    if (running_) {
      mutex_.Lock();
      ending_ = true;
      mutex_.Unlock();
      wake_.Signal();
      pthread_join(thread_, nullptr);
      running_ = false;
      if (!failed_) failed_ = !sink_.Finish();
    }
    return !failed_;
  }

  /// The most bytes that were held at a time.
  std::size_t Most() noexcept {
    mutex_.Lock();
    std::size_t const most = most_;
    mutex_.Unlock();
    return most;
  }

 private:
  static void* Run(void* self) {
    static_cast<AsyncSink*>(self)->Serve();
    return nullptr;
  }

  void Serve() noexcept {
    mutex_.Lock();
    while (!failed_) {
      while (held_ == 0 && !ending_) wake_.Wait(mutex_);
      if (held_ == 0) break;
      std::size_t const count = std::min(held_, ring_.size() - first_);
      std::uint8_t const* const bytes = ring_.data() + first_;
      mutex_.Unlock();
      bool const written = sink_.Write(bytes, count);
      mutex_.Lock();
      first_ = (first_ + count) % ring_.size();
      held_ -= count;
      failed_ = !written;
    }
    mutex_.Unlock();
  }

  RecordSink& sink_;
  internal::Array<std::uint8_t> ring_;
  internal::Mutex mutex_;
  internal::Condition wake_;
  pthread_t thread_{};
  std::size_t first_ = 0, held_ = 0, most_ = 0;
  bool running_ = false, ending_ = false, failed_ = false;
};

}  // namespace DET_EXEC_ABI
}  // namespace det::exec

#endif
