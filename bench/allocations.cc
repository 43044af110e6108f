// Counts the calls of malloc, calloc and realloc in this process, `operator new` and the decoder's
// library among them. The functions of the C library (glibc) do the work.
#include <cstddef>
#include <cstdint>

uint64_t allocations = 0;

extern "C" {
void* __libc_malloc(size_t size);
void* __libc_calloc(size_t count, size_t size);
void* __libc_realloc(void* from, size_t size);

void* malloc(size_t size) {
  allocations++;
  return __libc_malloc(size);
}
void* calloc(size_t count, size_t size) {
  allocations++;
  return __libc_calloc(count, size);
}
void* realloc(void* from, size_t size) {
  allocations++;
  return __libc_realloc(from, size);
}
}
