// The heap of LLVM's Scudo under names of its own (scudo_malloc and so on), for heap_anchors.py:
// what Scudo's own wrappers for C do, while the C library keeps its heap. Tag checks are on, and
// synchronous, before main begins.
#include "allocator_config.h"
#include "wrappers_c.h"
#include "wrappers_c_checks.h"

#include <stdint.h>
#include <stdio.h>

#define SCUDO_PREFIX(name) scudo_##name
#define SCUDO_ALLOCATOR scudo_heap

extern "C" void scudo_malloc_postinit();

// The default configuration with regions of 256 MiB in place of 4 GiB: QEMU takes more than a
// second to map those.
struct Config : scudo::DefaultConfig {
  typedef scudo::SizeClassAllocator64<Config> Primary;
  static const scudo::uptr PrimaryRegionSizeLog = 28U;
};

SCUDO_REQUIRE_CONSTANT_INITIALIZATION
static scudo::Allocator<Config, scudo_malloc_postinit> scudo_heap;

#include "wrappers_c.inc"

__attribute__((constructor)) static void check_tags() {
  scudo::enableSystemMemoryTaggingTestOnly();
}
