"""What the tools and the benchmarks share: calls of programs, texts of vwires, emitted boards, devices."""
