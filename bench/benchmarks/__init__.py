"""Programs that measure the built program, some beside others. Each prints what docs/PERFORMANCE.md has of it."""
