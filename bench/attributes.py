"""The attributes of output and input sections."""

ALLOCATED, WRITABLE, EXECUTABLE, THREAD_LOCAL, ZERO_FILL = 1, 2, 4, 8, 16
