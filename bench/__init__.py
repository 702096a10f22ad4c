"""Scripts that put the program beside a plain one: they compare answers, times and memory."""
