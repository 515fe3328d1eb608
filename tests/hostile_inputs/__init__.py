"""The inputs of tests/hostile: captures, configurations and command lines, each drawn from a generator of random numbers."""
