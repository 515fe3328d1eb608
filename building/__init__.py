"""What ./build is made of: the crates, processes that end with it, the proved build and the unproved one."""
