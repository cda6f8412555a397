"""What several of the tools share: the crates of the work tree, the memory of the machine, programs among the words, and cases."""
