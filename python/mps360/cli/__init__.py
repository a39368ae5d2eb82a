"The commands: the words of each, its messages and its exit codes."
