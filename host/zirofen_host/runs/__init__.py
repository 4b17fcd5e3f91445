"""From the options of a command to what it writes: a module for each, which is imported where the command is run."""
