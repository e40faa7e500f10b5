"""The parts of tests/command: harness and jobs are for all of them, each other file tests one thing."""
