"""The parts of the command sakonite; tools/README.md says what each is for."""
