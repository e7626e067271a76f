"""What is recorded: actions, the patch that records, runs and their records."""
