"""What the tools around the program have in common; tools/ft runs them by name."""
