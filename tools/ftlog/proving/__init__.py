"""The crates of the repository, and what their proofs cost."""
