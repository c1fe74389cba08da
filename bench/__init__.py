"""What checks the project beside its proofs: tests of the built programs, benchmarks, documents, and parts of the gate."""
