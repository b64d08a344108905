"""Tries the mutants of crates: wrong bodies, in `crates/NAME/mutants.edits`, which the prover must refuse."""
