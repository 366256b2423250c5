"""The comparison of the original Rust with the model. `oracle/compare` runs it whole."""
