"""What looks at the sources and their proofs: the gate, edits, theorems, and the page of definitions."""
