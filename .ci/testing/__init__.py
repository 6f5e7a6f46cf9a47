"""How `.ci/test` runs the tests and the lints: what there is, the cases of one module, and modules side by side."""
