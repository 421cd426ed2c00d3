"""The gate: what `./test` and `tools/wrong` do beside the tests themselves."""
