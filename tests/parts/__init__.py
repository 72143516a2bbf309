"""Parts of tests that have a file of their own."""
