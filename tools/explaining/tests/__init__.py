"""What tools/explain-test tries."""
