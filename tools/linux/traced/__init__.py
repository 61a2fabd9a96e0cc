"""What tools/linux/trace is made of: the events of a trace, what is checked of them, and what is said."""
