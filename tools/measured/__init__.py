"""What is measured, and how it is called from C."""
