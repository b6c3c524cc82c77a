"""What the stored input and output of the test programs is made of."""
