"""What the scripts share: builds, made-up inputs, and the plain program that they compare with."""
