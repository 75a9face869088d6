"""What all the test scripts use: counting, C files built once, runs of the program, texts compared."""
