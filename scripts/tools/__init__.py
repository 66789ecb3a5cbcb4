"""What the scripts beside the program share."""
