"""What the programs are compared with, written from the rules alone, and what is written from it."""
