"""What the other folders share, and what helps those who prove."""
