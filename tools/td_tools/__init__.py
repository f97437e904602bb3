"""What the tools beside td share."""
