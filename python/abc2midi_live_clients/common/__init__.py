"""What several clients use."""
