"""What-if questions: certifications that don't exist are supposed in an engine of their own, and plans are made of
them."""
