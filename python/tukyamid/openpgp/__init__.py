"""What certificates and their signatures say, read for people; and e-mail addresses. The engine alone decides."""
