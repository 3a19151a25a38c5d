"""What a reader has to believe: the definitions that a contract rests on."""
