"""The rules of `tools/check`, one module each, and what they share: the files, the findings and what is still owed."""
