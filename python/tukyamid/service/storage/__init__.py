"""What the service keeps: its database, in one file of SQLite, and what any database has to do."""
