"""Programs of the engine behind the service: run, talked to, started again."""
