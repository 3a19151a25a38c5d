"""The service: it keeps certificates and verdicts in a database, and serves many clients on a Unix socket.

| where | what it has |
|---|---|
| `server`, `server_command` | the sockets and the clients; the command `tukyamid-server` |
| `sessions/` | one client: its lines, and its replies in their order |
| `line_intake` | where all lines come in; `keyring_holder` holds the keyring for it |
| `whole/`, `sliced/` | a keyring that each engine holds, and one that is larger than an engine |
| `engines/` | programs of the engine: run, talked to, started again |
| `storage/`, `postgres/` | the database: in a file, or on servers that several machines share |
| `keyring_files/` | keyring files and certificate directories that the service keeps up with |
| `start_on_demand` | what a command calls so that a service runs |
"""
