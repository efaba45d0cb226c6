"""A login over messages by SCRAM-SHA-256, client and server in one program."""
from fe2o3_sasl import SHA_256, Client, Record, Server

record = Record.make(SHA_256, "pencil")
client, server = Client(SHA_256, "user", "pencil", min_iterations=4096, max_iterations=100_000), Server()
challenge = server.first(record, client.first())
outcome = server.final(client.final(challenge))
client.verify(outcome)
print(f"SCRAM-SHA-256: {server.authenticated_user()} is logged in, and the server is authenticated")
