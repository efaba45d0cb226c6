//! A login over messages by SCRAM-SHA-256, client and server in one program.
use fe2o3_sasl_proved::{fits, ScramAuthenticator, ScramClient, ScramVersion, SingleScramCredential};

fn main() -> Result<(), Box<dyn std::error::Error>> {
    if !fits() {
        return Err("the library is not the one that the crate was written for".into());
    }
    let credential = SingleScramCredential::new("user", "pencil", ScramVersion::Sha256)?;
    let mut server = ScramAuthenticator::new(credential);
    let mut client = ScramClient::new("user", "pencil", ScramVersion::Sha256)
        .with_min_iterations(4096)
        .with_iteration_limit(100_000);
    let first = client.compute_client_first_message();
    let challenge = server.compute_server_first_message(&first)?.ok_or("no such user")?;
    let response = client.compute_client_final_message(std::str::from_utf8(&challenge)?)?;
    let outcome = server.compute_server_final_message(&response)?.ok_or("no such user")?;
    client.validate_server_final(&outcome)?;
    let user = server.authenticated_user().ok_or("no user is authenticated")?;
    println!("SCRAM-SHA-256: {user} is logged in, and the server is authenticated");
    Ok(())
}
