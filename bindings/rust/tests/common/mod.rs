//! What tests of several files use, each a part of it.
#![allow(dead_code)]

use fe2o3_sasl_proved::*;
use std::ops::Deref;
use std::{fs, path::PathBuf, process};

/// What both sides of a connection send first.
pub const HEADER: &[u8] = b"AMQP\x03\x01\x00\x00";

/// A frame: its size and its body.
pub fn sized(body: &[u8]) -> Vec<u8> {
    [&(body.len() as u32 + 4).to_be_bytes(), body].concat()
}

/// The body that a side sends, or why its login has failed without an outcome.
fn answered(sent: &[u8], progress: Progress) -> Result<Vec<u8>, ConnectionError> {
    use ConnectionError::*;
    match progress {
        Progress::Failed(RefusedAuth | RefusedSys | RefusedSysPerm | RefusedSysTemp) => {}
        Progress::Failed(why) => return Err(why),
        Progress::InProgress | Progress::Authenticated => {}
    }
    Ok(sent.get(4..).unwrap_or_default().to_vec())
}

/// A client that is passed the bodies of frames: each with its size, after the header.
pub struct ClientBodies(ClientNegotiation);

impl ClientBodies {
    pub fn new(profile: impl Into<SaslProfile>, hostname: Option<&str>) -> Self {
        let mut side = ClientNegotiation::new(profile, hostname);
        side.receive(HEADER).unwrap();
        Self(side)
    }

    pub fn on_frame(&mut self, body: &[u8]) -> Result<Vec<u8>, ConnectionError> {
        let sent = self.0.receive(&sized(body))?.sent;
        answered(&sent, self.progress())
    }
}

impl Deref for ClientBodies {
    type Target = ClientNegotiation;

    fn deref(&self) -> &ClientNegotiation {
        &self.0
    }
}

/// A server that is passed the bodies of frames, like [`ClientBodies`].
pub struct ServerBodies<R: UserRecords + Clone> {
    side: ServerNegotiation<R>,

    /// The list of mechanisms that it has sent.
    pub offer: Vec<u8>,
}

impl<R: UserRecords + Clone> ServerBodies<R> {
    pub fn new(server: PasswordServer<R>) -> Self {
        let mut side = ServerNegotiation::new(server);
        let offer = side.receive(HEADER).unwrap().sent[12..].to_vec();
        Self { side, offer }
    }

    pub fn on_frame(&mut self, body: &[u8]) -> Result<Vec<u8>, ConnectionError> {
        let sent = self.side.receive(&sized(body))?.sent;
        answered(&sent, self.progress())
    }
}

impl<R: UserRecords + Clone> Deref for ServerBodies<R> {
    type Target = ServerNegotiation<R>;

    fn deref(&self) -> &ServerNegotiation<R> {
        &self.side
    }
}

/// The message as text.
pub fn text(bytes: &[u8]) -> &str {
    std::str::from_utf8(bytes).unwrap()
}

/// The whole login of both sides, or the error of the server.
pub fn log_in<C: ScramCredentialProvider + Clone>(
    client: &mut ScramClient,
    server: &mut ScramAuthenticator<C>,
) -> Result<(), ServerScramErrorKind> {
    let first = server.compute_server_first_message(&client.compute_client_first_message())?.unwrap();
    let last = client.compute_client_final_message(text(&first)).unwrap();
    let last = server.compute_server_final_message(&last)?.unwrap();
    client.validate_server_final(&last).unwrap();
    Ok(())
}

/// Two users with the password `pencil`, in the lines that `scram users add` writes. The keys are those of Python's hashlib.
pub const ADDED: &str = "\
user SCRAM-SHA-256$4096:AAECAwQFBgcICQoLDA0ODw==$zHCdol2044/ZyWzPLi7oxApCkamKw9Z+E4U/QApd/5Y=:\
dd5peBOitVnLNFu7VmwP+HiDaaw4OUCv396eVCWhYiE=
user SCRAM-SHA-512$4096:EBESExQVFhcYGRobHB0eHw==$XjH5BZdXkmM8w5J1peSnizSCjvfu0pucYUkSAVBm+GMQt84Qh85YgmAICw2RQtIdyd8HsacsBl3r\
CsuATg5I4A==:o+SoKEDA9i7YfqFhAi68pDN6T5ldGrXuNmQ6TVPJRW6HH3loVvOSCOiBUcMXcKi8ukYNx4YZ0fDjLPc0VmtFkw==
a=2Cb=3Dc SCRAM-SHA-256$4096:ICEiIyQlJicoKSorLC0uLw==$ZTWgj78bXCcQeJzhvnZQd2TJp4kqhlKdTNdJFHqz7RY=:\
2A06aus2br49I9clT6DceiWWCMq9b9KD0OdsGrTNIA4=
a=2Cb=3Dc SCRAM-SHA-512$4096:MDEyMzQ1Njc4OTo7PD0+Pw==$wvIAzWYbknCBENSZscKAqnQ/bvTKpKL2/GpfbSLPlJz4H5l9ATPPKWtca44MLuJRLP5MXx5\
mmVPUEARkEqfjKA==:kSrIryd6BuvHgn59exbuPccGIc6wqiDly7yZFQpt9B+nkb5/DbRzls3S5i7sl9Q2yWRSdUfMt8w7oUdmAojU8A==
";

/// A file of users in the folder of temporary files, which is removed with its secret.
pub struct UsersFile(String);

impl UsersFile {
    /// Writes the file. Each test has its own name.
    pub fn new(name: &str, lines: &str) -> Self {
        let path: PathBuf = std::env::temp_dir().join(format!("fe2o3-sasl-{name}-{}.txt", process::id()));
        fs::write(&path, lines).unwrap();
        Self(path.to_str().unwrap().to_owned())
    }

    pub fn path(&self) -> &str {
        &self.0
    }
}

impl Drop for UsersFile {
    fn drop(&mut self) {
        let _ = fs::remove_file(&self.0);
        let _ = fs::remove_file(format!("{}.secret", self.0));
    }
}
