//! Verifies OpenPGP signatures: those in keyrings, and those on data. Programs of this package use it, which are in
//! `src/bin`.
//!
//! **Certificates.** [`input`] reads files and certificate directories out of their armor, [`keyring`] cuts them into
//! [`certificate`]s, and says in [`notice`]s what it left out. [`verify`] says whether a key made a signature on a
//! component of a certificate.
//!
//! **Signatures on data.** [`data::Signed`] names a file with its detached signatures, or a file that holds both: a
//! signed message or a text with a cleartext signature. Opened, it says which issuers its signatures name, so that
//! the caller can look for their certificates. With these it verifies, by Sequoia's standard policy at a time. The
//! [`finding`] on each signature has its word, the certificate and the key, and what the signature says of itself
//! ([`said`]): type, algorithms, times, issuers, and the Signer's User ID.
//!
//! ```no_run
//! use std::path::Path;
//! use tukyamid_verify::{certificate::certificates, data::Signed, holders::Holders};
//!
//! # fn find(_: &tukyamid_verify::signature::Issuer) -> Vec<u8> { vec![] }
//! # fn main() -> Result<(), tukyamid_verify::data::Broken> {
//! let signed = Signed::Detached { data: Path::new("file"), signatures: Path::new("file.sig") };
//! let opened = signed.open()?;
//! let octets: Vec<u8> = opened.said().iter().flat_map(|said| &said.issuers).flat_map(find).collect();
//! let found = certificates(&octets, true, |place, what| eprintln!("octet {place}: {what:?}"));
//! for finding in opened.findings(&Holders::of(&found), None)? {
//!     println!("{finding}");
//! }
//! # Ok(())
//! # }
//! ```
//!
//! Paths are `-` for standard input; `/dev/fd/N` names a descriptor. A FIFO may be silent for ten seconds: [`opening`].
//! Data are read in pieces and may have any length. What isn't data is bounded: 16 MiB of signatures, 1000 of them,
//! 16 MiB a line of a text, eight issuers a signature. [`confinement`] bounds what the process may use for this.
//!
//! Nothing here writes to standard output or standard error, or ends the process.

pub mod bound;
pub mod certificate;
mod cleartext;
pub mod confinement;
mod curves;
pub mod data;
pub mod digesting;
pub mod digits;
pub mod facts;
pub mod files;
mod filter;
pub mod finding;
pub mod fingerprint;
pub mod hasher;
pub mod holders;
pub mod input;
pub mod keyring;
pub mod keys;
pub mod layout;
mod library;
pub mod message;
mod mixed;
pub mod notice;
pub mod number;
pub mod opening;
mod own;
pub mod packets;
pub mod said;
pub mod shown;
pub mod signature;
mod signature_id;
mod signing;
pub mod spool;
pub mod verify;
mod walk;
