//! Signatures on data as the library verifies them by its standard policy, also on the subkey that signed: its binding,
//! its flags, its end and its revocations.

use std::io::Read;
use std::time::{Duration, SystemTime, UNIX_EPOCH};

use sequoia_openpgp as openpgp;

use openpgp::packet::Tag;
use openpgp::parse::stream::{
    DetachedVerifierBuilder, MessageLayer, MessageStructure, VerificationHelper, VerifierBuilder,
};
use openpgp::parse::{PacketParser, Parse};
use openpgp::policy::StandardPolicy;
use openpgp::{Cert, KeyHandle, Packet};

use crate::data::Stop;
use crate::finding::{Finding, Word};
use crate::holders::Holders;

/// Verifies with these certificates, at a time or now.
#[derive(Clone, Copy)]
pub struct Library<'h> {
    pub holders: &'h Holders<'h>,
    pub at: Option<u32>,
}

impl<'h> Library<'h> {
    pub fn detached(
        self,
        signatures: impl Read + Send + Sync,
        data: impl Read + Send + Sync,
    ) -> Result<Vec<Finding>, Stop> {
        let policy = self.policy();
        let builder = DetachedVerifierBuilder::from_reader(signatures)?;
        let mut verifier = builder.with_policy(&policy, self.time(), self.collector())?;
        verifier.verify_reader(data)?;
        Ok(verifier.into_helper().findings)
    }

    /// Of a message or a text that holds its signatures. What is signed goes to `content`, whose errors are the
    /// caller's.
    pub fn whole(
        self,
        message: impl Read + Send + Sync,
        content: &mut dyn FnMut(&[u8]) -> Result<(), Stop>,
    ) -> Result<Vec<Finding>, Stop> {
        let policy = self.policy();
        let builder = VerifierBuilder::from_reader(message)?;
        let mut verifier = builder.with_policy(&policy, self.time(), self.collector())?;
        let mut piece = vec![0; 1 << 16];
        loop {
            let length = verifier.read(&mut piece).map_err(anyhow::Error::from)?;
            if length == 0 {
                return Ok(verifier.into_helper().findings);
            }
            content(&piece[..length])?;
        }
    }

    fn time(&self) -> Option<SystemTime> {
        self.at.map(|seconds| UNIX_EPOCH + Duration::from_secs(seconds.into()))
    }

    fn policy(&self) -> StandardPolicy<'static> {
        self.time().map_or_else(StandardPolicy::new, StandardPolicy::at)
    }

    fn collector(&self) -> Collector<'h> {
        Collector { holders: self.holders, findings: Vec::new() }
    }
}

/// Hands the library the certificates that it asks for, and collects what it finds.
struct Collector<'h> {
    holders: &'h Holders<'h>,
    findings: Vec<Finding>,
}

impl VerificationHelper for Collector<'_> {
    /// Signatures of other versions aren't signatures to the library, and it would say nothing of them.
    fn inspect(&mut self, parser: &PacketParser) -> openpgp::Result<()> {
        if let Packet::Unknown(unknown) = &parser.packet {
            if unknown.tag() == Tag::Signature {
                self.findings.push(Finding::unread(Word::Unsupported, unknown.error()));
            }
        }
        Ok(())
    }

    fn get_certs(&mut self, handles: &[KeyHandle]) -> openpgp::Result<Vec<Cert>> {
        self.holders.with_keys(handles)
    }

    fn check(&mut self, structure: MessageStructure) -> openpgp::Result<()> {
        for layer in structure {
            if let MessageLayer::SignatureGroup { results } = layer {
                self.findings.extend(results.into_iter().map(Finding::of));
            }
        }
        Ok(())
    }
}
