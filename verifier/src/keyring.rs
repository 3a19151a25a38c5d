//! The certificates of the inputs.

use std::collections::HashMap;

use crate::certificate::{self, Certificate};
use crate::input::Text;
use crate::notice::{Notice, What};

/// The certificates of the texts; those of a directory's entry only if it holds the one that its name says.
pub fn cut<'a>(texts: &'a [Text], public: bool, notices: &mut Vec<Notice>) -> Vec<Certificate<'a>> {
    let mut all = Vec::new();
    for text in texts {
        let mut report = |place, what| notices.push(Notice { name: text.name.clone(), place, what });
        let mut certificates = certificate::certificates(&text.octets, public, &mut report);
        if text.octets.is_empty() {
            report(0, What::Empty);
        }
        if is_misfiled(text, &certificates) {
            report(0, What::Misfiled);
            certificates.clear();
        }
        all.append(&mut certificates);
    }
    all
}

fn is_misfiled(text: &Text, certificates: &[Certificate]) -> bool {
    let is_other = |certificate: &Certificate, name: &String| {
        certificate.fingerprint().map_or(false, |fingerprint| fingerprint.to_string() != *name)
    };
    match (&text.filed, certificates) {
        (None, _) | (Some(_), []) => false,
        (Some(name), [certificate]) => is_other(certificate, name),
        (Some(_), _) => true,
    }
}

pub fn without_doubles(certificates: Vec<Certificate>) -> Vec<Certificate> {
    let mut kept: Vec<Certificate> = Vec::with_capacity(certificates.len());
    let mut places: HashMap<Vec<u8>, Vec<usize>> = HashMap::new();
    for certificate in certificates {
        let same_key = places.entry(certificate.key().to_vec()).or_default();
        if !same_key.iter().any(|place| kept[*place].is_double_of(&certificate)) {
            same_key.push(kept.len());
            kept.push(certificate);
        }
    }
    kept
}
