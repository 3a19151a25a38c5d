//! ECDSA over the curves that gpg has and neither Sequoia nor Nettle: those of Brainpool (RFC 5639) and secp256k1. By
//! OpenSSL's library, which is loaded with the first such key: loading it takes longer than a usual signature.

use std::mem;
use std::os::raw::{c_int, c_void};
use std::ptr;

use lazy_static::lazy_static;
use libloading::Library;
use sequoia_openpgp::crypto::mpi;
use sequoia_openpgp::serialize::MarshalInto;
use sequoia_openpgp::types::PublicKeyAlgorithm;

use crate::verify::Failure;

/// The curves as a key's material names them: the length of an object identifier, and its octets. Then their numbers in
/// OpenSSL (openssl/obj_mac.h).
const CURVES: [(&[u8], c_int); 4] = [
    (b"\x09\x2b\x24\x03\x03\x02\x08\x01\x01\x07", 927),
    (b"\x09\x2b\x24\x03\x03\x02\x08\x01\x01\x0b", 931),
    (b"\x09\x2b\x24\x03\x03\x02\x08\x01\x01\x0d", 933),
    (b"\x05\x2b\x81\x04\x00\x0a", 714),
];

type Object = *mut c_void;

/// What is called of the library (openssl/ec.h and openssl/bn.h, version 3). Calls that return a number return 1 if
/// all is well.
struct Crypto {
    new_key: unsafe extern "C" fn(c_int) -> Object,
    set_point: unsafe extern "C" fn(Object, *const u8, usize, Object) -> c_int,
    check_key: unsafe extern "C" fn(Object) -> c_int,
    free_key: unsafe extern "C" fn(Object),
    read_number: unsafe extern "C" fn(*const u8, c_int, Object) -> Object,
    free_number: unsafe extern "C" fn(Object),
    new_signature: unsafe extern "C" fn() -> Object,
    set_numbers: unsafe extern "C" fn(Object, Object, Object) -> c_int,
    free_signature: unsafe extern "C" fn(Object),
    verify: unsafe extern "C" fn(*const u8, c_int, Object, Object) -> c_int,
    /// The calls are there as long as this is.
    _library: Library,
}

lazy_static! {
    static ref CRYPTO: Option<Crypto> = Crypto::load();
}

/// Loads the library now, before nothing can be opened any more.
pub fn load() {
    lazy_static::initialize(&CRYPTO);
}

impl Crypto {
    /// None if it isn't installed: then nothing can be said about such keys.
    fn load() -> Option<Crypto> {
        unsafe {
            let library = Library::new("libcrypto.so.3").ok()?;
            Some(Crypto {
                new_key: *library.get(b"EC_KEY_new_by_curve_name\0").ok()?,
                set_point: *library.get(b"EC_KEY_oct2key\0").ok()?,
                check_key: *library.get(b"EC_KEY_check_key\0").ok()?,
                free_key: *library.get(b"EC_KEY_free\0").ok()?,
                read_number: *library.get(b"BN_bin2bn\0").ok()?,
                free_number: *library.get(b"BN_free\0").ok()?,
                new_signature: *library.get(b"ECDSA_SIG_new\0").ok()?,
                set_numbers: *library.get(b"ECDSA_SIG_set0\0").ok()?,
                free_signature: *library.get(b"ECDSA_SIG_free\0").ok()?,
                verify: *library.get(b"ECDSA_do_verify\0").ok()?,
                _library: library,
            })
        }
    }
}

/// Something of the library's, which is freed in the end.
struct Owned {
    object: Object,
    free: unsafe extern "C" fn(Object),
}

impl Owned {
    fn new(object: Object, free: unsafe extern "C" fn(Object)) -> Option<Owned> {
        (!object.is_null()).then(|| Owned { object, free })
    }
}

impl Drop for Owned {
    fn drop(&mut self) {
        unsafe { (self.free)(self.object) }
    }
}

/// A point on one of the curves.
pub struct PublicKey {
    curve: c_int,
    point: Vec<u8>,
}

/// Whether the material of an ECDSA key names one of the curves.
pub fn is_curve_of(material: &[u8]) -> bool {
    CURVES.iter().any(|(front, _)| material.starts_with(front))
}

/// Whether one of the curves is named anywhere in some octets.
pub fn is_named_in(octets: &[u8]) -> bool {
    CURVES.iter().any(|(front, _)| octets.windows(front.len()).any(|some| some == *front))
}

impl PublicKey {
    /// None unless the material is one of the curves and a point on it.
    pub fn read(material: &[u8]) -> Option<PublicKey> {
        let (front, curve) = CURVES.iter().find(|(front, _)| material.starts_with(front))?;
        match mpi::PublicKey::parse(PublicKeyAlgorithm::ECDSA, material).ok()? {
            mpi::PublicKey::ECDSA { q, .. } if q.serialized_len() == material.len() - front.len() => {
                let key = PublicKey { curve: *curve, point: q.value().to_vec() };
                key.load(CRYPTO.as_ref()?).is_some().then(|| key)
            }
            _ => None,
        }
    }

    /// As the library has it; None if it isn't a point on the curve.
    fn load(&self, crypto: &Crypto) -> Option<Owned> {
        let key = Owned::new(unsafe { (crypto.new_key)(self.curve) }, crypto.free_key)?;
        let is_on_it = unsafe {
            (crypto.set_point)(key.object, self.point.as_ptr(), self.point.len(), ptr::null_mut()) == 1
                && (crypto.check_key)(key.object) == 1
        };
        is_on_it.then(|| key)
    }

    /// Whether this key made a signature of this material over a digest.
    pub fn verify(&self, digest: &[u8], material: &[u8]) -> Result<(), Failure> {
        let read = mpi::Signature::parse(PublicKeyAlgorithm::ECDSA, material).map_err(|_| Failure::Wrong)?;
        let is_good = match &read {
            mpi::Signature::ECDSA { r, s } if read.serialized_len() == material.len() => {
                self.is_good(digest, r.value(), s.value()).unwrap_or(false)
            }
            _ => false,
        };
        if is_good { Ok(()) } else { Err(Failure::Wrong) }
    }

    /// None if the library has no memory.
    fn is_good(&self, digest: &[u8], r: &[u8], s: &[u8]) -> Option<bool> {
        let crypto = CRYPTO.as_ref()?;
        let key = self.load(crypto)?;
        let number = |octets: &[u8]| {
            let length = c_int::try_from(octets.len()).ok()?;
            let number = unsafe { (crypto.read_number)(octets.as_ptr(), length, ptr::null_mut()) };
            Owned::new(number, crypto.free_number)
        };
        let (r, s) = (number(r)?, number(s)?);
        let signature = Owned::new(unsafe { (crypto.new_signature)() }, crypto.free_signature)?;
        if unsafe { (crypto.set_numbers)(signature.object, r.object, s.object) } != 1 {
            return None;
        }
        // They are freed with the signature from now on.
        mem::forget((r, s));
        let length = c_int::try_from(digest.len()).ok()?;
        Some(unsafe { (crypto.verify)(digest.as_ptr(), length, signature.object, key.object) } == 1)
    }
}
