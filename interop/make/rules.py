"""The rules that decide the cases: where each stands, and its sentence."""

from dataclasses import dataclass

PROFILE = "the profile"


@dataclass(frozen=True)
class Rule:
    """`source` is a section of RFC 9580, or the profile (docs/PROFILE.md of Tukyamid, whose words are quoted)."""

    source: str
    sentence: str


def standard(section: str, sentence: str) -> Rule:
    return Rule(f"RFC 9580 section {section}", sentence)


def profile(sentence: str) -> Rule:
    return Rule(PROFILE, sentence)


# Amounts, depths and paths.
ORDINARY = standard("5.2.3.21", "Level 0 has the same meaning as an ordinary validity signature.")
LEVEL_ONE = standard("5.2.3.21", "Level 1 means that the signed key is asserted to be a valid trusted introducer, "
                     "with the 2nd octet of the body specifying the degree of trust.")
LEVELS = standard("5.2.3.21", "Generally, a level n Trust Signature asserts that a key is trusted to issue level n-1 "
                  "Trust Signatures.")
NO_TRUST = profile("Without a trust subpacket, the depth is 0, which makes no introducer, and the amount is 120.")
LEAST = profile("A path's amount is the least residual amount of its root and its edges.")
POSITIVE_AMOUNT = profile("The next path is one of the valid paths of positive amount.")
DEPTH_AFTER = profile("an edge with n edges after it has a depth of at least n; a depth of 255 is unlimited")
ROOT_DEPTH = profile("A root is trusted to any depth.")
ROOT_AMOUNTS = profile("A trust root is a fingerprint with an amount from 1 to 255.")
ROOT_MISSING = profile("Its certificate may be missing, but it has edges only if it is there.")
ANSWER = profile("The answer for a wanted amount takes next paths until their sum reaches it or no path is left.")
NOT_REDUCED = profile("The amount of the last path isn't reduced if the sum exceeds what was wanted.")
ORDER = profile("Fewer edges come first, then a greater amount.")
LESSER_LIST = profile("If paths are equal in both, they are compared as lists: by issuers, targets, and the place of "
                      "each user ID among the target's user IDs. The lesser list comes first.")
RESIDUAL = profile("The residual amount of a root or an edge is what the earlier paths of the answer leave of it.")
PAIR = profile("A path's amount is taken from its root, and from each pair of issuer and target on it, whichever user "
               "ID the edge is on.")
NO_MAXIMUM = profile("The sum isn't claimed to be a maximum flow.")
NO_ISSUER_TWICE = profile("no issuer occurs twice, and the target may be the issuer of the last edge only (its "
                          "self-certification of U)")
LAST_EDGE = profile("the last edge is on U, and the target is a valid target for U. Earlier edges may be on any user "
                    "ID.")
CHAIN = profile("each edge leads to the issuer of the next, the last one to the target")
LONGEST = profile("A valid path from a root to a binding, the user ID U of a target, is a list of 1 to 255 usable "
                  "edges:")
SELF_EDGE = profile("A self-certification is an edge of depth 0 and amount 120 without a scope, whatever it says.")

# Scopes.
EXTENDED = standard("5.2.3.22", "Only signatures by the target key on User IDs that match the regular expression in "
                    "the body of this packet have trust extended by the Trust Signature subpacket.")
SCOPES = profile("the scopes of all edges but the last cover U")
COVERS = profile("A scope covers a user ID if it has no regular expression, or if the user ID is UTF-8 and at least "
                 "one parseable regular expression of the scope matches it.")
COVERS_NOTHING = profile("If none is parseable, the scope covers nothing.")
ALL_COUNT = profile("All regular expressions count.")
ZERO_OCTET = profile("one regular expression of its scope; one zero octet at its end is removed")

# Time.
NEVER_EXPIRES = standard("5.2.3.18", "If this is not present or has a value of zero, it never expires.")
VALIDITY = standard("5.2.3.18", "The validity period of the signature. This is the number of seconds after the "
                    "signature creation time that the signature expires.")
LIVE = profile("A signature is live from the second in which it was created until its validity period ends: created "
               "at 3000 with a period of 100 seconds, it is live from 3000 to 3099.")
NOT_YET = profile("Nothing that was created after it exists yet, with one exception: a hard revocation of a key holds "
                  "at all times.")
EITHER_DIRECTION = profile("A view's time can move in either direction.")
NEWER = profile("Of two signatures, the newer one is the one that was created later.")
SAME_SECOND_NEWER = profile("If both were created in the same second, it is the one with the greater number.")
NEWEST_COUNTS = profile("The edge from an issuer to a key and user ID is the issuer's newest certification (0x10 to "
                        "0x13) of that user ID that counts, is live and isn't revoked.")
OLDER_RETURNS = profile("When it ends, an older one that is still live takes its place.")
KEY_VALIDITY = standard("5.2.3.13", "The validity period of the key. This is the number of seconds after the key "
                        "creation time that the key expires.")
KEY_NEVER = standard("5.2.3.13", "If this is not present or has a value of zero, the key never expires.")
KEY_END = profile("A key ends at its creation time plus the key expiration of the signature that governs it.")
BEFORE_END = profile("The issuer must have been created at s or before, and must not have ended or been soft revoked "
                     "at s or before.")
RETIRED_GOES_ON = profile("So a retired key's earlier certifications go on counting, and a compromised key's never "
                          "do.")
TARGET = profile("A key is a valid target for a user ID if it is in the keyring, has standing, is already created "
                 "at the view's time, hasn't ended, isn't revoked, has that user ID and hasn't revoked it.")
NO_WRAP = profile("All times are seconds since 1970, in 32 bits. Sums of times don't wrap.")

# Revocations.
KEY_REVOKED = standard("5.2.1", "A revoked key is not to be used.")
BY_ITSELF = standard("5.2.1", "Only revocation signatures by the key being revoked, or by a (deprecated) Revocation "
                     "Key, should be considered valid revocation signatures.")
SUSPECT = standard("5.2.3.31", "If a key has been revoked because of a compromise, all signatures created by that key "
                   "are suspect.")
STILL_VALID = standard("5.2.3.31", "However, if it was merely superseded or retired, old signatures are still valid.")
REVOKED_CERTIFICATION = standard("5.2.3.31", "A revoked certification is no longer a part of validity calculations.")
SAME_KEY = standard("5.2.1", "It should be issued by the same key that issued the revoked signature or by a "
                    "(deprecated) Revocation Key.")
REVOKES_DIRECT = standard("5.2.1", "This signature revokes an earlier User ID certification signature (Type IDs 0x10 "
                          "through 0x13) or Direct Key signature (Type ID 0x1F).")
LATER_DATE = standard("5.2.1", "The signature is computed over the same data as the certification that it revokes, "
                      "and it should have a later creation date than that certification.")
NOT_REVOCABLE = standard("5.2.3.20", "Signatures that are not revocable have any later revocation signatures ignored.")
SOFT_FROM = profile("A soft revocation holds from its creation on, while it is live.")
HARD_ALWAYS = profile("A hard one holds at all times, even before its creation and after its validity period.")
NOT_UNDONE = profile("A later self-signature doesn't undo a revocation of the key.")
BY_OTHERS = profile("A revocation by another key has no effect.")
SAME_SECOND = profile("The revocation has to be live, and created in the same second as that signature or later.")
ANY_REASON = profile("Its reason makes no difference.")
REVOCATION_STAYS = profile("A signature that says that it isn't revocable can't be revoked, and neither can a "
                           "revocation.")
USER_ID_REVOKED = profile("A user ID is revoked by its own key if it has a live revocation by that key, and no "
                          "self-certification that is live and not revoked.")
OTHER_CODES = profile("any other code, or no reason at all; hard")
CODES = {
    0: profile("no reason is specified; 0; hard"), 1: profile("the key is superseded; 1; soft"),
    2: profile("key material has been compromised; 2; hard"),
    3: profile("the key is retired and no longer used; 3; soft"),
    32: profile("user ID information is no longer valid; 32; soft"),
}

# Self-signatures and user IDs.
STANDING = profile("A key without a signature that governs it has no standing: its certifications don't count, "
                   "and no question about it has a path.")
GOVERNS = profile("The newest direct key signature (0x1F) that is live and not revoked governs the key.")
OF_USER_IDS = profile("If there is none, take for each user ID its newest self-certification that is live and not "
                      "revoked. Of these, the newest with a primary mark governs, or the newest of all if none has a "
                      "primary mark.")
OLD_MARK = profile("A primary mark on an older self-certification of the same user ID has no effect.")
NOT_NEEDED = profile("The user ID needs no self-certification.")
MOST_RECENT = standard("5.2.3.10", "An implementation that encounters multiple self-signatures on the same object "
                       "MUST select the most recent valid self-signature and ignore all other self-signatures.")
NO_RESTRICTIONS = standard("5.11", "By convention, it includes an RFC 2822 mail name-addr, but there are no "
                           "restrictions on its content.")
USER_ID_HASHED = standard("5.2.4", "A certification signature (Type ID 0x10 through 0x13) hashes the User ID being "
                          "bound to the key into the hash context after the above data.")
AS_OCTETS = profile("Strings of octets, such as fingerprints, user IDs and signature bodies, are compared "
                    "lexicographically.")
HAS_USER_ID = profile("hasn't ended, isn't revoked, has that user ID and hasn't revoked it.")
TWICE = profile("A user ID that occurs twice has the signatures of both.")
FOUR_TYPES = profile("certification of a user ID: generic, persona, casual, positive; all four alike")

# Hash algorithms, subpackets, packets.
RECENT_HASHES = standard("9.5", "Implementations MUST NOT validate any recent signature that depends on MD5, SHA-1, "
                         "or RIPEMD-160.")
OLD_HASHES = standard("9.5", "Implementations SHOULD NOT validate any old signature that depends on MD5, SHA-1, or "
                      "RIPEMD-160 unless the signature's creation date predates known weakness of the algorithm used")
SHA1_UNTIL = profile("SHA-1 (2), RIPEMD-160 (3); always; if created before 1 February 2013, 0:00 UTC (before second "
                     "1359676800)")
ALWAYS = profile("SHA2-256 (8), SHA2-384 (9), SHA2-512 (10), SHA2-224 (11), SHA3-256 (12), SHA3-512 (14); always; "
                 "always")
NEVER = profile("any other, such as MD5 (1); never; never")
OLD_REVOCATIONS = profile("With an old hash algorithm a revocation still counts, no matter when it was created.")
LAST_ONE = standard("5.2.3.9", "In most cases, an implementation SHOULD use the last subpacket in the hashed section "
                    "of the signature")
LAST_COUNTS = profile("Of several known subpackets of one type the last one counts.")
CRITICAL = standard("5.2.3.7", "If a subpacket is encountered that is marked critical but is unknown to the "
                    "evaluating software, the evaluator SHOULD consider the signature to be in error.")
UNKNOWN_IGNORED = profile("Other unknown subpackets have no effect, so an earlier known one of the same type stays in "
                          "force.")
HASHED_ALONE = profile("What a version 4 or 6 signature says is read from its hashed area alone (RFC 9580, section "
                       "5.2.3).")
UNHASHED_FAULT = profile("If the unhashed area has such a fault, only the hint is lost.")
MALFORMED_AREA = profile("A signature of another version, with a part missing, or with a hashed area that isn't a list "
                         "of subpackets isn't parseable.")
TABLE_SIZES = profile("A subpacket is unknown if its type isn't in this table, if its size isn't the one in its row, "
                      "or if an issuer fingerprint begins with a version that doesn't match its size.")
NO_VERDICT = profile("A signature without a verdict counts for nobody, whatever it says about itself.")
UNDERSTOOD = profile("A signature with an unknown critical subpacket isn't well-formed.")
LENGTH_FORMS = standard("5.2.3.7", "The encoded subpacket length (1, 2, or 5 octets)")
CREATION_MUST = standard("5.2.3.11", "This subpacket MUST be present in the hashed area.")
WELL_FORMED = profile("A signature is well-formed if it is parseable, has a creation time and no unknown critical "
                      "subpacket.")
ISSUER_SAME = profile("its hashed issuer fingerprint, if it has one, is that key's")
MADE_IT = profile("its verdict says that this key made it")
HINT_ONLY = profile("An issuer key ID proves nothing.")
MALFORMED = standard("5.2.5", "When an implementation encounters a malformed or unknown signature, it MUST ignore the "
                     "signature for validation purposes.")
NOT_HALT = standard("5.2.5", "At the same time, it MUST NOT halt processing on the packet stream or reject other "
                    "signatures in the same packet stream just because an unknown or invalid signature exists.")
NON_CRITICAL = standard("4.3", "On the other hand, an unknown non-critical packet MUST be ignored.")
CRITICAL_PACKET = standard("4.3", "If a critical packet is encountered where the packet type is unknown in a packet "
                           "sequence, the implementation SHOULD reject the whole packet sequence")
EITHER_FORMAT = profile("Packets may be in either format, and the two may be mixed. A length that is spelled longer "
                        "than needed is accepted.")
IGNORED_PACKETS = profile("marker, trust, padding: ignored")
KEPT_ONCE = profile("Components and signatures with the same octets are kept once, in the order of their octets.")
MERGED = profile("Certificates of one key may be merged in any order, in any groups and repeatedly: the result is the "
                 "same.")
WHOLE = profile("Octets that contain several certificates are imported as a whole or not at all.")
ORDER_OF_PACKETS = profile("A signature, user ID, attribute or subkey before the first primary key is refused as "
                           "`order`, octets without a primary key as `empty`.")
REFUSED = profile("secret keys: refused as `secret`")
ANY_OTHER = profile("any other; refused as `kind`")
COMPRESSED = profile("compressed data: refused as `compressed`")
DROPPED = profile("dropped, with all signatures up to the next key, user ID, attribute or subkey")
BELONGS = profile("A signature belongs to the last component before it, or to the key if there is none.")
S_RANGE = Rule("RFC 8032 section 5.1.7", "If any of the decodings fail (including S being out of range), the signature "
               "is invalid.")
VERSIONS = profile("Keys of both versions can certify each other, and no rule of trust looks at a version.")
ANY_ALGORITHM = profile("Any algorithm is accepted, and key material is never looked at.")
NO_EFFECT = profile("certifications by subkeys, designated revokers, attestations; have no effect; RFC 9580 defines "
                    "them")
DIRECT_BY_OTHERS = profile("direct key signatures by other keys; have no effect; RFC 9580 allows them")
ROOT_USED_UP = profile("a root's amount; is used up by the paths from it; in Sequoia it isn't")
EXPIRATION_DIFFERS = profile("a key's expiration; is the newest direct key signature's, if any; gpg and Sequoia also "
                             "use self-certifications")
SELF_DIFFERS = profile("self-certification of a user ID; not needed if another governs; Sequoia needs one no newer "
                       "than the certification")
NOTATIONS = profile("critical notations; mean that their signature isn't well-formed; RFC 9580 lets a program "
                    "recognise some")
VERSIONS_UNCOMPARED = profile("versions of a signature and of its keys; aren't compared; RFC 9580 wants them equal")
OTHER_KEYS = profile("keys of other versions; are skipped; RFC 9580 also describes version 3")
OTHER_SIGNATURES = profile("Signatures of versions other than 4 and 6 are kept and never count.")
SUBKEY_REVOKED = profile("revocation of a subkey; kept, but no answer looks at it")
KEY_FLAGS = profile("4, 11, 12, 21 to 24, 26 to 28, 30 to 32, 35, 39; other known types; any; no effect here")
CERTIFICATIONS = profile("A certification is a signature that vouches for a binding.")
LOCAL = profile("local certifications (not exportable); count, and are exported; RFC 9580 says not to export them")
